"""Runs of the program on a file, and talks with it over loopback: as a relay is asked, and as it is answered in a sync."""
import os
import select
import socket
import subprocess
import time
from pathlib import Path

TOP = Path(__file__).resolve().parents[2]
PROGRAM = os.path.realpath(os.environ.get("MESSENGER", TOP / "crates/messenger/out/messenger"))
SECONDS = 1
PAUSES = (2, 10, 30, 60, None)


class Failed(Exception):
    pass


def expect(what, got, wanted):
    if got != wanted:
        raise Failed(f"{what}: {got!r:.400}, and not {wanted!r:.400}")


# ---- runs


class Folder:
    """A folder in which the program runs, with one file or none."""

    def __init__(self, work, name, file):
        self.path, self.file = work / name, work / name / file
        self.path.mkdir()
        self.process, self.words, self.before, self.given = None, (), None, b""

    def image(self):
        return self.file.read_bytes() if self.file.exists() else None

    def begin(self, image, *words):
        """Puts the file, or none, and begins a command."""
        if image is None:
            self.file.unlink(missing_ok=True)
        elif self.image() != image:
            self.file.write_bytes(image)
        pipe = subprocess.PIPE
        self.before, self.words = image, words
        self.process = subprocess.Popen([PROGRAM, *words], cwd=self.path, stdin=pipe, stdout=pipe, stderr=pipe)

    def stop(self):
        if self.process and self.process.poll() is None:
            self.process.kill()
            self.process.communicate()

    def ended(self, given=b""):
        """The status and the lines."""
        try:
            lines, errors = self.process.communicate(given, timeout=SECONDS)
        except subprocess.TimeoutExpired:
            raise TimeoutError from None
        expect("standard error", errors, b"")
        expect("other files", [name for name in os.listdir(self.path) if name != self.file.name], [])
        return self.process.returncode, lines.decode("ascii")

    def in_time(self, attempt, *given):
        """An attempt, and more of them where it takes too long, each after a longer pause: the machine may be busy."""
        for pause in PAUSES:
            try:
                return attempt(*given)
            except TimeoutError:
                self.stop()
                if pause is None:
                    raise Failed("it doesn't end in time") from None
                time.sleep(pause)

    def run(self, image, *words, given=b""):
        """The status and the lines of a command on a file, and the file that is left."""
        self.given = given

        def once():
            self.begin(image, *words)
            return self.ended(given)

        return *self.in_time(once), self.image()


def talk(peer, bytes_to_send):
    """What comes back for bytes, and whether it may be cut off, as something that was sent wasn't read."""
    came = b""
    peer.settimeout(SECONDS)
    try:
        peer.sendall(bytes_to_send)
        peer.shutdown(socket.SHUT_WR)
        while piece := peer.recv(65536):
            came += piece
    except TimeoutError:
        raise
    except OSError:
        return came, True
    return came, False


def expect_talk(what, came, wanted):
    expect(what, came[0] == wanted or came[1] and wanted.startswith(came[0]), True)


def serve(folder, image, boxes, stream):
    """A relay on a file, asked on one connection: its status, its lines and its replies."""
    folder.given = stream
    for _ in range(5):
        with socket.socket() as probe:
            probe.bind(("127.0.0.1", 0))
            port = probe.getsockname()[1]
        folder.begin(image, "relay", str(port), "1", *(box.decode() for box in boxes))
        if not select.select([folder.process.stdout], [], [], SECONDS)[0]:
            raise TimeoutError
        first = folder.process.stdout.readline().decode("ascii")
        came = b"", False
        if first == f"relay {port}\n":
            first = ""
            with socket.create_connection(("127.0.0.1", port), timeout=SECONDS) as peer:
                came = talk(peer, stream)
        status, lines = folder.ended()
        if first != "fault: link\n":
            return status, first + lines, came
    raise Failed("no port is free")


def sync(folder, image, replies):
    """A sync with what answers these bytes, whatever is asked: its status, its lines and its requests."""
    folder.given = replies
    with socket.create_server(("127.0.0.1", 0)) as door:
        door.settimeout(SECONDS)
        folder.begin(image, "sync", f"127.0.0.1:{door.getsockname()[1]}")
        peer, _ = door.accept()
        with peer:
            came = talk(peer, replies)
        return *folder.ended(), came
