"""What examples/send-file and examples/receive-files share: runs of the program, syncs, and the line that names a piece.

A file goes as pieces of 260,096 bytes, the last of what is left, each a long text under a number of its own:

    messenger-file K/N SHA256 SIZE NAME

and a line feed stand before the bytes of the K-th of N pieces. SHA256 and SIZE are those of the whole file, and NAME is its
name, with %XX for each byte but letters, digits, dots, hyphens and underlines."""
import os
import re
import subprocess
import sys
import time
import urllib.parse

TOP = os.path.dirname(os.path.dirname(os.path.dirname(os.path.abspath(__file__))))
PROGRAM = os.path.abspath(os.environ.get("MESSENGER", os.path.join(TOP, "messenger")))
PAUSE = float(os.environ.get("FILES_PAUSE", "2"))  # seconds until something is tried again
PIECE, MOST_PIECES = 260_096, 4_096
PART = 4_090  # bytes of a part of a long text
LEAST_NUMBER = 1_000_000  # numbers below are left to whoever runs `say-long` by hand
NAMED = re.compile(rb"messenger-file ([0-9]{1,4})/([0-9]{1,4}) ([0-9a-f]{64}) ([0-9]{1,10}) ([A-Za-z0-9._%-]{1,765})\n")
ADDRESS = re.compile(r"[^:/]+:[0-9]{1,5}")
WAITS = {
    "3 refused: BoxFull": "the other's box at the relay is full: this goes on once it is fetched from",
    "3 refused: Unknown": "the relay has no box of this session: ask who runs it",
    "3 refused: InboxFull": "128 texts and parts wait in the inbox: read them (messenger inbox, done N), and this goes on",
    "7": "the relay is away: this waits for it",
    "12": "what answers there is no relay, or broke off: this tries again",
}


class Ended(Exception):
    """A status, and a line that says why."""


class Piece:
    """One piece of a file: what the line before its bytes says."""

    def __init__(self, number, count, digest, size, name):
        self.number, self.count, self.digest, self.size, self.name = number, count, digest, size, name

    def length(self):
        return min(PIECE, self.size - (self.number - 1) * PIECE)

    def line(self):
        return f"messenger-file {self.number}/{self.count} {self.digest} {self.size} {self.name}\n".encode()


def count_of(size):
    """How many pieces a file of a size has."""
    return max(1, -(-size // PIECE))


def piece_of(text):
    """The piece that a long text is, with its bytes, or none."""
    found = NAMED.match(text)
    if not found:
        return None
    number, count, size = int(found[1]), int(found[2]), int(found[4])
    piece = Piece(number, count, found[3].decode(), size, found[5].decode())
    content = text[found.end() :]
    if not 1 <= number <= count <= MOST_PIECES or count != count_of(size) or len(content) != piece.length():
        return None
    return piece, content


def written_name(name):
    """A file's name as it goes into a line."""
    return "".join(urllib.parse.quote_from_bytes(bytes([byte]), safe="") for byte in os.fsencode(name)).replace("~", "%7E")


def tell(line):
    try:
        print(line, flush=True)
    except OSError:
        os._exit(5)


def shown(name):
    """A name in which nothing does anything to a terminal."""
    return "".join(it if it.isprintable() else "?" for it in os.fsencode(name).decode("utf8", "replace"))


def run(*words):
    """The status and the lines of a command."""
    done = subprocess.run([PROGRAM, *map(str, words)], stdin=subprocess.DEVNULL, stdout=subprocess.PIPE, check=False)
    return done.returncode, done.stdout.decode("ascii").splitlines()


def ask(*words):
    """The lines of a command that has to do its work."""
    status, lines = run(*words)
    if status:
        raise Ended(status, "".join(lines[-1:]))
    return lines


class Relay:
    """The relay of an address, and what was told last of it; without an address somebody else syncs."""

    def __init__(self, address):
        self.address, self.told = address, None

    def tell_once(self, line):
        if line and line != self.told:
            tell(line)
        self.told = line

    def sync(self):
        """Whether a sync moved something."""
        if not self.address:
            self.tell_once("32 packets wait in the outbox: this goes on once a sync has sent some")
            return False
        status, lines = run("sync", self.address)
        last = "".join(lines[-1:])
        if status:
            why = WAITS.get(f"{status} {last}") or WAITS.get(str(status))
            if not why:
                raise Ended(status, last)
            self.tell_once(why)
        else:
            self.tell_once(None)
        return any(line.startswith(("stored", "opened")) for line in lines)

    def wait(self):
        time.sleep(PAUSE)


def put_file(path, content):
    """A file that is there whole or not at all, whatever happens meanwhile."""
    with open(path + ".new", "wb") as file:
        file.write(content)
        file.flush()
        os.fsync(file.fileno())
    os.replace(path + ".new", path)
    sync_folder(os.path.dirname(path) or ".")


def sync_folder(path):
    folder = os.open(path, os.O_RDONLY)
    os.fsync(folder)
    os.close(folder)


def ends(work, *given):
    """Runs the work of a script, and ends as it ended."""
    os.umask(0o077)
    try:
        work(*given)
    except Ended as ended:
        status, line = ended.args
        if line:
            tell(line)
        sys.exit(status)
    except OSError as error:
        tell(f"{shown(error.filename or PROGRAM)}: {error.strerror}")
        sys.exit(1)
    except KeyboardInterrupt:
        tell("ended: the same again goes on from here")
        sys.exit(130)
