"""Folders in which the program runs while calls of it fail, by the library of `.ci/failing-calls.c`; each has a port of its
own for a relay. For `.ci/failing-links` and `.ci/failing-memory`."""
import os
import shutil
import socket
import subprocess
import time

from hostile.runs import PROGRAM, Failed, expect

PATIENCE = 300  # seconds until what is waited for counts as missing: a busy machine can take long


class Stopped(Exception):
    """The check ends before this case does."""


class Room:
    """A session of two sides, one relay at a time, and at most one more process; all of them end with the room."""

    stopping = False  # then no room begins or waits for more

    def __init__(self, path, library):
        self.path, self.library, self.calls = path, library, path / "calls"
        self.processes = []
        for name in ("first", "second", "empty"):
            (path / name).mkdir(parents=True)
        # the kernel gives a port; a socket that doesn't listen keeps it from all but the relay of this room
        self.door = socket.socket()
        self.door.bind(("", 0))
        self.door.setsockopt(socket.SOL_SOCKET, socket.SO_REUSEADDR, 1)
        self.port = self.door.getsockname()[1]
        self.key = os.urandom(32).hex().encode() + b"\n"
        self.session = self.done("first", "begin", "first", given=self.key)[0].removeprefix("session ")
        expect("the session", self.done("second", "begin", "second", given=self.key), [f"session {self.session}"])

    def close(self):
        for process in self.processes:
            process.kill()
            process.wait()
        self.door.close()

    def again(self, source, folder):
        """A folder is a copy of another."""
        shutil.rmtree(self.path / folder, ignore_errors=True)
        shutil.copytree(self.path / source, self.path / folder)

    # ---- runs

    def begin(self, folder, words, faults, output):
        """Begins a run of the program, with what is to fail, as variables of the library; or with nothing."""
        if self.stopping:
            raise Stopped
        environment = dict(os.environ)
        if faults:
            self.calls.unlink(missing_ok=True)
            environment |= faults | {"FAILING_LOG": str(self.calls), "LD_PRELOAD": str(self.library)}
        process = subprocess.Popen(
            [PROGRAM, *words],
            cwd=self.path / folder,
            env=environment,
            stdin=subprocess.PIPE,
            stdout=output,
            stderr=subprocess.PIPE,
        )
        self.processes.append(process)
        return process

    def ended(self, process, given=b""):
        """The status and the lines of a process; it may say nothing on standard error."""
        until = time.monotonic() + PATIENCE
        while True:
            try:
                lines, errors = process.communicate(given, timeout=0.5)
                break
            except subprocess.TimeoutExpired:
                given = None
                self.wait_on(until, f"{process.args[1]} doesn't end")
        self.processes.remove(process)
        expect(f"standard error of {process.args[1]}", errors, b"")
        return process.returncode, (lines or b"").decode("ascii").splitlines()

    def wait_on(self, until, what):
        if self.stopping:
            raise Stopped
        if time.monotonic() > until:
            raise Failed(what)

    def ends_soon(self, process):
        """Whether a process ends by itself within two seconds."""
        try:
            process.wait(2)
        except subprocess.TimeoutExpired:
            return False
        return True

    def run(self, folder, *words, given=b"", faults=None):
        """The status and the lines of a command."""
        return self.ended(self.begin(folder, words, faults, subprocess.PIPE), given)

    def done(self, folder, *words, given=b""):
        """The lines of a command that has to do its work."""
        status, lines = self.run(folder, *words, given=given)
        expect(f"status of {words} in {folder}, which says {lines}", status, 0)
        return lines

    def logged(self):
        """What the library notes of each call of the last run in which one may fail, in their order: its name first."""
        return [line.split() for line in self.calls.read_text().splitlines()] if self.calls.exists() else []

    # ---- relays

    def start_relay(self, connections=1000000, faults=None):
        """A relay of both boxes in the folder `relay`; when this returns it listens, or has ended."""
        boxes = [f"{self.session}-1", f"{self.session}-2"]
        with open(self.path / "relay.lines", "wb") as output:
            relay = self.begin("relay", ["relay", str(self.port), str(connections), *boxes], faults, output)
        until = time.monotonic() + PATIENCE
        while f"relay {self.port}" not in self.relay_lines() and relay.poll() is None:
            self.wait_on(until, "a relay doesn't listen")
            time.sleep(0.002)
        return relay

    def relay_lines(self):
        """The lines of the relay, without one that isn't whole."""
        return (self.path / "relay.lines").read_text().rpartition("\n")[0].splitlines()

    def listening(self):
        """A relay that has to listen."""
        relay = self.start_relay()
        if relay.poll() is not None:
            raise Failed(f"the relay has status {relay.returncode}: {self.relay_lines()}")
        return relay

    def stop_relay(self, relay):
        relay.kill()
        relay.communicate()
        self.processes.remove(relay)

    def sync(self, folder, faults=None):
        return self.run(folder, "sync", f"127.0.0.1:{self.port}", faults=faults)
