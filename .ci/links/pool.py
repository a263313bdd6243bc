"""Rooms side by side, and cases that are tried in them. For `.ci/failing-links` and `.ci/failing-memory`."""
import os
import signal
import subprocess
import sys
import tempfile
from concurrent.futures import FIRST_COMPLETED, ThreadPoolExecutor, wait
from contextlib import contextmanager
from pathlib import Path
from queue import SimpleQueue

from hostile.runs import PROGRAM, TOP, Failed
from links.rooms import PATIENCE, Room, Stopped

WORKERS = 4
ENDS = (signal.SIGINT, signal.SIGTERM, signal.SIGHUP)


@contextmanager
def rooms(check):
    """Rooms, which end with the check, also where a signal ends it."""
    came = []

    def stop(number, _):
        # nothing is raised here: that could be in the middle of what workers wait for
        came.append(number)
        Room.stopping = True

    for number in ENDS:
        signal.signal(number, stop)
    if not os.access(PROGRAM, os.X_OK):
        sys.exit(f"{check}: there is no program at {PROGRAM}")
    # in memory, where there is a folder for that: a disk's syncs would take most of the time
    memory = "/dev/shm" if os.access("/dev/shm", os.W_OK) else None
    made = []
    with tempfile.TemporaryDirectory(dir=memory) as name:
        library = Path(name, "library.so")
        if subprocess.run([TOP / ".ci/failing-library", library], timeout=PATIENCE).returncode:
            sys.exit(f"{check}: there is no library, by which calls fail")
        try:
            for number in range(WORKERS):
                made.append(Room(Path(name, str(number)), library))
            yield made
        except (Failed, Stopped) as failure:
            sys.exit(128 + came[0] if came else f"{check}: {failure}")
        finally:
            for room in made:
                room.close()


def try_all(workers, cases):
    """Does each case, a function and what it is given after a room, in a room that is free, and yields what it answers. The
    first that fails ends the others."""
    free = SimpleQueue()
    for room in workers:
        free.put(room)

    def in_a_room(act, *given):
        room = free.get()
        try:
            if Room.stopping:
                raise Stopped
            return act(room, *given)
        except BaseException:
            Room.stopping = True
            raise
        finally:
            free.put(room)

    with ThreadPoolExecutor(len(workers)) as pool:
        waiting = [pool.submit(in_a_room, *case) for case in cases]
        while waiting:
            # never without end, so that a signal is seen
            done, waiting = wait(waiting, 0.2, FIRST_COMPLETED)
            yield from (it.result() for it in done if not isinstance(it.exception(), Stopped))
    if Room.stopping:
        raise Stopped
