"""A session whose boxes have keys, and runs of the program and of `examples/book-sync` on it."""
import subprocess
from pathlib import Path

from hostile.runs import PROGRAM, TOP, expect

BOOK_SYNC = TOP / "examples/book-sync"
PATIENCE = 300  # seconds until a run counts as stuck
KEY = b"0" * 64
SESSION = "70e0f9cd1a5863238d67aecce0c032e5"
# the keys that a session of this key has for its boxes, by another implementation
KEYS = {
    "1": (
        "e6a0fe18c0ea7be6a44404a7f6d3943e82e5133afcf383d714b2376e7f8988c5",
        "6c3205d74658b62091511b7567b670af23c244ce4d49967023c7cb4ea05a934f",
    ),
    "2": (
        "551cf9694de5f7555508dc5f0945b1b49bc14d1211553cdbdb0bc7b993390536",
        "714e125b813f00b01df9b010cb7c621699185591f0f92bb8948c7340a332e864",
    ),
}
BOXES = [f"{SESSION}-{box}={owner},{poster}" for box, (owner, poster) in KEYS.items()]


def run(folder, *words, given=b"", env=None):
    """The status and the lines of a command, or of another program, in a folder."""
    program = words if isinstance(words[0], Path) else (PROGRAM, *words)
    done = subprocess.run(program, cwd=folder, input=given, capture_output=True, timeout=PATIENCE, env=env)
    expect(f"standard error of {words[0]}", done.stderr, b"")
    return done.returncode, done.stdout.decode("ascii")


def does(folder, *words, given=b""):
    status, lines = run(folder, *words, given=given)
    expect(f"{' '.join(map(str, words))[:80]}: {lines}", status, 0)
    return lines


def begin(folder, name, side):
    folder.mkdir(exist_ok=True)
    does(folder, "book-begin", name, side, given=KEY)
    (folder / "keys").write_text("".join(f"{box}\n" for box in BOXES))
