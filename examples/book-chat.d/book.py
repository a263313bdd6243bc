"""Commands on the book, by the program."""
import os
import subprocess

TOP = os.path.dirname(os.path.dirname(os.path.dirname(os.path.abspath(__file__))))
PROGRAM = os.path.abspath(os.environ.get("MESSENGER", os.path.join(TOP, "messenger")))


class Ended(Exception):
    """A status, and a line that says why."""


def run_words(*words):
    """The status and the lines of a command."""
    done = subprocess.run(
        [PROGRAM, *words], stdin=subprocess.DEVNULL, stdout=subprocess.PIPE, check=False, start_new_session=True
    )
    return done.returncode, done.stdout.decode("ascii", "replace").splitlines()


def ask(*words):
    """The lines of a command on the book, or none where the name has left it."""
    status, lines = run_words(*words)
    if status and lines != ["refused: NoName"]:
        raise Ended(status, "".join(lines[-1:]))
    return [] if status else lines


def book_names():
    """The names of the book, by row."""
    return ask("book-list")
