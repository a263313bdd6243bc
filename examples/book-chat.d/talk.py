"""What talks with the people of a book: it says what was entered, and fetches and posts for each name in turn."""
import collections
import os
import queue
import subprocess
import threading
import time

from book import PROGRAM, TOP, Ended, ask, book_names, run_words
from inboxes import Inboxes
from window import readable

PAUSE, BOUND = float(os.environ.get("BOOK_PAUSE", "2")), float(os.environ.get("BOOK_BOUND", "30"))
MOST_BYTES = 4096
OUTCOMES = {
    "3 refused: BoxFull": "the box of {name} at the relay is full: what you say waits here",
    "3 refused: Unknown": "the relay has no boxes of {name}: ask who runs it",
    "3 refused: InboxFull": "the inbox of {name} is full of parts of long texts, which a book can't join: /drop {name}",
    "7": "the relay is away: what you say waits here",
    "12": "what answers there is no relay, or broke off: what you say waits here",
    "124": "the relay takes too long: what you say waits here",
}
OF_THE_RELAY = (7, 12, 124)  # what goes for all names


def pieces_of(raw):
    """A line in texts that fit, which end between two letters."""
    while len(raw) > MOST_BYTES:
        size = MOST_BYTES
        while size > MOST_BYTES - 4 and raw[size] & 0xC0 == 0x80:
            size -= 1
        yield raw[:size]
        raw = raw[size:]
    yield raw


class Talk(threading.Thread):
    """Says the lines that were entered, and fetches and posts for each name in turn."""

    def __init__(self, window, address, keys):
        super().__init__(daemon=True)
        self.window, self.address, self.keys = window, address, keys
        self.entered = queue.SimpleQueue()  # names and bytes; no bytes drop, and no names end
        self.turns, self.told, self.inboxes = collections.deque(), {}, Inboxes(window)
        self.is_over, self.stopped, self.is_away, self.syncing, self.ended = False, False, False, None, (0, "")

    # ---- saying

    def say_entered(self):
        """Does what was entered: says lines, and drops what can't be joined."""
        while not self.is_over:
            try:
                names, raw = self.entered.get_nowait()
            except queue.Empty:
                return
            if names is None:
                self.is_over = True
            elif raw is None:
                self.inboxes.drop(names[0])
            else:
                for piece in pieces_of(raw):
                    self.say(names, piece)

    def say(self, names, raw):
        """Says a text to one, or to all of several, once there is room for it."""
        to, is_told = ", ".join(names), False
        text = os.fsdecode(raw)
        words = ["book-say", "--", names[0], text] if len(names) == 1 else ["fan", "--", text, *names]
        while True:
            status, lines = run_words(*words)
            last = "".join(lines[-1:])
            if status == 0:
                self.window.log(">", to, readable(raw))
                return
            if status != 3 or not last.endswith("OutboxFull") or self.stopped:
                break
            if not is_told:
                self.window.tell(f"32 texts wait to be sent to one of {to}: this one is said once there is room")
                is_told = True
            if not any([self.sync(name) for name in names]):
                time.sleep(PAUSE)
        why = {2: "it is no UTF-8", 3: last.removeprefix("refused: ")}.get(status, last)
        self.window.tell(f"not said to {to}, {why}: {readable(raw)}")
        if status not in (2, 3):
            raise Ended(status, last)

    # ---- fetching and posting

    def sync(self, name):
        """Syncs a name, and shows what came: whether something moved."""
        state = dict(line.split(" ", 1) for line in ask("book-state", "--", name))
        if not state:
            return False
        words = [os.path.join(TOP, "examples/book-sync"), name, self.address]
        if f"{state['session']}-1" in self.keys and f"{state['session']}-2" in self.keys:
            words.append(self.keys[""])
        env = os.environ | {"MESSENGER": PROGRAM}
        self.syncing = subprocess.Popen(words, stdin=subprocess.DEVNULL, stdout=subprocess.PIPE, env=env, start_new_session=True)
        try:
            lines, status = self.syncing.communicate(timeout=BOUND)[0], self.syncing.returncode
        except subprocess.TimeoutExpired:
            self.syncing.terminate()
            lines, status = self.syncing.communicate()[0], 124
        self.syncing = None
        lines = lines.decode("ascii", "replace").splitlines()
        self.inboxes.show_new(name, state["session"])
        if not self.stopped:
            self.tell_outcome(name, status, lines)
        return status not in OF_THE_RELAY and any(line.startswith(("stored", "opened")) for line in lines)

    def tell_outcome(self, name, status, lines):
        """Tells what was refused, and how a sync ended, unless that was told last."""
        for line in lines:
            if line.startswith("refused "):
                self.window.tell(f"of {name} a packet was {line}: examples/why says what that means")
        last = "".join(lines[-1:])
        why = OUTCOMES.get(f"{status} {last}") or OUTCOMES.get(str(status))
        if last.startswith("refused: Denied "):
            why = "the relay asks for the keys of {name}: give a file that has them, as relay-keys prints them"
        if status and not why and last != "refused: NoName":
            raise Ended(status, last)
        key = "" if status in OF_THE_RELAY else name
        if not status and self.told.pop("", None):
            self.window.tell("the relay is there again")
        if why and self.told.get(key) != why:
            self.window.tell(why.format(name=name))
        self.told[key] = why
        self.is_away = status in OF_THE_RELAY

    # ---- the whole

    def turn(self):
        """A sync for each name, those first that weren't for longest, until something was entered."""
        names = book_names()
        self.turns = collections.deque([it for it in self.turns if it in names] + [it for it in names if it not in self.turns])
        moved = False
        for name in list(self.turns):
            if self.stopped or not self.is_over and not self.entered.empty():
                return True
            moved |= self.sync(name)
            self.turns.remove(name)
            self.turns.append(name)
            if self.is_away:
                return False
        return moved

    def run(self):
        try:
            while not self.is_over and not self.stopped:
                self.say_entered()
                until = time.monotonic() + PAUSE
                if not self.turn():
                    while self.entered.empty() and not self.stopped and time.monotonic() < until:
                        time.sleep(0.05)
            self.say_entered()
            if not self.stopped:
                self.turn()
            self.tell_waiting()
        except Ended as ended:
            self.ended = ended.args
        except OSError as error:
            self.ended = 5, str(error.strerror)
        self.window.end_reading()

    def tell_waiting(self):
        for name in book_names():
            waits = len(ask("book-outbox", "--", name))
            if waits:
                self.window.tell(f"{waits} for {name} wait in the outbox, for the next time")

    def stop(self):
        self.stopped = True
        if syncing := self.syncing:
            syncing.terminate()
