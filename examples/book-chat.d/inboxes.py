"""What came for the people of a book, and what of that was shown."""
import os
import re

from book import ask
from window import bytes_of, readable

PART = re.compile(r"[0-9.]+ part ([0-9]+)/([0-9]+) of ([0-9]+)")


class Inboxes:
    """The texts of inboxes that were shown and stay there, by session and position."""

    def __init__(self, window):
        self.window, self.parts, self.seen = window, set(), read_seen()

    def show_new(self, name, session, drops_all=False):
        """Shows and logs the texts of an inbox that weren't, and drops those that stand before all parts, or all of it."""
        behind, first, has_parts = set(), 0, False
        lines = ask("book-inbox", "--", name)
        for line in lines:
            its = session, line.split(" ", 1)[0]
            if part := PART.fullmatch(line):
                has_parts = True
                self.tell_part(name, part)
                continue
            if its not in self.seen:
                text = readable(bytes_of(line.split('"')[1]))
                self.window.log("<", name, text)
                self.window.show(f"< {name}: {text}")
            if has_parts:
                behind.add(its)
            else:
                first += 1
        self.keep_seen(session, set() if drops_all else behind)
        if drops_all:
            first = len(lines)
        if first:
            ask("book-done", "--", name, str(first))
        return first

    def keep_seen(self, session, behind):
        """The texts that were shown and stay, as they stand behind parts: by session and position."""
        stay = {it for it in self.seen if it[0] != session} | behind
        if stay != self.seen:
            self.seen = stay
            write_seen(stay)

    def tell_part(self, name, part):
        if (name, part[3]) not in self.parts:
            self.parts.add((name, part[3]))
            told = f"{name} sends a long text of {part[2]} parts ({part[3]}): a book can't join them, and /drop {name} drops them"
            self.window.tell(told)

    def drop(self, name):
        """Shows what wasn't shown of an inbox, and drops all of it."""
        for line in ask("book-state", "--", name):
            if line.startswith("session "):
                count = self.show_new(name, line.split(" ")[1], drops_all=True)
                self.window.tell(f"{count} texts and parts of {name} are dropped")


def read_seen():
    """The texts that were shown and stand behind parts of long texts, by session and position."""
    try:
        with open("book-chat.seen", encoding="ascii") as file:
            return {tuple(line.split()) for line in file if len(line.split()) == 2}
    except FileNotFoundError:
        return set()


def write_seen(seen):
    with open("book-chat.seen.new", "w", encoding="ascii") as file:
        file.write("".join(f"{session} {position}\n" for session, position in sorted(seen)))
    os.replace("book-chat.seen.new", "book-chat.seen")
