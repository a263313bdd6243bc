"""What examples/book-chat shows, above the line that is typed, and what it keeps in its log."""
import fcntl
import os
import re
import signal
import sys
import threading
import time

TURNS = {0x61C, 0x200E, 0x200F, *range(0x2028, 0x202F), *range(0x2066, 0x206A)}  # they turn the direction of writing


class Signal(BaseException):
    """A signal that ends this: its number."""


def readable(raw):
    """A text in which control bytes, marks that turn the direction of writing, and bytes that are no UTF-8 are \\x and digits."""
    escape = lambda it: "".join(f"\\x{byte:02x}" for byte in it.encode("utf8"))
    text = raw.decode("utf8", "backslashreplace")
    return "".join(escape(it) if ord(it) < 32 or 127 <= ord(it) < 160 or ord(it) in TURNS else it for it in text)


def bytes_of(quoted):
    """The bytes of a text as it is printed."""
    return re.sub(rb"\\x([0-9a-f]{2})", lambda it: bytes([int(it[1], 16)]), quoted.encode("ascii"))


class Window:
    """What is shown and typed here. One of them is at work in a folder."""

    def __init__(self):
        self.lock, self.typed, self.prompt, self.is_reading = threading.Lock(), lambda: None, "> ", False
        self.log_file = open("book-chat.log", "a", encoding="utf8", errors="backslashreplace")
        try:
            fcntl.flock(self.log_file, fcntl.LOCK_EX | fcntl.LOCK_NB)
        except BlockingIOError:
            sys.exit("book-chat: another book-chat is at work in this folder")
        for number in (signal.SIGTERM, signal.SIGHUP, signal.SIGUSR1):
            signal.signal(number, self.end_by)
        signal.signal(signal.SIGINT, signal.default_int_handler)

    def end_by(self, number, _):
        if number != signal.SIGUSR1 or self.is_reading:
            raise Signal(number)

    def end_reading(self):
        """Ends the wait for a line, from another thread."""
        os.kill(os.getpid(), signal.SIGUSR1)

    def show(self, line):
        with self.lock:
            before, after = "", "\n"
            if (typed := self.typed()) is not None:
                room = max(1, (os.get_terminal_size().columns or 80) - len(self.prompt) - 2)
                before, after = "\r\x1b[K", f"\n{self.prompt}{typed[-room:]}"
            sys.stdout.write(before + line + after)
            sys.stdout.flush()

    def tell(self, line):
        self.show(f"-- {line}")

    def log(self, mark, names, text):
        self.log_file.write(f"{time.strftime('%Y-%m-%d %H:%M:%S')} {mark} {names} {text}\n")
        self.log_file.flush()

    def lines(self):
        """The lines that are entered; at a terminal with arrow keys and history."""
        self.is_reading = True
        try:
            yield from self.typed_lines() if sys.stdin.isatty() else (it.removesuffix(b"\n") for it in sys.stdin.buffer)
        finally:
            self.is_reading, self.typed = False, lambda: None

    def typed_lines(self):
        import readline

        for setting in ("horizontal-scroll-mode on", "enable-bracketed-paste off", "disable-completion on"):
            readline.parse_and_bind(f"set {setting}")
        if sys.stdout.isatty():
            self.typed = readline.get_line_buffer
        while True:
            try:
                yield os.fsencode(input(self.prompt))
            except EOFError:
                return
