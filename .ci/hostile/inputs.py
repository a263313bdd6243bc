"""What is changed: files of a session of two sides and of relays, made by the program, with all packets, and scripts."""
import random

from hostile.answers import frame, named, receipt_of, with_token
from hostile.changes import SCRIPTS
from hostile.areas import STATE_AREA, aged, found_in, put_at, side_of
from hostile.formats import ITEMS, NEWEST, RECEIPTS, STORED_PACKET, TEXT, TEXTS, Side
from hostile.runs import Folder, expect, serve

KEY = b"0123456789abcdef" * 4
OWNER, POSTER = b"\x11" * 32, b"\x22" * 32  # the keys of the guarded box


class Inputs:
    """A session of two sides, made by the program: state files of its steps, some with their record in an earlier version,
    packets with their texts and receipts, files of relays, whose last box is guarded. First's packets are plain and Second's
    padded; the last ones of both have receipts."""

    def __init__(self, work):
        self.said, self.stages, self.kept = {}, [], 1
        self.sides = {name: Folder(work, f"made-{name}", "messenger.state") for name in ("first", "second")}
        for name, format in ("first", "plain"), ("second", "padded"):
            self.step(name, "begin", name, format, given=KEY)
        self.session = side_of(self.stages[0]).session
        for text in (b"are you there?", b"\xc3\xa9\"\\\x01", b"x" * TEXT, b""):
            self.say("second", text)
        self.take("first", "0.3", "0.1")
        self.say("first", b"yes")
        self.say("first", b"no")
        self.step("second", "sent", "3")
        self.take("second", "1.2")
        for n in range(TEXTS + 6):
            if n == TEXTS // 2:
                self.seal_receipts("second")
            self.say("second", b"%d" % n * 40)
            if n > 28:
                self.step("second", "sent", "1")
        self.take("first", "2.20")
        self.step("first", "done", "1")
        self.take("first", f"2.{TEXTS}", *(f"2.{n}" for n in range(1, TEXTS - 1) if n != 20))
        self.seal_receipts("first")
        self.say("first", b"y" * TEXT)  # its inbox is full
        self.take("second", "3.1")
        self.stages += [old for image in self.stages[::2] for version in range(1, NEWEST) if (old := aged(image, version))]
        self.packets = list(self.said)
        self.boxes = [self.session.hex().encode() + b"-%d" % k for k in (1, 2)] + [b"a", b"g"]
        self.keys = {b"g": (OWNER, POSTER)}
        draws = map(random.Random, range(5))
        self.relays = [self.relay_file(Folder(work, f"relay-{n}", "relay.state"), draw) for n, draw in enumerate(draws)]
        self.relays.append(self.full_relay_file(Folder(work, "relay-full", "relay.state")))
        self.scripts = [
            f"kem {kem}\nkey {KEY.decode()}\n{lines}\n".replace(",", "\n").encode()
            for kem in ("open", "sntrup761")
            for lines in SCRIPTS
        ]

    def step(self, name, *words, given=b""):
        """A command of a side, which has to do its work. Of the files that it leaves each tenth is kept, and the last ones."""
        folder = self.sides[name]
        status, lines, image = folder.run(folder.image(), *words, given=given)
        expect(f"inputs: {words[0]}", status, 0)
        if len(self.stages) - self.kept > 12:
            del self.stages[self.kept : self.kept + 9]
            self.kept += 1
        self.stages.append(image)

    def seal_receipts(self, name):
        """The file of a side with another byte for its format, as if it had begun with receipts."""
        folder = self.sides[name]
        image = folder.image()
        place = STATE_AREA.place(found_in(image, STATE_AREA, Side).numbers[0])
        folder.file.write_bytes(put_at(image, place + 2, bytes([RECEIPTS])))

    def say(self, name, text):
        receipt = receipt_of(side_of(self.sides[name].image()))
        self.step(name, "say", "--", text)
        self.said[side_of(self.stages[-1]).packets[-1][1]] = text, receipt

    def take(self, name, *positions):
        packets = {f"{int.from_bytes(it[17:21], 'big')}.{int.from_bytes(it[25:29], 'big')}": it for it in self.said}
        for position in positions:
            self.step(name, "take", given=packets[position].hex().encode())

    def words(self):
        """The boxes that a relay is started for."""
        digits = {name: b"=" + b",".join(key.hex().encode() for key in pair) for name, pair in self.keys.items()}
        return [name + digits.get(name, b"") for name in self.boxes]

    def request(self, counter, kind, name, rest):
        """A request, with a token where the box has a guard."""
        inner = named(kind, name) + rest
        return with_token(self.keys[name][kind == 1], counter, inner) if name in self.keys else inner

    def relay_file(self, folder, draw):
        posts = [
            self.request(n, 1, draw.choice(self.boxes), draw.choice(self.packets))
            for n in range(1, 1 + draw.choice((3, 8, 60)))
        ]
        drops = [self.request(3, 3, box, (1).to_bytes(8, "big")) for box in self.boxes]
        serve(folder, None, self.words(), b"".join(map(frame, posts + drops)))
        return folder.image()

    def full_relay_file(self, folder):
        """The first box was full of the longest packets, and the first of them was dropped: so most pages are upper ones."""
        posts = [frame(named(1, self.boxes[0]) + bytes([n]) * STORED_PACKET) for n in range(1, ITEMS + 1)]
        drop = frame(named(3, self.boxes[0]) + (1).to_bytes(8, "big"))
        serve(folder, None, self.words(), b"".join(posts + [drop]))
        return folder.image()
