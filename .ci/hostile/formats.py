"""Packets and records, read as docs/PROTOCOL.md says: another implementation, for `.ci/hostile-bytes`."""
import hmac
import re

AGREEMENT = 2197  # bytes of an agreement message over sntrup761
SECRET, PUBLIC = 1763, 1158
KEPT, TEXTS, PACKETS, TEXT, AWAITING, LISTED = 512, 128, 32, 4096, 64, 32
PLAIN, PADDED, RECEIPTS = 1, 2, 3  # versions of packets, and formats of a session
# how many bytes a packet seals
SEALED = {PLAIN: range(TEXT + 1), PADDED: range(256, 4353, 256), RECEIPTS: range(256, 4609, 256)}
NEWEST = 5  # the version of a side's record that is written
# most kept keys, texts and bytes of a text in each version
LIMITS = {1: (256, 64, 1024), 2: (KEPT, TEXTS, TEXT), 3: (KEPT, TEXTS, TEXT), 4: (KEPT, TEXTS, TEXT), 5: (KEPT, TEXTS, TEXT)}
FORMATS = {1: PLAIN, 2: PLAIN, 3: PADDED, 4: RECEIPTS, 5: RECEIPTS}  # the last format, and version of packets, that each has
BOX_KEYS = 128  # bytes of the keys of both boxes of a session: the owner's and the poster's of each
ITEMS, STORED_PACKET = 64, 8000
PARTS, PART = 64, 4090  # most parts of a long text, and bytes of one


def is_part(text):
    """Whether a content of kind 01 is a part: an id in 4 bytes, its number and how many there are, and its bytes."""
    return 6 <= len(text) <= 6 + PART and 1 <= text[4] <= text[5] <= PARTS


class Fault(Exception):
    """The kind of the first fault, and its place."""


class Fields:
    """Reads fields in order; the first that is cut short or unlawful is the fault."""

    def __init__(self, text):
        self.text, self.at = text, 0

    def bytes(self, size, kind="", lawful=lambda value: True):
        value = self.text[self.at : self.at + size]
        if len(value) < size:
            raise Fault("Short", self.at)
        if not lawful(value):
            raise Fault(kind, self.at)
        self.at += size
        return value

    def number(self, size, kind="", least=0, most=2**64):
        lawful = lambda value: least <= int.from_bytes(value, "big") <= most
        return int.from_bytes(self.bytes(size, kind, lawful), "big")

    def end(self, kind=""):
        if self.at < len(self.text):
            raise Fault(kind, self.at)


class Packet:
    def __init__(self, text):
        fields = Fields(text)
        self.version = fields.number(1, "Version", PLAIN, RECEIPTS)
        self.session = fields.bytes(16)
        self.epoch = fields.number(4, "Epoch", 0, 2**32 - 2)
        self.previous = fields.number(4, "Previous", 0, 65535 if self.epoch > 1 else 0)
        self.index = fields.number(4, "Index", 1, 65535)
        agreement = AGREEMENT if self.epoch else 0
        fields.number(2, "Agreement", agreement, agreement)
        fields.bytes(agreement)
        sizes = SEALED[self.version]
        self.size = int.from_bytes(fields.bytes(2, "Text", lambda size: int.from_bytes(size, "big") in sizes), "big")
        fields.bytes(self.size)
        fields.bytes(32)
        fields.end("Long")


class Part(bytes):
    """A text of kind 01, which is a part of a long text."""

    def shown(self):
        return f"part {self[4]}/{self[5]} of {int.from_bytes(self[:4], 'big')}"


class Side:
    """What a record keeps of a side; texts of the inbox as position and text. `entries` has where the text of each begins, with
    its length before it, `lists_end` where the outbox ends, and `waits_end` where what waits does."""

    def __init__(self, record):
        fields = Fields(record)
        self.record, self.version = record, fields.number(1, "", 1, NEWEST)
        self.most_keys, self.most_texts, self.most = LIMITS[self.version]
        self.side = fields.number(1, "", 1, 2)
        self.format = fields.number(1, "", PLAIN, FORMATS[self.version]) if self.version >= 3 else PLAIN
        self.session = fields.bytes(16)
        fields.bytes(32)
        self.epoch = fields.number(4, "", 0, 2**32 - 2)
        own = self.is_own(self.epoch)
        if own:
            fields.bytes(SECRET, "", is_secret)
            fields.bytes(AGREEMENT if self.epoch else 0)
            fields.bytes(32)
            self.said = fields.number(4, "", 0, 65535)
        else:
            fields.bytes(PUBLIC)
        before = self.epoch - (2 if own else 1)
        fields.number(4, "", 0, 65535 if before >= 0 else 0)
        self.latest = self.epoch - 1 if own else self.epoch
        self.reach, self.entries = 0, []
        if self.latest >= 0:
            fields.bytes(32)
            self.reach = fields.number(4, "", 0, 65535)
        self.kept = self.kept_keys(fields)
        self.texts = [self.text_of(fields) for _ in range(fields.number(1, "", 0, self.most_texts))]
        self.packets = [self.packet_of(fields) for _ in range(fields.number(1, "", 0, PACKETS))]
        self.lists_end = fields.at
        self.awaiting = self.positions_of(fields) if self.version >= 4 else []
        self.waits_end = fields.at
        self.keys = fields.bytes(BOX_KEYS) if self.version >= 5 and fields.number(1, "", 0, 1) else None
        fields.end()

    def is_own(self, epoch):
        return epoch % 2 == self.side % 2

    def is_peers(self, value):
        epoch = int.from_bytes(value, "big")
        return not self.is_own(epoch) and epoch <= self.latest

    def kept_keys(self, fields):
        kept = []
        for _ in range(fields.number(2, "", 0, self.most_keys)):
            last = kept[-1] if kept else (0, 0)
            lawful = lambda value: self.is_peers(value) and int.from_bytes(value, "big") >= last[0]
            epoch = int.from_bytes(fields.bytes(4, "", lawful), "big")
            least = last[1] + 1 if epoch == last[0] else 1
            kept.append((epoch, fields.number(4, "", least, self.reach if epoch == self.latest else 65535)))
            fields.bytes(32)
        return kept

    def text_of(self, fields):
        epoch = int.from_bytes(fields.bytes(4, "", self.is_peers), "big")
        index = fields.number(4, "", 1, 65535)
        kind = fields.number(1, "", 0, 1 if self.version >= 5 else 0) if self.version >= 4 else 0
        self.entries.append(fields.at)
        size = fields.number(2, "", 0, self.most)
        text = fields.bytes(size, "", is_part if kind else lambda value: True)
        return f"{epoch}.{index}", Part(text) if kind else text

    def positions_of(self, fields):
        """Positions of the side's own texts, ascending."""
        positions = []
        for _ in range(fields.number(1, "", 0, AWAITING)):
            last = positions[-1] if positions else (0, 0)
            lawful = lambda value: self.is_own(it := int.from_bytes(value, "big")) and last[0] <= it <= self.epoch
            epoch = int.from_bytes(fields.bytes(4, "", lawful), "big")
            least = last[1] + 1 if epoch == last[0] else 1
            positions.append((epoch, fields.number(4, "", least, self.said if epoch == self.epoch else 65535)))
        return positions

    def packet_of(self, fields):
        # of a packet the place is its first byte, whatever is wrong in it or with its length
        size = fields.number(2)
        place = fields.at
        try:
            packet = Packet(fields.bytes(size))
        except Fault:
            raise Fault("", place) from None
        is_own = self.is_own(packet.epoch) and packet.epoch <= self.epoch
        is_late = packet.version > FORMATS[self.version] or self.version < 3 and packet.size > self.most
        if is_late or packet.session != self.session or not is_own:
            raise Fault("", place)
        return f"{packet.epoch}.{packet.index}", fields.text[place : fields.at]


class Guard:
    """The keys of a box's owner and of who posts to it, and the last counters that were served for them."""

    def __init__(self, owner, poster, last_owner=0, last_poster=0):
        self.keys, self.last = {False: owner, True: poster}, {False: last_owner, True: last_poster}

    def denies(self, posts, token, inner):
        """The rule by which a request is denied, with the last counter that it tells; None where it is served, and counts."""
        if token is None:
            return 1, 0
        counter, tag = token
        said = b"relay token" + counter.to_bytes(8, "big") + inner
        if hmac.digest(self.keys[posts], said, "sha256") != tag:
            return 2, 0
        if counter <= self.last[posts]:
            return 3, self.last[posts]
        self.last[posts] = counter
        return None


class Box:
    """The record of a box at a relay, in version 01 without a guard, or in version 02."""

    def __init__(self, record):
        fields = Fields(record)
        self.version = fields.number(1, "", 1, 2)
        size = fields.number(1, "", 1, 40)
        self.name = fields.bytes(size, "", is_name)
        self.guard = None
        if self.version == 2 and fields.number(1, "", 0, 1):
            self.guard = Guard(fields.bytes(32), fields.bytes(32), fields.number(8), fields.number(8))
        self.last = fields.number(8)
        self.items = []
        for _ in range(fields.number(1, "", 0, ITEMS)):
            number = fields.number(8, "", self.items[-1][0] + 1 if self.items else 1, self.last)
            self.items.append((number, fields.bytes(fields.number(2, "", 1, STORED_PACKET))))
        fields.end()

    def text(self, version=2):
        """Its record."""
        text = bytes([version, len(self.name)]) + self.name
        if version == 2 and self.guard:
            text += b"\1" + b"".join(self.guard.keys.values())
            text += b"".join(last.to_bytes(8, "big") for last in self.guard.last.values())
        elif version == 2:
            text += b"\0"
        text += self.last.to_bytes(8, "big") + bytes([len(self.items)])
        return text + b"".join(n.to_bytes(8, "big") + len(packet).to_bytes(2, "big") + packet for n, packet in self.items)


def empty_box(name, keys=None):
    box = Box(b"\1" + bytes([len(name)]) + name + bytes(9))
    box.guard = Guard(*keys) if keys else None
    return box


def is_secret(secret):
    """Whether f and v, which it begins with, are small codings: two bits each, and no digit 3."""
    smalls = secret[:191], secret[191:382]
    return all(small[190] < 3 and not any(byte & byte >> 1 & 0x55 for byte in small) for small in smalls)


def is_name(name):
    return re.fullmatch(rb"[a-z0-9-]{1,40}", name) is not None
