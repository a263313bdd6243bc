"""What a side, a relay and a sync answer, and which scripts are read, as docs/PROTOCOL.md says: another implementation, for
`.ci/hostile-bytes`. Whether a tag is right isn't computed: a packet that was made is known with its text and its receipt."""
import hmac
import re

from hostile.formats import (
    AWAITING, ITEMS, KEPT, LISTED, PACKETS, RECEIPTS, STORED_PACKET, TEXTS, Fault, Packet, Part, is_name,
)


def quoted(text):
    return "".join(chr(b) if 0x20 <= b < 0x7F and b not in b'"\\' else f"\\x{b:02x}" for b in text)


# ---- a side


def told(text):
    return text.shown() if isinstance(text, Part) else f'"{quoted(text)}"'


def shown(side, command):
    """The lines of state, inbox, outbox and awaiting."""
    if command == "inbox":
        return "".join(f"{position} {told(text)}\n" for position, text in side.texts)
    if command == "outbox":
        return "".join(f"{position} {packet.hex()}\n" for position, packet in side.packets)
    if command == "awaiting":
        return f"awaiting {len(side.awaiting)}\n" + "".join(f"{epoch}.{index}\n" for epoch, index in side.awaiting)
    name = "first" if side.side == 1 else "second"
    return (
        f"session {side.session.hex()}\nside {name}\nepoch {side.epoch}\nmissing {len(side.kept)}\n"
        f"inbox {len(side.texts)}\noutbox {len(side.packets)}\n"
    )


def receipt_of(side):
    """The receipt of a text that a side says: its bound and the positions that it lists, or none."""
    if side.format != RECEIPTS or side.latest < 0:
        return None
    bound = (side.latest, side.reach) if len(side.kept) <= LISTED else side.kept[LISTED - 1]
    return bound, side.kept[:LISTED]


def is_covered(receipt, position):
    """Whether a receipt says that a position was opened."""
    if not receipt:
        return False
    bound, listed = receipt
    return position[0] % 2 == bound[0] % 2 and position <= bound and position not in listed


def takes(side, text, said):
    """The refusal of bytes, or none: then the side keeps their text, and what their receipt covers waits no longer. `said` has
    the text and the receipt of each packet that was made."""
    try:
        packet = Packet(text)
    except Fault as fault:
        return f"Malformed {fault.args[0]} {fault.args[1]}"
    position = (packet.epoch, packet.index)
    would, kept = len(side.kept), list(side.kept)
    if packet.session != side.session:
        return "OtherSession"
    if side.is_own(packet.epoch):
        return f"OwnPacket {packet.epoch}"
    if packet.epoch > side.epoch + 1:
        return f"Ahead {packet.epoch} {side.epoch}"
    if position in side.kept:
        kept.remove(position)
    elif packet.epoch < side.latest or packet.epoch == side.latest and packet.index <= side.reach:
        return f"Spent {packet.epoch}.{packet.index}"
    elif packet.epoch == side.latest:
        would += packet.index - side.reach - 1
        kept += [(packet.epoch, index) for index in range(side.reach + 1, packet.index)]
    else:
        if packet.previous < side.reach:
            return f"Count {packet.previous} {side.reach}"
        would += packet.previous - side.reach + packet.index - 1
        kept += [(side.latest, index) for index in range(side.reach + 1, packet.previous + 1)]
        kept += [(packet.epoch, index) for index in range(1, packet.index)]
    if would > KEPT:
        return f"SkipLimit {would}"
    if text not in said:
        return "BadTag"
    if len(side.texts) == TEXTS:
        return "InboxFull"
    if position not in side.kept:
        side.reach, side.latest, side.epoch = packet.index, packet.epoch, max(side.epoch, packet.epoch)
    side.kept = sorted(kept)
    content, receipt = said[text]
    side.texts.append((f"{packet.epoch}.{packet.index}", content))
    side.awaiting = [it for it in side.awaiting if not is_covered(receipt, it)]
    return None


def acts(side, words, given, said):
    """The line of a command that acts; the side is changed but where it is refused."""
    what, held = words[0], {"done": side.texts, "sent": side.packets}.get(words[0])
    if what == "take":
        refusal = takes(side, given, said)
        return f"refused: {refusal}\n" if refusal else f"opened {side.texts[-1][0]}\n"
    if what == "say":
        own = side.is_own(side.epoch)
        if len(side.packets) == PACKETS:
            return "refused: OutboxFull\n"
        if own and side.said == 65535:
            return "refused: EpochFull\n"
        if not own and side.epoch == 2**32 - 2:
            return "refused: LastEpoch\n"
        side.epoch, side.said = (side.epoch, side.said + 1) if own else (side.epoch + 1, 1)
        position = f"{side.epoch}.{side.said}"
        side.packets.append((position, None))
        side.awaiting = (side.awaiting + [(side.epoch, side.said)])[-AWAITING:]
        return f"said {position}\n"
    if int(words[1]) > len(held):
        return f"refused: Fewer {len(held)}\n"
    del held[: int(words[1])]
    return f"{what} {words[1]}\n"


# ---- a relay


BODY = 8192  # the most bytes of a frame's body
TOKEN = 1 + 8 + 32  # the byte of a request with a token, its counter and its tag


def frame(body):
    return len(body).to_bytes(2, "big") + body


def named(kind, name):
    return bytes([kind, len(name)]) + name


def frames_of(stream):
    """The bodies of a stream; none stands for a length that no frame has."""
    at = 0
    while at + 2 <= len(stream):
        size = int.from_bytes(stream[at : at + 2], "big")
        if not 1 <= size <= BODY:
            yield None
            return
        if at + 2 + size > len(stream):
            return
        yield stream[at + 2 : at + 2 + size]
        at += 2 + size


def with_token(key, counter, inner):
    """A request with a token under a key."""
    head = counter.to_bytes(8, "big")
    return b"\4" + head + hmac.digest(key, b"relay token" + head + inner, "sha256") + inner


def replied(boxes, body):
    """The reply to a request, and what becomes of the boxes."""
    if body is None:
        return b"\x88\x01"
    token = None
    if body[0] == 4:
        if body[TOKEN : TOKEN + 1] not in (b"\1", b"\2", b"\3"):
            return b"\x88\x04"
        token, body = (int.from_bytes(body[1:9], "big"), body[9:TOKEN]), body[TOKEN:]
    kind, rest = body[0], body[1:]
    if kind not in (1, 2, 3):
        return b"\x88\x02"
    size = rest[0] if rest else 0
    name, rest = rest[1 : 1 + size], rest[1 + size :]
    if len(name) != size or not is_name(name):
        return b"\x88\x03"
    if kind == 1 and not 1 <= len(rest) <= STORED_PACKET or kind == 2 and rest or kind == 3 and len(rest) != 8:
        return b"\x88\x04"
    if name not in boxes:
        return b"\x86"
    box = boxes[name]
    if box.guard and (denied := box.guard.denies(kind == 1, token, body)):
        return b"\x89" + bytes([denied[0]]) + denied[1].to_bytes(8, "big")
    if kind == 1:
        if len(box.items) == ITEMS or box.last == 2**64 - 1:
            return b"\x85"
        box.last += 1
        box.items.append((box.last, rest))
        return b"\x81" + box.last.to_bytes(8, "big")
    if kind == 2:
        return b"\x82" + box.items[0][0].to_bytes(8, "big") + box.items[0][1] if box.items else b"\x83"
    number = int.from_bytes(rest, "big")
    if all(item[0] != number for item in box.items):
        return b"\x87" + rest
    box.items = [item for item in box.items if item[0] != number]
    return b"\x84"


# ---- a sync


class Token:
    """A key under which a sync asks, and the counter of the next request."""

    def __init__(self, key):
        self.key, self.counter = key, 1

    def of(self, request):
        return with_token(self.key, self.counter, request)


def tokens_of(side):
    """What a side asks its own box with, as its owner, and its peer's box, as who posts to it."""
    if not side.keys:
        return {}
    at = {box: 64 * (box - 1) for box in (1, 2)}
    own, peer = at[side.side], at[3 - side.side]
    return {False: Token(side.keys[own : own + 32]), True: Token(side.keys[peer + 32 : peer + 64])}


class Course:
    """A sync of a side over the bytes that a relay sends: its requests, its lines and its status."""

    SIZES = {0x81: (8, 8), 0x82: (9, 8 + STORED_PACKET), 0x87: (8, 8), 0x88: (1, 1), 0x89: (9, 9)}
    SIZES |= dict.fromkeys((0x83, 0x84, 0x85, 0x86), (0, 0))
    REASONS = {0x88: (b"\1", b"\2", b"\3", b"\4"), 0x89: (b"\1", b"\2", b"\3")}

    def __init__(self, side, replies, said):
        self.side, self.replies, self.said = side, replies, said
        self.requests, self.lines, self.status = b"", [], 0
        name = side.session.hex().encode()
        self.own, self.peer = name + b"-%d" % side.side, name + b"-%d" % (3 - side.side)
        self.tokens = tokens_of(side)
        try:
            came = self.take_items()
            self.post()
            self.lines.append("more" if came == 256 else "end")
        except Fault as fault:
            self.status = fault.args[0]
            self.lines.append(fault.args[1])

    def ask(self, request, answers):
        """The reply to a request; where that is told its counter was an old one, the reply to it once more."""
        token = self.tokens.get(request[0] == 1)
        for again in (False, True):
            self.requests += frame(token.of(request) if token else request)
            kind, rest = self.reply(request, answers)
            last = int.from_bytes(rest[1:9], "big")
            if kind != 0x89:
                if token:
                    token.counter = min(token.counter + 1, 2**64 - 1)
                return kind, rest
            if not token or again or rest[0] != 3 or last == 2**64 - 1:
                raise Fault(3, f"refused: Denied {rest[0]}")
            token.counter = last + 1

    def reply(self, request, answers):
        came, size = self.replies, int.from_bytes(self.replies[:2], "big")
        if len(came) >= 2 and not 1 <= size <= BODY:
            raise Fault(12, "peer: Frame at 0")
        if len(came) < 2 or len(came) < 2 + size:
            raise Fault(12, f"peer: Ended at {len(came)}")
        self.replies = came[2 + size :]
        kind, rest = came[2], came[3 : 2 + size]
        if kind not in self.SIZES:
            raise Fault(12, "peer: Kind at 2")
        least, most = self.SIZES[kind]
        if not least <= len(rest) <= most or kind in self.REASONS and rest[:1] not in self.REASONS[kind]:
            raise Fault(12, "peer: Size at 3")
        if kind == 0x89:
            return kind, rest
        if kind == 0x86:
            raise Fault(3, "refused: Unknown")
        if kind not in answers or kind == 0x87 and rest != request[-8:]:
            raise Fault(12, "peer: Wrong at 2")
        return kind, rest

    def take_items(self):
        """How many packets came."""
        for came in range(256):
            kind, rest = self.ask(named(2, self.own), (0x82, 0x83))
            if kind == 0x83:
                return came
            refusal = takes(self.side, rest[8:], self.said)
            if refusal == "InboxFull":
                raise Fault(3, "refused: InboxFull")
            self.lines.append(f"refused {refusal}" if refusal else f"opened {self.side.texts[-1][0]}")
            self.ask(named(3, self.own) + rest[:8], (0x84, 0x87))
        return 256

    def post(self):
        while self.side.packets:
            kind, rest = self.ask(named(1, self.peer) + self.side.packets[0][1], (0x81, 0x85))
            if kind == 0x85:
                raise Fault(3, "refused: BoxFull")
            self.side.packets.pop(0)
            self.lines.append(f"stored {int.from_bytes(rest, 'big')}")


# ---- scripts


FROM_ONE = rb"[1-9][0-9]{0,9}"
NUMBER = rb"(?:0|" + FROM_ONE + rb")"
POSITION = NUMBER + rb"\." + NUMBER
CALL = rb"say(?: (?P<text>.*))?|take " + POSITION + rb"|take #" + NUMBER + rb"|(?:sent|done) " + NUMBER
LINE = re.compile(
    rb"seed [0-9a-fA-F]{64}|(?:first|second) (?:" + CALL + rb"|flip " + POSITION + b" " + NUMBER
    + rb"|bytes(?: (?:[0-9a-fA-F]{2}){0,8000})?|(?:sent|done) all|inbox|state|awaiting|sync|lose " + FROM_ONE
    + rb"|open|stop " + NUMBER + rb" (?:old|new|[0-9a-fA-F]{2}) (?:" + CALL.replace(b"?P<text>", b"?P<stopped>")
    + rb")|fail " + FROM_ONE + rb" (?:" + CALL.replace(b"?P<text>", b"?P<failed>") + rb"))",
    re.S,
)


def bad_line(script):
    """The first bad line of a script, from 1; 0 where there is none. And the texts that its lines say."""
    lines = script.split(b"\n")
    if lines[-1] == b"":
        lines.pop()
    lines += [b""] * (2 - len(lines))
    texts = set()
    for at, line in enumerate(lines, 1):
        if at == 1:
            lawful = line in (b"kem open", b"kem sntrup761")
        elif at == 2:
            lawful = re.fullmatch(rb"key [0-9a-fA-F]{64}", line)
        elif at == 3 and re.fullmatch(rb"format (plain|padded|receipts) (plain|padded|receipts)", line):
            lawful = True
        elif line == b"guard" and (at == 3 or at == 4 and lines[2].startswith(b"format")):
            lawful = True
        elif lawful := LINE.fullmatch(line):
            said = [lawful[it] for it in ("text", "stopped", "failed") if lawful[it] is not None]
            text = said[0] if said else b""
            texts.add(quoted(text))
            numbers = line[: len(line) - len(text)] if said else line
            if not line.startswith(b"seed") and b" bytes" not in line[:13]:
                lawful = all(int(number) < 2**32 for number in re.findall(rb"(?<![0-9a-zA-Z])[0-9]+", numbers))
        if not lawful:
            return at, texts
    return 0, texts
