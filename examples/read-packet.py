#!/usr/bin/env python3
"""A second implementation of packets, from docs/PROTOCOL.md alone. It opens and seals those of epoch 0, which Second says
and First reads. Those of later epochs need the key encapsulation, which isn't here: of them it says only what needs no
key of theirs. It keeps nothing between two runs, so it opens a packet as often as it is asked to.

    messenger outbox | examples/read-packet.py open first KEY
    examples/read-packet.py seal second KEY INDEX 'are you there?' | messenger take
    examples/read-packet.py pad second KEY INDEX 'are you there?' | messenger take
    examples/read-packet.py attest second KEY INDEX 'are you there?' | messenger take

KEY is a file with the session's key, as `messenger begin` reads it. `open` is followed by the side that reads, the other words
by the one that says. `open` reads packets in hex, one a line, of all formats; each may have its position before it. Of each it
prints the position and the text, as `messenger inbox` does, or why not, with the names of PROTOCOL. `seal` prints a plain
packet, `pad` a padded one, and `attest` one with a receipt, which is empty, as First says nothing in epoch 0 that could be
opened; without a text they seal what standard input holds. The status is 0, or 1 where a file can't be read, 2 where the
words are no command, and 3 where something is refused.
"""
import hmac
import os
import re
import struct
import sys

USAGE = """usage: read-packet.py open first|second KEY < PACKETS
       read-packet.py seal|pad|attest first|second KEY INDEX [TEXT]"""
AGREEMENT = 1039 + 1158  # over sntrup761: a ciphertext and a public key
PLAIN, PADDED, RECEIPTS = 1, 2, 3  # versions
SEALS = {"seal": PLAIN, "pad": PADDED, "attest": RECEIPTS}
LENGTHS = {PLAIN: range(4097), PADDED: range(256, 4353, 256), RECEIPTS: range(256, 4609, 256)}  # of what a packet seals
TEXT, LISTED = 4096, 32  # the most bytes of a text, and positions of a receipt
BODY = 1 + 8 + 1 + 8 * LISTED + 1 + TEXT
NO_RECEIPT = TEXT_KIND = b"\0"
COLUMNS = [(0, 4, 8, 12), (1, 5, 9, 13), (2, 6, 10, 14), (3, 7, 11, 15)]
DIAGONALS = [(0, 5, 10, 15), (1, 6, 11, 12), (2, 7, 8, 13), (3, 4, 9, 14)]


class Refused(Exception):
    pass


def key_stream(key, nonce, counter):
    """A block of ChaCha20."""
    start = struct.unpack("<16I", b"expand 32-byte k" + key + struct.pack("<I", counter) + nonce)
    words = list(start)
    for a, b, c, d in (COLUMNS + DIAGONALS) * 10:
        for at, other, turned, left in [(a, b, d, 16), (c, d, b, 12), (a, b, d, 8), (c, d, b, 7)]:
            words[at] = (words[at] + words[other]) % 2**32
            mixed = words[turned] ^ words[at]
            words[turned] = (mixed << left | mixed >> (32 - left)) % 2**32
    return struct.pack("<16I", *((one + other) % 2**32 for one, other in zip(words, start)))


def enciphered(key, nonce, text):
    """The same again deciphers it."""
    stream = b"".join(key_stream(key, nonce, 1 + at // 64) for at in range(0, len(text), 64))
    return bytes(one ^ other for one, other in zip(text, stream))


def mac(key, data):
    return hmac.digest(key, data, "sha256")


def expand(key, label, length):
    made = block = b""
    while len(made) < length:
        block = mac(key, block + label + bytes([len(made) // 32 + 1]))
        made += block
    return made[:length]


def beginning(key):
    """The stream of epoch 0, and the session id."""
    made = expand(mac(bytes(32), key), b"dr begin", 112)
    return made[32:64], made[96:]


def message(stream, index):
    """Cipher key, tag key and nonce."""
    for _ in range(index - 1):
        stream = mac(stream, b"\x02")
    made = expand(mac(stream, b"\x01"), b"dr seal", 76)
    return made[:32], made[32:64], made[64:]


def tag_of(key, head, ciphertext):
    return mac(key, head + ciphertext + struct.pack("<QQ", len(head), len(ciphertext)))


def padded(text):
    """The text after its length, filled up with zeros."""
    made = struct.pack(">H", len(text)) + text
    return made + bytes(-len(made) % 256)


def unpadded(sealed, most):
    held = sealed[2 : 2 + int.from_bytes(sealed[:2], "big")]
    if len(held) > most or padded(held) != sealed:
        raise Refused("BadPadding")
    return held


def receipt_size(body, parity):
    """The length of the receipt that a body begins with, for the side whose epochs have this parity."""
    if body[:1] == NO_RECEIPT:
        return 1
    count = body[9] if len(body) > 9 else LISTED + 1
    size = 10 + 8 * count
    if body[:1] != b"\1" or count > LISTED or len(body) < size:
        raise Refused("BadPadding")
    bound, listed = struct.unpack(">II", body[1:9]), list(struct.iter_unpack(">II", body[10:size]))
    ascends = all(one < other for one, other in zip(listed, listed[1:] + [(bound[0], bound[1] + 1)]))
    if not ascends or any(epoch % 2 != parity for epoch, _ in [bound, *listed]) or any(index == 0 for _, index in listed):
        raise Refused("BadPadding")
    return size


def text_of(body, parity):
    """The text after a receipt and its kind."""
    size = receipt_size(body, parity)
    text = body[size + 1 :]
    if body[size : size + 1] != TEXT_KIND or len(text) > TEXT:
        raise Refused("BadPadding")
    return text


def fields_of(packet):
    """Version, session id, epoch, index, all that stands before the ciphertext, the ciphertext and the tag."""
    at = 0

    def field(size):
        nonlocal at
        if at + size > len(packet):
            raise Refused(f"Malformed Short {at}")
        at += size
        return packet[at - size : at]

    def number(size, kind, lawful):
        value = int.from_bytes(field(size), "big")
        if value not in lawful:
            raise Refused(f"Malformed {kind} {at - size}")
        return value

    version = number(1, "Version", LENGTHS)
    session = field(16)
    epoch = number(4, "Epoch", range(2**32 - 1))
    number(4, "Previous", range(65536) if epoch > 1 else [0])
    index = number(4, "Index", range(1, 65536))
    field(number(2, "Agreement", [AGREEMENT if epoch > 0 else 0]))
    length = number(2, "Text", LENGTHS[version])
    head = packet[:at]
    ciphertext, tag = field(length), field(32)
    if at < len(packet):
        raise Refused(f"Malformed Long {at}")
    return version, session, epoch, index, head, ciphertext, tag


def opened(side, key, packet):
    """The index and the text."""
    stream, session = beginning(key)
    version, its_session, epoch, index, head, ciphertext, tag = fields_of(packet)
    if its_session != session:
        raise Refused("OtherSession")
    if side == ("first" if epoch % 2 else "second"):
        raise Refused(f"OwnPacket {epoch}")
    if epoch > 0:
        raise Refused(f"epoch {epoch} needs the key encapsulation, which isn't here")
    cipher_key, tag_key, nonce = message(stream, index)
    if not hmac.compare_digest(tag, tag_of(tag_key, head, ciphertext)):
        raise Refused("BadTag")
    held = enciphered(cipher_key, nonce, ciphertext)
    if version == PADDED:
        held = unpadded(held, TEXT)
    if version == RECEIPTS:
        held = text_of(unpadded(held, BODY), 1)  # who opens is First here, whose epochs are odd
    return index, held


def sealed(version, side, key, index, text):
    if side == "first":
        raise Refused("First says nothing in epoch 0, and epoch 1 needs the key encapsulation, which isn't here")
    if len(text) > TEXT:
        raise Refused(f"TextTooLong {len(text)}")
    held = {PLAIN: text, PADDED: padded(text), RECEIPTS: padded(NO_RECEIPT + TEXT_KIND + text)}
    return packet_of(version, key, index, held[version])


def packet_of(version, key, index, body):
    """Second's packet in epoch 0 that seals these bytes."""
    stream, session = beginning(key)
    cipher_key, tag_key, nonce = message(stream, index)
    head = struct.pack(">B16sIIIHH", version, session, 0, 0, index, 0, len(body))
    ciphertext = enciphered(cipher_key, nonce, body)
    return head + ciphertext + tag_of(tag_key, head, ciphertext)


def shown(text):
    return "".join(chr(it) if 32 <= it < 127 and it not in b'"\\' else f"\\x{it:02x}" for it in text)


def bytes_of(line, form, refusal):
    digits = re.fullmatch(form + rb"\n?", line)
    if not digits:
        raise Refused(refusal)
    return bytes.fromhex(digits[1].decode())


def open_line(side, key, line):
    packet = bytes_of(line, rb"(?:[0-9]+\.[0-9]+ )?((?:[0-9a-fA-F]{2})*)", "NotHex")
    index, text = opened(side, key, packet)
    return f'0.{index} "{shown(text)}"'


def main(words):
    opens = words[:1] == ["open"] and len(words) == 3
    seals = len(words) in (4, 5) and words[0] in SEALS and words[3] in map(str, range(1, 65536))
    if not (opens or seals) or words[1] not in ("first", "second"):
        print(USAGE, file=sys.stderr)
        return 2
    side, status = words[1], 0
    with open(words[2], "rb") as file:
        key = bytes_of(file.read(), rb"((?:[0-9a-fA-F]{2}){32})", "BadKey")
    if seals:
        text = os.fsencode(words[4]) if words[4:] else sys.stdin.buffer.read()
        print(sealed(SEALS[words[0]], side, key, int(words[3]), text).hex())
    else:
        for line in sys.stdin.buffer:
            try:
                print(open_line(side, key, line))
            except Refused as why:
                print(f"refused: {why}")
                status = 3
    return status


if __name__ == "__main__":
    try:
        sys.exit(main(sys.argv[1:]))
    except Refused as why:
        print(f"refused: {why}")
        sys.exit(3)
    except OSError as fault:
        sys.exit(f"read-packet.py: {fault}")
