"""Areas of pages: what an opening finds in one, and the file that it leaves, as docs/PROTOCOL.md says: another implementation,
for `.ci/hostile-bytes`."""
from typing import NamedTuple

from hostile.formats import FORMATS, NEWEST, Fault, Side

PAGE = 4096
LOWER = 128  # pages that stand from an area's start on; the others stand from its upper place on
HALF = LOWER * PAGE
BOXES = 16


class Area(NamedTuple):
    """Where its two ranges begin, how many pages it has, and the most that a record may have."""

    start: int
    upper: int
    pages: int
    most: int

    def place(self, number):
        return self.start + PAGE * number if number < LOWER else self.upper + PAGE * (number - LOWER)

    def page(self, image, number):
        """A page of a file, which reads as zeros behind its end."""
        place = self.place(number)
        return image[place : place + PAGE].ljust(PAGE, b"\0")

    def ranges(self):
        return (self.start, self.start + HALF), (self.upper, self.upper + PAGE * (self.pages - LOWER))


STATE_AREA = Area(0, HALF, 384, 190)
STATE_SIZE = PAGE * STATE_AREA.pages


def box_area(k):
    return Area(HALF * k, HALF * (BOXES + k), 2 * LOWER, 126)


def put_at(image, place, text):
    """A file with bytes written over it, which has to reach there: another one, but for a `bytearray`."""
    if isinstance(image, bytearray):
        image[place : place + len(text)] = text
        return image
    return image[:place] + text + image[place + len(text) :]


def turns_of(image, area):
    """The turns of both tables; 0 where one isn't open."""
    heads = [area.page(image, slot)[:2] for slot in (0, 1)]
    return [head[1] if head[0] == 0xA5 and head[1] in (1, 2, 3) else 0 for head in heads]


def newer(turns):
    return 1 if turns[1] and (not turns[0] or turns[1] == turns[0] % 3 + 1) else 0


class Found(NamedTuple):
    """The record of an area as it is read, its slot, and its pages; no record where no table is open."""

    record: object
    slot: int
    numbers: list

    def stands(self):
        return [self.slot, *self.numbers] if self.record else []


def found_in(image, area, record_of):
    """What is found in an area, or the fault with its slot and place."""
    turns = turns_of(image, area)
    if turns[0] and turns[0] == turns[1]:
        raise Fault(1, 1)
    if not any(turns):
        return Found(None, 0, [])
    slot = newer(turns)
    table = area.page(image, slot)
    size = int.from_bytes(table[2:6], "big")
    count = -(-size // PAGE)
    if count > area.most:
        raise Fault(slot, 2)
    numbers = []
    for at in range(6, 6 + 2 * count, 2):
        number = int.from_bytes(table[at : at + 2], "big")
        if not 2 <= number < area.pages or number in numbers:
            raise Fault(slot, at)
        numbers.append(number)
    behind = table[6 + 2 * count :]
    if behind.strip(b"\0"):
        raise Fault(slot, PAGE - len(behind.lstrip(b"\0")))
    held = b"".join(area.page(image, number) for number in numbers)
    try:
        record = record_of(held[:size])
    except Fault as fault:
        raise Fault(slot, PAGE + fault.args[1]) from None
    if held[size:].strip(b"\0"):
        raise Fault(slot, PAGE + len(held) - len(held[size:].lstrip(b"\0")))
    return Found(record, slot, numbers)


def tidied(image, area, found):
    """The file with zeros in each page of the area that doesn't stand."""
    for number in range(area.pages):
        place = area.place(number)
        if number not in found.stands() and image[place : place + PAGE].strip(b"\0"):
            image = put_at(image, place, bytes(len(image[place : place + PAGE])))
    return image


def with_room(left, image, area):
    """The file with the room that it takes before what was written to it: all of a side's, half of a box's area."""
    for start, end in area.ranges():
        if left[start:end] != image[start:end]:
            left = left.ljust(STATE_SIZE if area == STATE_AREA else end, b"\0")
    return left


def foretold(image, area, record_of):
    """What is found in an area, the file once it is at rest, and what is told of damage."""
    try:
        found = found_in(image, area, record_of)
    except Fault as fault:
        return None, image, "slot {} at {}\n".format(*fault.args)
    return found, with_room(tidied(image, area, found), image, area), None


def looked(image, area, record_of):
    """The lines of `check`."""
    turns = turns_of(image, area)
    gates = "".join(f"slot {slot} open {turn}\n" if turn else f"slot {slot} closed\n" for slot, turn in enumerate(turns))
    try:
        found = found_in(image, area, record_of)
    except Fault as fault:
        return gates + "damaged slot {} at {}\nrest no\n".format(*fault.args)
    size = int.from_bytes(area.page(image, newer(turns))[2:6], "big")
    rests = tidied(image, area, found) == image
    return gates + (f"record {size}\n" if found.record else "no record\n") + ("rest yes\n" if rests else "rest no\n")


def side_of(image):
    return found_in(image, STATE_AREA, Side).record


def laid(image, found, record, kept, area=STATE_AREA):
    """A file at rest with another record in an area in place of the one that is found, behind the other table where the old one
    is to be kept until then: what changes of it stands in the lowest free pages. Else it stands in the first pages of the old."""
    turns = turns_of(image, area)
    slot, turn = (1 - found.slot, turns[found.slot] % 3 + 1) if kept else (found.slot, turns[found.slot])
    if not found.record:
        slot, turn = 0, 1
    free = (number for number in range(2, area.pages) if number not in found.numbers)
    pages, numbers = [record[at : at + PAGE].ljust(PAGE, b"\0") for at in range(0, len(record), PAGE)], []
    for at, page in enumerate(pages):
        stays = at < len(found.numbers) and (not kept or area.page(image, found.numbers[at]) == page)
        numbers.append(found.numbers[at] if stays else next(free))
    table = bytes((0xA5, turn)) + len(record).to_bytes(4, "big") + b"".join(number.to_bytes(2, "big") for number in numbers)
    for number in found.stands():
        image = put_at(image, area.place(number), bytes(PAGE))
    for number, page in zip([slot, *numbers], [table.ljust(PAGE, b"\0"), *pages]):
        image = put_at(image, area.place(number), page)
    return image


def rewritten(side, version):
    """A side's record in another version: from 3 on a byte says the format; from 4 on a byte after each position of the inbox
    says a kind, and what waits stands behind the outbox; from 5 on keys of boxes stand at the end. What the record doesn't say
    is nothing."""
    text, at = side.record, 3 if side.version >= 3 else 2
    made = bytes([version, side.side]) + (bytes([side.format]) if version >= 3 else b"")
    for place in side.entries:
        made += text[at : place - (side.version >= 4)] + (b"\0" if version >= 4 else b"")
        at = place
    made += text[at : side.lists_end]
    waits, keys = text[side.lists_end : side.waits_end], text[side.waits_end :]
    return made + (waits or b"\0" if version >= 4 else b"") + (keys or b"\0" if version >= 5 else b"")


def aged(image, version):
    """A side's file with its record in an earlier version, where that may hold it but for what waits and for keys, or none."""
    found = found_in(image, STATE_AREA, Side)
    if found.record.format > FORMATS[version]:
        return None
    old = laid(image, found, rewritten(found.record, version), False)
    return None if foretold(old, STATE_AREA, Side)[2] else old


def renewed(image, found):
    """A side's file at rest once it was opened: a record of an earlier version is replaced by the same in the newest one."""
    if not found.record or found.record.version == NEWEST:
        return image
    return laid(image.ljust(STATE_SIZE, b"\0"), found, rewritten(found.record, NEWEST), True)
