"""Address books: what an opening finds in a book's file, and the files that an opening and a change leave, as docs/PROTOCOL.md
says: another implementation, for the checks of the book."""
from typing import NamedTuple

from hostile.areas import PAGE, newer, put_at
from hostile.formats import Fault, Side, is_name

TABLE, ENTRY, NAME = 20480, 512, 40
ROWS, ROW_PAGES, MOST = 32, 384, 190
START, ROW = 65536, PAGE * ROW_PAGES
BEHIND = ENTRY * (1 + ROWS)  # where zeros follow the rows of a table


class Row(NamedTuple):
    """A name, its record, and the numbers of the record's pages."""

    name: bytes
    record: bytes
    numbers: list


class Found(NamedTuple):
    """The table that counts and its turn, 0 where none does, and the rows, each there or none."""

    slot: int
    turn: int
    rows: list


def row_place(row, number):
    return START + ROW * row + PAGE * number


def first_byte(text):
    """The place of the first byte that isn't zero, or none."""
    return len(text) - len(text.lstrip(b"\0")) if text.strip(b"\0") else None


def unless_zeros(text, at):
    if (place := first_byte(text)) is not None:
        raise Fault(at + place)


def numbers_of(entry, at):
    """The page numbers of a row that is there."""
    count = -(-int.from_bytes(entry[42:46], "big") // PAGE)
    if count > MOST:
        raise Fault(at + 42)
    numbers = []
    for place in range(46, 46 + 2 * count, 2):
        number = int.from_bytes(entry[place : place + 2], "big")
        if number >= ROW_PAGES or number in numbers:
            raise Fault(at + place)
        numbers.append(number)
    unless_zeros(entry[46 + 2 * count :], at + 46 + 2 * count)
    return numbers


def entries_of(table):
    """Each row's name, length and page numbers, or none; or the table's first fault."""
    unless_zeros(table[2:ENTRY], 2)
    entries = []
    for at in range(ENTRY, BEHIND, ENTRY):
        entry = table[at : at + ENTRY]
        size, name = entry[1], entry[2 : 2 + min(entry[1], NAME)]
        if entry[0] > 1:
            raise Fault(at)
        if entry[0] == 0:
            unless_zeros(entry, at)
            entries.append(None)
            continue
        if not 1 <= size <= NAME:
            raise Fault(at + 1)
        if not is_name(name) or any(it and it[0] == name for it in entries):
            raise Fault(at + 2)
        unless_zeros(entry[2 + size : 42], at + 2 + size)
        entries.append((name, int.from_bytes(entry[42:46], "big"), numbers_of(entry, at)))
    unless_zeros(table[BEHIND:], BEHIND)
    return entries


def piece(image, at, size):
    """Bytes of a file, which reads as zeros behind its end."""
    return image[at : at + size].ljust(size, b"\0")


def row_of(image, row, entry):
    name, size, numbers = entry
    held = b"".join(piece(image, row_place(row, number), PAGE) for number in numbers)
    try:
        Side(held[:size])
        unless_zeros(held[size:], size)
    except Fault as fault:
        raise Fault("row", row, PAGE + fault.args[-1]) from None
    return Row(name, held[:size], numbers)


def found_in(image):
    """What is found in a book's file, or the fault: the table or the row, and the place."""
    heads = [piece(image, TABLE * slot, 2) for slot in (0, 1)]
    turns = [head[1] if head[0] == 0xA5 and head[1] in (1, 2, 3) else 0 for head in heads]
    if turns[0] and turns[0] == turns[1]:
        raise Fault("table", 1, 1)
    if not any(turns):
        return Found(0, 0, [None] * ROWS)
    slot = newer(turns)
    try:
        entries = entries_of(piece(image, TABLE * slot, TABLE))
    except Fault as fault:
        raise Fault("table", slot, fault.args[0]) from None
    rows = [entry and row_of(image, row, entry) for row, entry in enumerate(entries)]
    return Found(slot, turns[slot], rows)


def table_of(turn, rows):
    """An open table with these rows."""
    entries = b""
    for row in rows:
        if row:
            numbers = b"".join(number.to_bytes(2, "big") for number in row.numbers)
            name = bytes([1, len(row.name)]) + row.name.ljust(NAME, b"\0")
            entries += (name + len(row.record).to_bytes(4, "big") + numbers).ljust(ENTRY, b"\0")
        else:
            entries += bytes(ENTRY)
    return (bytes((0xA5, turn)).ljust(ENTRY, b"\0") + entries).ljust(TABLE, b"\0")


def tidied(image, found):
    """The file once it is at rest: zeros in the table that doesn't count and in all pages that no row names."""
    image = bytearray(image)
    for slot in (0, 1):
        if slot != found.slot or not found.turn:
            at = TABLE * slot
            image[at : at + TABLE] = bytes(len(image[at : at + TABLE]))
    for at in range(START, len(image), PAGE):
        row, number = (at - START) // ROW, (at - START) % ROW // PAGE
        named = found.rows[row].numbers if row < ROWS and found.rows[row] else ()
        zeros = bytes(min(PAGE, len(image) - at))
        if row < ROWS and number not in named and image[at : at + PAGE] != zeros:
            image[at : at + PAGE] = zeros
    return bytes(image)


def replanned(old, name, record):
    """A row with another record: what changes of it stands in the lowest pages that the old one doesn't name."""
    pages = [record[at : at + PAGE] for at in range(0, len(record), PAGE)]
    held = [old.record[at : at + PAGE] for at in range(0, len(old.record), PAGE)] if old else []
    free = (number for number in range(ROW_PAGES) if not old or number not in old.numbers)
    same = [at < len(held) and held[at].ljust(PAGE, b"\0") == page.ljust(PAGE, b"\0") for at, page in enumerate(pages)]
    return Row(name, record, [old.numbers[at] if same[at] else next(free) for at in range(len(pages))])


def laid(image, changes):
    """A book at rest once these rows have another name and record, or are gone, by one change."""
    found = found_in(image)
    rows = list(found.rows)
    for row, given in changes.items():
        rows[row] = replanned(rows[row], *given) if given else None
    slot, turn = (1 - found.slot, found.turn % 3 + 1) if found.turn else (0, 1)
    reach = max([row + 1 for row in changes if rows[row]], default=0)
    image = bytearray(image.ljust(START + ROW * reach, b"\0"))
    for row in changes:
        named = rows[row].numbers if rows[row] else ()
        for at, number in enumerate(named):
            put_at(image, row_place(row, number), rows[row].record[PAGE * at : PAGE * (at + 1)].ljust(PAGE, b"\0"))
    put_at(image, TABLE * slot, table_of(turn, rows))
    return tidied(bytes(image), Found(slot, turn, rows))


def taken_row(image, name):
    """The row of a name, and the lowest one that is free."""
    rows = found_in(image).rows
    named = [row for row, it in enumerate(rows) if it and it.name == name]
    return named[0] if named else None, next((row for row, it in enumerate(rows) if not it), None)


def damage_told(image):
    """The line that each command has of a damaged book, or none."""
    try:
        found_in(image)
    except Fault as fault:
        return "damaged book {} {} at {}\n".format(*fault.args)
    return None
