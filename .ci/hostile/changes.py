"""Changes at random of real bytes, files and scripts, for `.ci/hostile-bytes`: `draw` is the random source of the case."""
from hostile.areas import PAGE


def number_near(draw, size, now):
    """A number that isn't far from a limit or from what stood there."""
    near = [0, 1, 2, 16, 63, 64, 65, 127, 128, 129, 255, 256, 257, 511, 512, 513, 1023, 1024, 1025, 4095, 4096, 4097]
    near += [31, 32, 33, 4351, 4352, 4353, 4607, 4608, 4609, 7999, 8000, 8001, 8191, 8192, 8193, 65535, 2**32 - 1]
    value = draw.choice([now + draw.choice((-2, -1, 1, 2, 256)), draw.choice(near), 1 << draw.randrange(8 * size)])
    return (value % (1 << 8 * size)).to_bytes(size, "big")


def changed(draw, text, others, places=()):
    """Bytes changed in one to three ways, at any place or at one of those that are named."""
    text = bytearray(text)
    for _ in range(draw.choice((1, 1, 1, 2, 3))):
        at = draw.choice(places) if places and draw.random() < 0.6 else draw.randrange(len(text) + 1)
        at = min(at, len(text))
        size = draw.choice((1, 1, 2, 4, 8, 32, draw.randrange(1, 200)))
        end = min(at + size, len(text))
        other = draw.choice(others)
        piece = other[(start := draw.randrange(len(other) + 1)) : start + size]
        way = draw.randrange(13)
        if way < 2 and text:
            text[min(at, len(text) - 1)] ^= 1 << draw.randrange(8)
        elif way == 2:
            text[at:end] = draw.randbytes(end - at)
        elif way == 3:
            text[at:end] = draw.choice((b"\0", b"\xff", b"\x01", b"0", b"9", b"\n", b" ")) * (end - at)
        elif way == 4:
            text[at:end] = bytes(draw.choices(b"0123456789", k=end - at))
        elif way == 5:
            del text[at:]
        elif way == 6:
            del text[at:end]
        elif way == 7:
            text[at:at] = text[at:end]
        elif way == 8:
            text[at : at + len(piece)] = piece
        elif way == 9:
            text[at:at] = piece
        elif way == 10:
            text += draw.choice((piece, b"\0", b"\n", draw.randbytes(size)))
        else:
            size = min(draw.choice((1, 2, 2, 4, 8)), len(text) - at)
            text[at : at + size] = number_near(draw, size, int.from_bytes(text[at : at + size], "big")) if size else b""
    return bytes(text)


# where tables and records have their first fields, and how far before a record's end what waits has its own
ENDS = (1, 4, 8, 9, 12, 16, 17)
HEADS = (0, 1, 2, 3, 4, 5, 6, 8, 18, 19, 36, 43, 44, 45, 46, 50, 51, 52, 53, 54, 55, 3247, 3248, 3251, 3252)


def changed_file(draw, image, others, area):
    """A file of areas with bytes, or whole pages, changed: mostly in tables and in pages that hold something."""
    image = bytearray(image)
    if draw.random() < 0.1:
        image = image[: draw.randrange(len(image))] if draw.random() < 0.6 else image + draw.randbytes(draw.randrange(5000))
    used = [at for at in range(0, len(image), PAGE) if image[at : at + PAGE] != bytes(PAGE)]
    tables = [at + page for at in range(0, len(image), area) for page in (0, PAGE)]
    if len(image) > area and draw.random() < 0.1:
        image[:area], image[area : 2 * area] = image[area : 2 * area], image[:area]
    for _ in range(draw.choice((0, 1, 1, 2))):
        other = draw.choice(others)
        at = draw.choice(used + tables)
        source = draw.choice([at, at ^ PAGE, draw.choice(used + tables), draw.randrange(len(other) // PAGE) * PAGE])
        way = draw.randrange(6)
        page = other[source : source + PAGE] if way < 2 else bytes(image[source : source + PAGE])
        if way in (2, 3):
            image[source : source + PAGE] = image[at : at + PAGE]
        elif way == 4:
            page = bytes(page[:6]) + changed(draw, page[6:24], [page]).ljust(PAGE, b"\0")[: PAGE - 6]
        elif way == 5:
            page = draw.choice((bytes(PAGE), b"\xff" * PAGE, b"\xa5" + bytes([draw.randrange(5)]) + page[2:]))
        image[at : at + PAGE] = page
    for _ in range(draw.choice((0, 1, 1, 2, 3))):
        at = draw.choice(used + tables)
        page = image[at : at + PAGE]
        held = max(8, len(page.rstrip(b"\0")))
        places = HEADS + tuple(held - back for back in ENDS if back < held)
        piece = changed(draw, page[:held], [bytes(page), bytes(image[:PAGE])], places)
        image[at : at + PAGE] = piece[:PAGE].ljust(PAGE, b"\0") if at + PAGE <= len(image) else piece
    return bytes(image)


SCRIPTS = [
    "second say one,second say two,first take 0.2,first take 0.1,first take 0.1,first say yes,second take 1.1,"
    "first inbox,second inbox",
    "second say a,first flip 0.1 77,first take #1,first say b,first stop 3 old say c,second stop 12 a5 take 1.1,"
    "second state,first sent all",
    "second say x,second sync,first lose 2,first sync,first say,first say ,second sync,first done all,second done 1,"
    "first state",
    f"seed {'1' * 64},first say z,first bytes 01020304,first bytes,second take 1.1",
    "format plain padded,second say a,first take 0.1,first say b,second take 1.1",
    "format receipts receipts,second say a,second say b,first take 0.2,first say c,second take 1.1,second awaiting,first awaiting",
]
WORDS = "0 00 1 2 128 129 1025 4294967295 4294967296 #0 #1 #4294967295 0.0 0.1 1.1 2.1 0.65536 1.4294967295".split()
WORDS += "all old new a5 A5 first second format plain padded receipts awaiting".split()


def changed_script(draw, script):
    """A script with words, or whole lines, changed for others of scripts."""
    lines = [line.split(" ") for line in script.decode().splitlines()]
    others = [line.split(" ") for script in SCRIPTS for line in script.split(",")]
    for _ in range(draw.choice((0, 1, 2, 4, 8))):
        at = draw.randrange(2, len(lines) + 1)
        way = draw.randrange(5)
        if way == 0 and at < len(lines):
            lines.append(lines.pop(at))
        elif way < 3 or at == len(lines):
            lines.insert(at, draw.choice(others + lines[2:]))
        else:
            line = list(lines[at])
            line[draw.randrange(len(line))] = draw.choice(draw.choice(others) + WORDS)
            lines[at] = line
    return "".join(" ".join(line) + "\n" for line in lines).encode()
