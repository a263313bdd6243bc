"""The kinds of cases. Each changes something, runs the program on it, compares with what is foretold, and answers the status."""
from hostile.answers import Course, acts, bad_line, frame, frames_of, named, replied, shown, with_token
from hostile.areas import HALF, STATE_AREA, STATE_SIZE, box_area, foretold, looked, put_at, renewed, side_of
from hostile.changes import changed, changed_file, changed_script
from hostile.formats import STORED_PACKET, Box, Side, empty_box
from hostile.inputs import KEY
from hostile.runs import expect, expect_talk, serve, sync

PACKET_TEXT = 13741  # the most bytes of a packet's line
KEPT = ("texts", "packets", "kept", "reach", "latest", "epoch", "awaiting")  # what of a side is compared


def try_packet(draw, folder, inputs):
    image = draw.choice(inputs.stages)
    side = side_of(image)
    peers = [packet for packet in inputs.packets if not side.is_own(packet[20])]
    packet = draw.choice(peers if draw.random() < 0.8 else inputs.packets)
    way = draw.random()
    if way < 0.2:
        at = draw.choice((17, 21, 25))
        packet = packet[:at] + draw.choice((*range(30), 257, 65535)).to_bytes(4, "big") + packet[at + 4 :]
    elif way < 0.8:
        packet = changed(draw, packet, inputs.packets, (0, 1, 17, 20, 21, 24, 25, 28, 29, 31, 2228, 2230, len(packet) - 32))
    line = packet.hex().encode() + draw.choice((b"", b"\n"))
    if draw.random() < 0.2:
        line = changed(draw, line, [line, b"0123456789abcdefABCDEF\r\n\t -.x"])
    status, lines, left = folder.run(image, "take", given=line)
    digits = line.removesuffix(b"\n")
    if len(line) > PACKET_TEXT:
        wanted = f"refused: InputTooLong {PACKET_TEXT}\n"
    elif len(digits) % 2 or digits.strip(b"0123456789abcdefABCDEF"):
        wanted = "refused: NotHex\n"
    else:
        wanted = acts(side, ["take"], bytes.fromhex(digits.decode()), inputs.said)
    # what is no packet's line is refused before the file is opened
    is_read = not wanted.startswith(("refused: InputTooLong", "refused: NotHex"))
    expect_act(status, lines, opened(image)[2] if is_read else image, left, wanted, side)
    return status


def opened(image):
    """The side that an opening of a file finds, the file once it is at rest, the one that the opening leaves, and what is told of
    damage."""
    found, tidy, damage = foretold(image, STATE_AREA, Side)
    if damage:
        return None, tidy, tidy, damage
    return found.record, tidy, renewed(tidy, found), None


def expect_act(status, lines, then, left, wanted, side):
    """A refusal leaves the file as its opening does; else it keeps what the side keeps then."""
    refused = wanted.startswith("refused")
    expect("the answer", (status, lines), (3 if refused else 0, wanted))
    if refused:
        expect("a refusal leaves the file", left == then, True)
        return
    kept = side_of(left)
    for what in KEPT:
        now, then = getattr(kept, what), getattr(side, what)
        if what == "packets":
            now, then = ([position for position, _ in each] for each in (now, then))
        expect(f"{what}, then", now, then)


LOOKS = ("state", "inbox", "outbox", "awaiting")
COMMANDS = [*LOOKS, *LOOKS, "check", "check", "done 0", "done 2", "sent 1", "say hi", "take", "begin first", "sync 127.0.0.1:1"]


def try_state(draw, folder, inputs):
    image = changed_file(draw, draw.choice(inputs.stages), inputs.stages, STATE_SIZE)
    words = draw.choice(COMMANDS).split()
    packet = draw.choice(inputs.packets)
    given = {"take": packet.hex().encode(), "begin": KEY}.get(words[0], b"")
    side, tidy, then, damage = opened(image)
    status, lines, left = folder.run(image, *words, given=given)
    if words[0] == "check":
        expect("check", (status, lines), (0, looked(image, STATE_AREA, Side)))
        expect("a look writes nothing", left == image, True)
        return status
    if damage:
        wanted = 11, f"damaged {damage}"
    elif not side and words[0] == "begin":
        expect("begin", (status, lines), (0, f"session {inputs.session.hex()}\n"))
        expect("what is begun", left == inputs.stages[0] + image[len(inputs.stages[0]) :], True)
        return status
    elif not side:
        wanted = 9, "no session\n"
    elif words[0] in LOOKS:
        wanted = 0, shown(side, words[0])
    elif words[0] == "begin":  # which leaves a record's version
        wanted, then = (10, "session exists\n"), tidy
    elif words[0] == "sync":  # where nobody listens
        wanted = 7, "fault: link\n"
    else:
        # other keys in the file, and the tag is another
        wanted = 3, "refused: BadTag\n"
        if words[0] != "take" or lines != wanted[1]:
            line = acts(side, words, packet, inputs.said)
            expect_act(status, lines, then, left, line, side)
            wanted = status, line
            then = left
    expect(" ".join(words), (status, lines), wanted)
    expect("the file is as it was, or tidied and in the newest version", left == then, True)
    if status == 0 and words[0] not in LOOKS:
        words, wanted = ["state"], (0, shown(side, "state"))
    again = folder.run(left, *words, given=given)
    expect("once more", (*again[:2], again[2] == left), (*wanted, True))
    return status


def keys_of(box):
    return tuple(box.guard.keys.values()) if box.guard else None


def served(folder, inputs, image, stream):
    """A relay on a file, asked on one connection: the lines, the replies and the boxes."""
    boxes, tidy, wanted = {}, image, None
    for k, box in enumerate(inputs.boxes):
        found, after, damage = foretold(tidy, box_area(k), Box)
        if damage:
            wanted = 11, f"damaged area {k} {damage}"
            break
        tidy = after
        boxes[box] = found.record or empty_box(box, inputs.keys.get(box))
        other = "BoxName" if boxes[box].name != box else "BoxKeys" if keys_of(boxes[box]) != inputs.keys.get(box) else None
        if other and not wanted:
            wanted = 3, f"refused: {other} {k + 1}\n"
    status, lines, came = folder.in_time(serve, folder, image, inputs.words(), stream)
    left = folder.image()
    if wanted:
        expect("the relay", (status, lines), wanted)
        same = (left or b"").rstrip(b"\0") == (tidy or b"").rstrip(b"\0")  # it is whole from its opening on
        expect("the file is as it was, or areas before are tidied", same, True)
        return status
    replies = [frame(replied(boxes, body)) for body in frames_of(stream)]
    expect("the relay", (status, lines), (0, f"connection 1 ended {len(replies)}\n"))
    expect_talk("the replies", came, b"".join(replies))
    for k, box in enumerate(boxes.values()):
        found, rest, _ = foretold(left, box_area(k), Box)
        kept = found.record
        for what in ("name", "last", "items"):
            expect(f"a box, its {what}", getattr(kept, what), getattr(box, what))
        expect("its guard", kept.guard and vars(kept.guard), box.guard and vars(box.guard))
        expect("it is at rest", rest == left, True)
    expect("what lies elsewhere", outside(left, len(boxes)) == outside(image or b"", len(boxes)), True)
    return status


def outside(image, count):
    """A relay's file without the areas of so many boxes, up to its last byte that isn't zero."""
    for k in range(count):
        for start, end in box_area(k).ranges():
            image = put_at(image, start, bytes(len(image[start:end])))
    return image.rstrip(b"\0")


def requests(draw, inputs):
    """Frames of requests, most of them lawful."""
    many = draw.random() < 0.1
    stream = []
    for _ in range(80 if many else draw.randrange(1, 9)):
        box = inputs.boxes[0] if many else draw.choice(inputs.boxes + [b"nobody"])
        kind = draw.choice((1, 1, 1, 1, 1, 1, 2, 3) if many else (1, 1, 2, 2, 3, 3))
        rest = {1: draw.choice(inputs.packets), 2: b"", 3: draw.randrange(1, 9).to_bytes(8, "big")}[kind]
        request = named(kind, box) + rest
        if box in inputs.keys or draw.random() < 0.2:
            key = draw.choice((*inputs.keys[b"g"], inputs.keys[b"g"][kind == 1], bytes(32)))
            request = with_token(key, draw.choice((1, len(stream), 60 + len(stream), 2**64 - 1)), request)
        stream.append(frame(request))
    return stream


def beginnings(frames, fields):
    """Where each frame begins, and its fields of these sizes."""
    places = [0]
    for one in frames:
        places += [places[-1] + at for at in (*fields, len(one))]
    return places


def try_relay_file(draw, folder, inputs):
    image = changed_file(draw, draw.choice(inputs.relays), inputs.relays, HALF)
    return served(folder, inputs, image, b"".join(requests(draw, inputs)))


def try_frames(draw, folder, inputs):
    frames = requests(draw, inputs)
    stream = changed(draw, b"".join(frames), inputs.packets + frames, beginnings(frames, (1, 2, 3, 4)))
    stream = stream or b"\0"  # a relay doesn't count who says nothing
    return served(folder, inputs, draw.choice(inputs.relays), stream)


def try_replies(draw, folder, inputs):
    image = draw.choice(inputs.stages)
    side = side_of(image)
    replies = []
    for number in range(1, draw.randrange(1, 7)):
        packet = draw.choice(inputs.packets)
        if draw.random() < 0.2:
            packet = changed(draw, packet, inputs.packets)[:STORED_PACKET] or b"\0"
        replies += [frame(b"\x82" + number.to_bytes(8, "big") + packet), frame(b"\x84")]
    replies.append(frame(b"\x83"))
    replies += [frame(b"\x81" + number.to_bytes(8, "big")) for number in range(1, len(side.packets) + 1)]
    if draw.random() < 0.3:
        other = bytes([draw.randrange(0x80, 0x8B)]) + draw.choice((b"", b"\2", b"\3")) + draw.randbytes(draw.choice((0, 1, 8)))
        replies.insert(draw.randrange(len(replies) + 1), frame(other))
    for _ in range(draw.choice((0, 0, 0, 1, 2))):
        old = frame(b"\x89\3" + draw.choice((bytes(8), b"\xff" * 8, b"\xff" * 7 + b"\xfe", draw.randbytes(8))))
        replies.insert(draw.randrange(len(replies) + 1), old)
    stream = b"".join(replies)
    if draw.random() < 0.9:
        stream = changed(draw, stream, replies, beginnings(replies, (1, 2, 3)))
    course = Course(side, stream, inputs.said)
    status, lines, came = folder.in_time(sync, folder, image, stream)
    expect("the sync", (status, lines.splitlines()), (course.status, course.lines))
    expect_talk("the requests", came, course.requests)
    left = folder.image()
    kept = side_of(left)
    for what in KEPT:
        expect(f"{what}, then", getattr(kept, what), getattr(side, what))
    if not any(line.startswith(("opened", "stored")) for line in course.lines):
        expect("a sync that moves nothing leaves the file", left == opened(image)[2], True)
    return status


def try_script(draw, folder, inputs):
    script = changed_script(draw, draw.choice(inputs.scripts))
    if draw.random() < 0.5:
        script = changed(draw, script, inputs.scripts, [at + 1 for at, byte in enumerate(script) if byte in b" \n."])
    bad, texts = bad_line(script)
    status, lines, _ = folder.run(None, "duet", given=script)
    if bad:
        expect("duet", (status, lines), (3, f"refused: Script {bad}\n"))
        return status
    expect("duet", status, 0)
    for line in lines.splitlines():
        if line.endswith('"'):
            expect("a text that was said", line.split('"')[1] in texts, True)
    return status


KINDS = {
    "packet": (try_packet, "messenger.state", 1000),
    "state": (try_state, "messenger.state", 500),
    "relay-file": (try_relay_file, "relay.state", 150),
    "frames": (try_frames, "relay.state", 150),
    "replies": (try_replies, "messenger.state", 400),
    "script": (try_script, "none", 800),
}
