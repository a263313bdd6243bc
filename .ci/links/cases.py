"""A sync and a relay in which a call goes wrong, and the syncs that follow, for `.ci/failing-links`."""
import re

from hostile.runs import Failed
from links.ways import ending_of_relay, ending_of_sync, faults

OPENED = ['0.1 "one"', '0.2 "two"']
ANSWERED = ['1.1 "three"', '1.2 "four"']
LINES = ["opened 0.1", "opened 0.2", "stored 1", "stored 2", "end"]
UNTROUBLED = re.compile(r"(opened|stored|refused Spent) .*|end")
# a relay's boxes at first, the folder of second then, who syncs by turns, and how each of their connections ends
RELAYS = {
    "empty": ("second", ("other", "tried", "other"), (3, 7, 5)),
    "boxes": ("posted", ("tried", "other"), (7, 5)),
}


def prepare(room):
    """Both sides say two texts; in the folder `boxes` those of second are posted, and `posted` has noted that."""
    for side, texts in (("second", ("one", "two")), ("first", ("three", "four"))):
        for text in texts:
            room.done(side, "say", text)
    room.packets = room.done("first", "outbox")
    room.again("second", "posted")
    room.again("empty", "relay")
    relay = room.listening()
    posted = room.sync("posted")
    if posted != (0, ["stored 1", "stored 2", "end"]):
        raise Failed(f"a sync: {posted}")
    room.stop_relay(relay)
    room.again("relay", "boxes")


def common(these, those):
    """How many lines are the same, from the first on."""
    pairs = list(zip(these, those))
    return next((at for at, (this, that) in enumerate(pairs) if this != that), len(pairs))


class Case:
    """A call and its way; the last number that each side was told, and how many packets were posted twice."""

    def __init__(self, room, kind, call, way, only=None):
        self.room, self.kind, self.call, self.way, self.only = room, kind, call, way, only
        self.stored, self.repeats, self.name = {}, 0, None

    def demand(self, holds, what):
        if not holds:
            self.ran()
            at = f"call {self.call}, {self.name}, by {self.way}" if self.call else "without a fault"
            raise Failed(f"{self.kind}: {at}: {what}")

    def note(self, folder, lines):
        """The numbers that a relay gives rise; a packet that is refused was posted twice."""
        for number in (int(line[7:]) for line in lines if re.fullmatch(r"stored \d+", line)):
            last = self.stored.get(folder, 0)
            self.demand(number > last, f"{folder} is told number {number} after {last}")
            self.stored[folder] = number
        self.repeats += sum(line.startswith("refused Spent ") for line in lines)

    def sync(self, folder):
        """An untroubled sync."""
        status, lines = self.room.sync(folder)
        self.demand(status == 0, f"then {folder}'s sync has status {status}: {lines}")
        self.note(folder, lines)
        self.demand(all(map(UNTROUBLED.fullmatch, lines)), f"then {folder}'s sync says {lines}")

    def shown(self, folder):
        """What a side's state shows."""
        both = [self.room.run(folder, words) for words in ("inbox", "outbox")]
        self.demand([status for status, _ in both] == [0, 0], f"{folder}'s state isn't read any more: {both}")
        return both[0][1] + both[1][1]

    def settled(self):
        """All texts have arrived once, and nothing waits; one packet at most was posted twice."""
        for folder, texts in (("tried", OPENED), ("other", ANSWERED)):
            shown = self.shown(folder)
            self.demand(shown == texts, f"at the end {folder} has {shown!r:.200}")
        self.demand(self.repeats <= 1, f"{self.repeats} packets were posted twice")

    def ran(self):
        """The names of the calls that were made, up to the one that went wrong, where it was reached and has its name: what is
        waited for comes earlier or later, and so do some calls."""
        names = [line[0] for line in self.room.logged()[: self.call or None]]
        self.name = names[-1] if 0 < self.call == len(names) and names[-1] == (self.only or names[-1]) else None
        return names


def try_sync(room, call=0, way=None, only=None):
    """A sync of first, in which a call goes wrong; the names of its calls."""
    case = Case(room, "sync", call, way, only)
    for source, folder in (("first", "tried"), ("posted", "other"), ("boxes", "relay")):
        room.again(source, folder)
    relay = room.listening()
    status, lines = room.sync("tried", faults(call, way, only))
    names = case.ran()
    wanted, last = ending_of_sync(case.name, way, names.count("recv"))
    if way == "EINTR" and status == 0:
        wanted, last = 0, "end"
    case.demand(status == wanted, f"status {status}, and not {wanted}: {lines}")
    printed = common(lines, LINES)
    whole = {0: lines == LINES, 5: printed == len(lines)}.get(wanted, lines == [*LINES[:printed], last])
    case.demand(whole, f"its lines are {lines}")
    # a line is written after its change; where the link fails nothing is changed that isn't told, where a line fails one is
    shown, changes = case.shown("tried"), min(printed + (wanted == 5), 4)
    after = [OPENED[:count] + room.packets[max(count - 2, 0) :] for count in range(5)] + [None]
    stands = shown == after[changes] or wanted == 6 and shown == after[changes + 1]
    case.demand(stands, f"after {lines} the state shows {shown!r:.200}")
    case.note("tried", lines)
    case.sync("tried")
    case.sync("other")
    case.settled()
    room.stop_relay(relay)
    return names


def told(case, lines, expected, printed):
    """Whether a relay that ended well told one connection as failed, or as ended where its end came early, and those that
    follow as ended."""
    if len(lines) != len(expected) or printed == len(lines):
        return lines == expected
    if (case.name, case.way) == ("accept4", "EMFILE"):
        return all(re.fullmatch(rf"connection {at} ended \d", lines[at]) for at in range(1, len(lines)))
    cut = (case.name, case.way) == ("recv", "none")
    failed = case.name in ("setsockopt", "send") or case.name == "recv" and case.way not in ("one", "none")
    if not cut and not (failed and case.way != "EINTR" and lines[printed] == f"connection {printed} failed"):
        return False
    behind = range(printed if cut else printed + 1, len(lines))
    return all(re.fullmatch(rf"connection {at} ended \d", lines[at]) for at in behind)


def try_relay(room, boxes, call=0, way=None, only=None):
    """A relay in which a call goes wrong, and its clients in turn: with empty boxes second posts, first fetches and posts,
    second fetches; or second has posted. The names of its calls."""
    second, turns, ends = RELAYS[boxes]
    case = Case(room, f"relay with {boxes}", call, way, only)
    for source, folder in (("first", "tried"), (second, "other"), (boxes, "relay")):
        room.again(source, folder)
    expected = [f"relay {room.port}", *(f"connection {at} ended {end}" for at, end in enumerate(ends, 1))]
    relay = room.start_relay(len(turns), faults(call, way, only))
    for folder in turns:
        status, lines = room.sync(folder)
        case.demand(status in (0, 7, 12), f"{folder}'s sync has status {status}: {lines}")
        case.note(folder, lines)
    while (only, way) == ("accept4", "EMFILE") and not room.ends_soon(relay):
        # one who hadn't spoken yet gave up a descriptor, and isn't counted
        case.note("other", room.sync("other")[1])
    status, _ = room.ended(relay)
    lines = room.relay_lines()
    names, printed = case.ran(), common(lines, expected)
    wanted, last = ending_of_relay(case.name, way, printed > 0)
    if (way in ("one", "EINTR") or case.name == "accept4") and status == 0:
        wanted = 0
    case.demand(status == wanted, f"status {status}, and not {wanted}: {lines}")
    if wanted == 0:
        as_told = told(case, lines, expected, printed)
    else:
        as_told = lines == expected[:printed] + [last] * (wanted != 5)
    case.demand(as_told, f"its lines are {lines}")
    made = (room.path / "relay/relay.state").exists()
    case.demand(not (wanted == 7 and boxes == "empty" and printed == 0 and made), "it makes a file")
    # its file opens again
    relay = room.listening()
    for folder in ("other", "tried", "other"):
        case.sync(folder)
    case.settled()
    room.stop_relay(relay)
    return names
