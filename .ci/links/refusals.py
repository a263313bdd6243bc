"""Allocations that are refused, and what a run answers then. For `.ci/failing-memory`."""
from hostile.runs import Failed
from links.cases import Case


def refusals(log):
    """Each number of an allocation, refused alone or with all that follow."""
    if len(log) < 50 or any(line[2] != "program" for line in log):
        raise Failed(f"{len(log)} allocations are seen, which are {log!r:.200}")
    return [sign * number for number in range(1, len(log) + 1) for sign in (1, -1)]


def refused(number):
    return {"FAILING_ALLOCATION": str(number)}


def case_of(room, kind, number):
    return Case(room, f"{kind} without memory", abs(number), "itself" if number >= 0 else "all from it on")


def asks_again(room, number):
    """Whether the program asked for no more after one allocation was refused, and got that."""
    log = room.logged()
    return 0 < number < len(log) and log[number][2] == "program" and int(log[number][1]) <= int(log[number - 1][1])


def judge(case, number, status, lines, whole):
    """Whether a run did its work, else it may have done nothing; `whole` has the lines of an untroubled one."""
    case.ran()
    if asks_again(case.room, number) and status == 0:
        case.demand(lines == whole, f"its lines are {lines}")
        return True
    # a relay's door is a port, which tells no cause: it takes its room where it listens
    is_unheard = case.kind.startswith("relay") and (status, lines) == (7, ["fault: link"])
    case.demand(is_unheard or (status, lines) == (13, ["no memory"]), f"status {status}: {lines!r:.200}")
    return False
