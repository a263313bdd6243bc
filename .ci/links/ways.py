"""How calls go wrong, for `.ci/failing-links`: with each error that fits a call, or cut short to one byte or to none; and what
then ends a sync or a relay. A signal interrupts three times in a row, as each try of a call."""
import errno
from collections import Counter

WAYS = {
    "open": "EIO EACCES EMFILE EINTR",
    "open-null": "EIO EACCES EMFILE EINTR",
    "statx": "EIO EACCES",
    "fchmod": "EIO EACCES",
    "ftruncate": "EIO EACCES",
    "unlink": "EIO EACCES",
    "flock": "ENOLCK EINTR",
    "pread": "EIO EINTR one",
    "read": "EIO EINTR one",
    "pwrite": "EIO ENOSPC EINTR one",
    "fsync": "EIO ENOSPC EINTR",
    "fdatasync": "EIO ENOSPC EINTR",
    "write": "EIO ENOSPC EPIPE EINTR one",
    "__write": "EIO ENOSPC EPIPE EINTR one",
    "close": "EIO EINTR",
    "socket": "EMFILE ENOBUFS",
    "setsockopt": "ENOBUFS",
    "getsockopt": "ENOBUFS",
    "ioctl": "ENOBUFS",
    "bind": "EADDRINUSE EACCES",
    "listen": "EADDRINUSE",
    "connect": "ECONNREFUSED ETIMEDOUT ENETUNREACH EINTR",
    "poll": "ENOMEM EINTR none",
    "accept4": "EMFILE ECONNABORTED EINTR",
    "epoll_create1": "EMFILE",
    "epoll_ctl": "ENOMEM",
    "epoll_wait": "EBADF EINTR",
    "send": "ECONNRESET EPIPE ETIMEDOUT EAGAIN EINTR one",
    "recv": "ECONNRESET ETIMEDOUT EAGAIN EINTR one none",
}


def faults(call, way, name):
    """The variables of the library by which a call goes wrong in a way, if it has this name; or none does."""
    how = {None: 0, "one": -1, "none": -2}.get(way) if way in (None, "one", "none") else getattr(errno, way)
    only = {"FAILING_NAME": name} if name else {}
    if way == "EINTR":
        only["FAILING_TIMES"] = "3"
    return {"FAILING_MORE": "1", "FAILING_CALL": str(call), "FAILING_HOW": str(how)} | only


def cases(names):
    """Calls, from 1, each with a way and its name: of each name the first six go wrong in each way, and those that follow in
    one way each, by turns; from the 41st on every seventh."""
    seen, turn = Counter(), Counter()
    for call, name in enumerate(names, 1):
        ways = WAYS[name].split()
        seen[name] += 1
        if seen[name] > 40 and seen[name] % 7:
            continue
        if seen[name] > 6:
            turn[name] += 1
            ways = [ways[turn[name] % len(ways)]]
        yield from ((call, way, name) for way in ways)


def ending_of_sync(name, way, receives):
    """The status and the last line of a sync in which a call went wrong, if any; so many receives were made with it."""
    if name in (None, "open-null", "close") or way == "one" and name != "send" or (name, way) == ("poll", "none"):
        return 0, "end"
    if (name, way) == ("recv", "none"):
        return 12, f"peer: Ended at {2 - 2 * (receives % 2)}"
    if name in ("write", "__write"):
        return 5, None
    if name in ("socket", "connect", "poll", "getsockopt", "setsockopt", "ioctl", "send", "recv"):
        return 7, "fault: link"
    return 6, "fault: disk"


def ending_of_relay(name, way, listens):
    """The status and the last line of a relay in which a call went wrong, if any."""
    if name in (None, "open-null", "close", "send", "recv") or way == "one":
        return 0, None
    if name == "setsockopt" and listens:
        return 0, None
    if name in ("write", "__write"):
        return 5, None
    if name in ("socket", "bind", "listen", "accept4", "setsockopt", "epoll_create1", "epoll_ctl", "epoll_wait"):
        return 7, "fault: link"
    return 6, "fault: disk"
