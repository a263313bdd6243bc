"""How examples/receive-files joins pieces, and gives what they make its name."""
import hashlib
import os
import urllib.parse

import shared
from shared import Ended


def safe_name(name):
    """The name for a file of this folder that a written name stands for."""
    name = urllib.parse.unquote_to_bytes(name)
    name = bytes(byte if byte >= 32 and byte not in b"/\x7f" else ord("_") for byte in name)[:240]
    return os.fsdecode(b"_" + name[1:] if name.startswith(b".") else name)


def joined(pieces, path):
    """The digest of what pieces give, which is put into a file."""
    whole = hashlib.sha256()
    if os.path.exists(path):
        os.unlink(path)  # after a kill it may have the file's name in `received` too
    with open(path, "xb") as file:
        for piece in pieces:
            with open(piece, "rb") as source:
                content = source.read()
            whole.update(content)
            file.write(content)
        file.flush()
        os.fsync(file.fileno())
    return whole.hexdigest()


def put_under_name(whole, name, note):
    """Gives a file the first name in `received` that is free, and notes it before: after a kill it isn't put there twice."""
    os.makedirs("received", exist_ok=True)
    if os.path.exists(note):
        with open(note, "rb") as file:
            path = os.fsdecode(file.read())
        if is_same(whole, path):
            return path
    for number in range(1, 10_000):
        path = os.path.join("received", name if number == 1 else f"{name}.{number}")
        if os.path.lexists(path):
            continue
        shared.put_file(note, os.fsencode(path))
        try:
            os.link(whole, path)
        except FileExistsError:
            continue
        shared.sync_folder("received")
        return path
    raise Ended(1, f"received has {shared.shown(name)} in 9,999 versions: make room there")


def is_same(one, other):
    """Whether two files have the same bytes."""
    if not os.path.isfile(other) or os.path.getsize(one) != os.path.getsize(other):
        return False
    with open(one, "rb") as a, open(other, "rb") as b:
        while block := a.read(1 << 20):
            if b.read(1 << 20) != block:
                return False
    return True
