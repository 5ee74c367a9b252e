"""Writes files whole: a new one takes the place of the old one when all of it is written, and otherwise the old one stays."""
from __future__ import annotations

import itertools
import os


def replace(path: str | os.PathLike[str], content: bytes, like: str = "") -> None:
    """Makes or replaces a file. Before its first byte is written it has the owner and the mode of the file that it replaces, or else those of
    `like`; and until it is whole it has a name that no other file has. A link stays, and what it names is replaced."""
    import tempfile  # is not needed by those that only start

    place = os.path.realpath(path)
    descriptor, new = tempfile.mkstemp(prefix=".forth-", dir=os.path.dirname(place))
    try:
        with open(descriptor, "wb") as file:
            be_as(descriptor, place if os.path.exists(place) else like)
            file.write(content)
            file.flush()
            os.fsync(descriptor)
        os.replace(new, place)
    except BaseException:
        os.unlink(new)
        raise


def put_aside(path: str) -> str:
    """Renames a file to one with `.old` at its end, or `.old2` and so on if there are such files; the new name."""
    kept = free_name(f"{path}.old")
    os.rename(path, kept)
    return kept


def free_name(path: str) -> str:
    """The path, or the first with a number from 2 on at its end, that no file has."""
    names = (f"{path}{number if number > 1 else ''}" for number in itertools.count(1))
    return next(name for name in names if not os.path.lexists(name))


def be_as(descriptor: int, place: str) -> None:
    """Gives a new file the owner and the mode of the file at a place, or the mode of any new one if there is no such file."""
    try:
        there = os.stat(place)
    except FileNotFoundError:
        mask = os.umask(0)
        os.umask(mask)
        os.fchmod(descriptor, 0o666 & ~mask)
        return
    if (there.st_uid, there.st_gid) != (os.geteuid(), os.getegid()):
        try:
            os.fchown(descriptor, there.st_uid, there.st_gid)
        except PermissionError:
            pass  # only root may give files away
    os.fchmod(descriptor, there.st_mode & 0o777)
