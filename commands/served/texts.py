"""Text files as blocks: each line that has words is a block from FIRST on, so that BLK, >IN and view cells are places in files.

A file that is read again takes the same blocks if it has not changed, and new ones if it has.
"""
from __future__ import annotations

import errno
import os
import re
import stat
from typing import Callable, NamedTuple, Optional

from served import bridge
from served.faults import Unreadable
from served.image import LIBRARY, with_numbers

FIRST = 32768  # blocks from here on are lines of texts
ROOM = 65536 - FIRST
LONGEST = 1024  # bytes of a line
LARGEST = 16 << 20  # bytes of a text
EVALUATED = "EVALUATE"  # what stands for the file of a text that a program gives
BYTE_ORDER = b"\xef\xbb\xbf"  # what may be before a text in UTF-8
MARKS = {b"\xff\xfe": "UTF-16", b"\xfe\xff": "UTF-16"}


class Line(NamedTuple):
    """A line of a text: the file, its number from 1 on, and its bytes."""

    name: str
    number: int
    text: bytes


def read_file(name: str) -> bytes:
    """What a file has. It never waits: what is not a file, as a pipe or a device, is refused, and so is what is too large."""
    with open(os.open(name, os.O_RDONLY | os.O_NONBLOCK | os.O_CLOEXEC), "rb") as file:
        mode = os.fstat(file.fileno()).st_mode
        if not stat.S_ISREG(mode):
            code = errno.EISDIR if stat.S_ISDIR(mode) else errno.EINVAL
            raise OSError(code, os.strerror(code) if stat.S_ISDIR(mode) else "it is not a file")
        content = file.read(LARGEST + 1)
    if len(content) > LARGEST:
        raise OSError(errno.EFBIG, f"it has more than {LARGEST >> 20} MB")
    return with_numbers(content.decode()).encode() if os.path.dirname(os.path.realpath(name)) == LIBRARY else content


def read_text(path: str, name: str = "") -> bytes:
    """The same; Unreadable says why the file, which may have been named otherwise, cannot be read."""
    try:
        return read_file(path)
    except OSError as error:
        raise Unreadable(f"cannot read {name or path}: {error.strerror}") from error


def lines_of(name: str, content: bytes) -> list[Line]:
    """The lines of a text that have words. A tab counts as a blank; a first line that begins with #! has no words."""
    if content[:2] in MARKS:
        raise Unreadable(f"{name} is a text in {MARKS[content[:2]]}; save it as UTF-8")
    found = []
    rest = content[len(BYTE_ORDER) :] if content.startswith(BYTE_ORDER) else content
    for number, text in enumerate(rest.splitlines(), 1):
        text = text.replace(b"\t", b" ").rstrip(b" ")
        if len(text) > LONGEST:
            raise Unreadable(f"{name}:{number}:{LONGEST + 1}: a line may have {LONGEST} bytes; split it")
        if text and not (number == 1 and text.startswith(b"#!")):
            found.append(Line(name, number, text))
    return found


EndOf = Callable[[bytes], int]  # where something that was left open ends in a line: the byte after it, 0 if it goes on


def end_of_comment(text: bytes) -> int:
    return text.find(b")") + 1


class Skipped:
    """The words that [IF] or [ELSE] leaves out: those up to the [ELSE] or [THEN] that belongs to it."""

    def __init__(self) -> None:
        self._depth = 1

    def end_of(self, text: bytes) -> int:
        for found in re.finditer(rb"[^ ]+", text):
            word = found[0].upper()
            if word == b"[IF]":
                self._depth += 1
            elif word == b"[THEN]" or word == b"[ELSE]" and self._depth == 1:
                self._depth -= 1
            if not self._depth:
                return found.end()
        return 0


class Texts:
    """The lines of all texts that a session has read."""

    def __init__(self) -> None:
        self._lines: list[Line] = []
        self._pages: dict[int, bytes] = {}  # lines of which a comment took a part
        self._ranges: dict[tuple[str, bytes], range] = {}
        self.last = ""  # the text that was read last, not by another one
        self.included: set[str] = set()  # the files that were read

    def add(self, lines: list[Line]) -> range:
        """The blocks of these lines from now on."""
        if len(self._lines) + len(lines) > ROOM:
            raise Unreadable(f"a session has room for {ROOM} lines of texts; leave the Forth and start it again")
        first = FIRST + len(self._lines)
        self._lines += lines
        return range(first, first + len(lines))

    def open(self, name: str, beside: Optional[int]) -> range:
        """The blocks of a text, which is searched beside the text of the block that names it, then from here."""
        if not name and not self.last:
            raise Unreadable("INCLUDE needs the name of a file")
        path = self.path(name or self.last, beside)
        content = read_text(path, name)
        if self.place(beside or 0) is None:
            self.last = path
        self.included.add(os.path.realpath(path))
        key = (os.path.realpath(path), content)
        if key not in self._ranges:
            # A map of devices stands for the Forth that gives them their addresses.
            self._ranges[key] = self.add(lines_of(path, bridge.text_of(path, content) if path.endswith(bridge.ENDS) else content))
        for block in self._ranges[key]:
            self._pages.pop(block, None)
        return self._ranges[key]

    def path(self, name: str, beside: Optional[int]) -> str:
        """Where a text is: beside the text that names it, here, or among the texts that come with the Forth."""
        place = self.place(beside or 0)
        near = os.path.join(os.path.dirname(place.name), name) if place else name
        found = [path for path in (near, os.path.expanduser(name), os.path.join(LIBRARY, name)) if os.path.exists(path)]
        return found[0] if found else name

    def place(self, block: int) -> Optional[Line]:
        return self._lines[block - FIRST] if 0 <= block - FIRST < len(self._lines) else None

    def page(self, block: int) -> Optional[bytes]:
        """What the machine reads as this block."""
        place = self.place(block)
        return self._pages.get(block, place.text).ljust(LONGEST) if place else None

    def evaluated(self, text: bytes) -> int:
        """The block of a text that a program gives to EVALUATE."""
        key = ("", text)
        if key not in self._ranges:
            self._ranges[key] = self.add([Line(EVALUATED, 1, text)])
        return self._ranges[key].start

    def take_until(self, block: int, end_of: EndOf) -> bool:
        """Takes the lines after this block out, up to an end in one of them; whether there is one in the same text."""
        begins = self.place(block)
        if begins is None:
            return False
        taken: dict[int, bytes] = {}
        for later in range(block + 1, FIRST + len(self._lines)):
            line = self._lines[later - FIRST]
            if line.name != begins.name or line.number <= begins.number:
                return False
            end = end_of(line.text)
            taken[later] = b" " * end + line.text[end:] if end else b""
            if end:
                self._pages.update(taken)
                return True
        return False
