"""Screens of a block file as lines."""
import pathlib
from typing import Dict, List

import program

LINES, WIDTH, BYTES = 16, 64, 1024
KERNEL = "(  1  Control: threads and loops )"


class Screens:
    """The screens of a file: the lines of each number."""

    def __init__(self) -> None:
        self.lines: Dict[int, List[str]] = {}

    def numbers(self) -> List[int]:
        return sorted(self.lines)

    def first(self) -> int:
        """The first screen that is not the kernel's: 21 in a file with a kernel, otherwise 0."""
        return 21 if self.lines.get(1, [""])[:1] == [KERNEL] else 0

    def is_blank(self, number: int) -> bool:
        return not any(self.lines.get(number, []))


def characters(data: bytes) -> str:
    """Bytes as they are seen: as UTF-8, with a dot for each byte that isn't, and for each control byte."""
    read = data.decode("utf-8", "surrogateescape")
    return "".join(one if one.isprintable() else "." for one in read)


def lines_of(block: bytes) -> List[str]:
    """The lines of a block, up to the last that isn't blank, without the blanks at their ends."""
    lines = [characters(block[at : at + WIDTH]).rstrip(" ") for at in range(0, BYTES, WIDTH)]
    while lines and not lines[-1]:
        lines.pop()
    return lines


def read(name: str) -> Screens:
    """All screens of a file."""
    path = pathlib.Path(name)
    if not path.is_file():
        raise program.Refusal(f"{path} does not exist, or is not a file of blocks")
    content = path.read_bytes()
    if len(content) % BYTES or not content:
        raise program.Refusal(f"{path} has {len(content)} bytes, which is not a whole number of blocks")
    screens = Screens()
    screens.lines = {at // BYTES: lines_of(content[at : at + BYTES]) for at in range(0, len(content), BYTES)}
    return screens


def defines(line: str, name: str) -> bool:
    """Whether a line has `: NAME` or the like."""
    words = line.split()
    return any(one == ":" and other == name for one, other in zip(words, words[1:]))


def screens_of(screens: Screens, name: str) -> List[int]:
    """The screens with a colon definition of that name, but the kernel's."""
    own = [number for number in sorted(screens.lines) if number >= screens.first()]
    return [number for number in own if any(defines(line, name) for line in screens.lines[number])]
