"""Texts of screens, as the program reads them; RELOAD takes their screens into a session."""
from __future__ import annotations

import os
import re

from served import image
from served.faults import section
from served.paging import headings_in
from served.target import BLOCK
from served.texts import read_text, Unreadable

REFUSED = re.compile(r"line (\d+): (\w+) ?(\d*)")


def why(said: str) -> str:
    """What the program said of a text that it refuses, in words."""
    found = REFUSED.fullmatch(said)
    return f"line {found[1]} {dict(section('texts'))[found[2]].format(byte=found[3])}" if found else said


def run(name: str, *words: str) -> str:
    """Runs the program over the text of this name, and returns what it prints; Unreadable if it refuses the text."""
    try:
        return image.run(*words)
    except image.NotMade as error:
        raise Unreadable(f"{name}: {why(str(error))}") from error


def read_screens(forth83: str, name: str, count: int, room: str) -> list[tuple[int, bytes]]:
    """The screens of a text, each with its number, for a file of so many blocks; Unreadable says why they cannot be read."""
    if not name:
        raise Unreadable("RELOAD needs the name of a file")
    text, made = os.path.join(room, "text"), os.path.join(room, "made.blk")
    with open(text, "wb") as copy:
        copy.write(read_text(name))
    numbers = sorted(number for number, _ in headings_in(run(name, forth83, "headings", text)))
    if not numbers:
        raise Unreadable(f"{name} has no line like: % screen 30; INCLUDE {name} loads a text of Forth")
    if numbers[-1] >= count:
        raise Unreadable(f"{name} has screen {numbers[-1]}, but the block file has screens 0 to {count - 1} only")
    run(name, forth83, "screens", text, made)
    with open(made, "rb") as file:
        blocks = file.read()
    return [(number, blocks[number * BLOCK : (number + 1) * BLOCK]) for number in numbers]
