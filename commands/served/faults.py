"""The place of a fault: where its word is in the input; the texts of data/faults.txt; and why a text cannot be taken."""
from __future__ import annotations

import os
from typing import NamedTuple

from system_cells import ABORTED, BAD_LENGTH, NOT_FOUND

UNKNOWN, MISSING, SAID = NOT_FOUND, BAD_LENGTH, ABORTED
WIDTH = 100  # columns of a line that a message shows
TEXTS = os.path.join(os.path.dirname(os.path.dirname(os.path.dirname(os.path.realpath(__file__)))), "data", "faults.txt")


def section(name: str) -> list[tuple[str, str]]:
    """The texts of a section of data/faults.txt, with their names."""
    with open(TEXTS, encoding="utf-8") as file:
        body = file.read().partition(f"\n% {name}\n")[2].partition("\n% ")[0]
    return [(line.partition(" ")[0], line.partition(" ")[2]) for line in body.splitlines() if line]


MESSAGES = dict(section("faults"))


class Unreadable(Exception):
    """A text that cannot be taken, and why."""


class Input(NamedTuple):
    """The text that was being interpreted when a fault happened: BLK, >IN, and the bytes."""

    block: int
    offset: int
    text: bytes


def word_at(fault: int, given: Input) -> range:
    """Where the word is that a fault is about: the one before >IN; for an unknown name, which is not taken yet, the one after."""
    text, at = given.text, min(given.offset, len(given.text))
    before = text[:at].rstrip(b" ")
    if fault == UNKNOWN or not before:
        start = at + len(text[at:]) - len(text[at:].lstrip(b" "))
    else:
        start = before.rfind(b" ") + 1
    end = text.find(b" ", start)
    return range(start, len(text) if end < 0 else end)


def columns(text: bytes) -> int:
    """How many columns these bytes take, which may be UTF-8."""
    return len(text.decode(errors="replace"))


def plain(text: bytes) -> str:
    """A text without what a terminal would obey."""
    return "".join(c if c.isprintable() else "." for c in text.decode(errors="replace"))


def marked(text: bytes, at: int) -> list[str]:
    """A line with a mark below byte `at`; of a long one the part around it."""
    start = 0 if len(text) <= WIDTH else max(at - WIDTH // 2, 0)
    shown = text[start : start + WIDTH].rstrip(b" ")
    return [plain(shown), " " * columns(text[start:at]) + "^"]
