"""The texts of the tools as screens. A heading begins a screen; what has no room there runs on to the next ones, so no screen is ever full."""
from __future__ import annotations

import re
from typing import NamedTuple

LINES, WIDTH = 16, 64


class Screen(NamedTuple):
    """A screen: its number, the text that has it, and its lines, each with its number in that text."""

    number: int
    path: str
    lines: list[tuple[int, str]]


def headings_in(listing: str) -> list[tuple[int, int]]:
    """What `forth83 headings` printed of a text: the number of each screen, and that of its heading's line."""
    return [(int(number), int(line)) for number, line in map(str.split, listing.splitlines())]


def parts_of(path: str, text: str, headings: list[tuple[int, int]]) -> list[Screen]:
    """What is below each heading of a text: the headings are numbers of screens, each with the number of its line."""
    lines = list(enumerate(text.splitlines(), 1))
    ends = [line - 1 for _, line in headings[1:]] + [len(lines)]
    return [Screen(number, path, lines[line:end]) for (number, line), end in zip(headings, ends)]


def begins(lines: list[tuple[int, str]], at: int) -> bool:
    """Whether a line begins a definition, or the comment above one."""
    return lines[at][1].startswith(("( ", ": ")) and not lines[at - 1][1].startswith("( ")


def pages_of(lines: list[tuple[int, str]]) -> list[list[tuple[int, str]]]:
    """The lines of one screen after another, each of which begins with the title."""
    pages, title = [], [line for line in lines[:1] if line[1].startswith("( ")]
    while len(lines) > LINES:
        end = next((at for at in range(LINES, 1, -1) if begins(lines, at)), LINES)
        pages.append(lines[:end])
        lines = title + lines[end:]
    return [*pages, lines]


def paged(parts: list[Screen]) -> list[Screen]:
    """The screens of these parts of texts, in the order of their numbers. One whose number is taken, since those before it run on, gets the next."""
    screens, number = [], 0
    for part in sorted(parts, key=lambda part: part.number):
        number = max(number, part.number)
        for lines in pages_of(part.lines):
            screens.append(Screen(number, part.path, lines))
            number += 1
    return screens


def text_of(screens: list[Screen]) -> str:
    """The screens as a text that the program reads."""
    return "".join(f"% screen {it.number}\n" + "".join(f"{line}\n" for _, line in it.lines) for it in screens)


def place_of(screens: list[Screen], said: str) -> str:
    """The file and the line of what the program refused, of the text of these screens or of a screen of them."""
    places = {f"screen {it.number} offset {WIDTH * at}": (it.path, line[0]) for it in screens for at, line in enumerate(it.lines)}
    found = re.match(r"screen (\d+) offset (\d+)", said)
    if found:
        path, number = places.get(f"screen {found[1]} offset {int(found[2]) // WIDTH * WIDTH}", ("", 0))
        return f"{path}:{number}" if path else "the tools"
    lines = [place for it in screens for place in [(it.path, it.lines[0][0] - 1 if it.lines else 0), *((it.path, line[0]) for line in it.lines)]]
    found = re.match(r"line (\d+)", said)
    at = int(found[1]) - 1 if found else len(lines)
    return "{}:{}".format(*lines[at]) if at < len(lines) else "the tools"
