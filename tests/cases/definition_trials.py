"""Random rows, as cases of tests/cases/conformance that expect what the definitions say."""
import random
from typing import Any, Iterator, List, Tuple

import definition_machine as machines
from definition_cases import State
from definition_machine import NONE

ROWS = [*range(1, 28), *range(32, 46), *range(48, 91), *range(96, 108), *range(112, 122), *range(128, 135), *range(144, 158), *range(168, 198), *range(200, 205)]
EDGES = (0, 1, 2, 3, 10, 16, 31, 32, 63, 64, 255, 256, 1023, 1024, 32766, 32767, 32768, 32769, 65279, 65533, 65534, 65535)
PLACES = (300, 301, 600, 610, 620, 700, 1000, 61440, 62464, 63488, 64512, 65530)
SYSTEM = (16, 18, 20, 22, 24, 26, 28, 30, 32, 34, 36, 38, 40, 54)
# A dictionary: EXIT at 256, BYE at 267 and GO at 277, each the only one of its class; a name and a number as counted strings; a line at
# TIB, and a text in the first buffer.
WORLD = (
    "set 18 10 20 0 28 290 30 279 32 42 34 42 44 258 46 269 48 279 52 42 54 256 74 265 110 275",
    "bytes 256 01 00 00 00 84 45 58 49 54 05 00",
    "bytes 267 01 00 00 00 83 42 59 45 17 00",
    "bytes 277 01 00 00 00 82 47 4F 01 00 13 01 09 01",
    'text 600 "\\x04EXIT"',
    'text 610 "\\x03-12"',
    'text 61440 " BYE GO 65 NEW) X"',
    'text 128 "GO 12. EXIT ( x) BYE -7 a-very-long-name-of-more-than-31-bytes"',
)


def any_cell(chance: random.Random) -> int:
    return chance.choice((chance.choice(EDGES), chance.choice(EDGES), chance.choice(PLACES), chance.randrange(100), chance.randrange(65536)))


def given_lines(chance: random.Random) -> List[str]:
    """What a random state is given."""
    count = chance.choice((2, 4, 4, 4, 16))
    lines = [*WORLD, f"count {count}", f"device {chance.choice((0, 3, 9))}", f"ip {any_cell(chance)}", f"token {any_cell(chance)}"]
    lines += [f"assign {chance.randrange(5)}" for _ in range(chance.choice((0, 0, 1, 2)))]
    lines += [f"set 22 {chance.choice((0, 0, 1, 2))} 24 {chance.choice((0, 3, 17, 80))} 20 {chance.choice((0, 0, 3, 16, 200))} 38 {chance.randrange(3)}"]
    lines += [f"set 16 {chance.choice((0, 65535))}"] * chance.randrange(2)
    lines += [f"set {chance.choice(SYSTEM)} {any_cell(chance)}" for _ in range(chance.choice((0, 0, 0, 1)))]
    lines += [f"set {chance.choice(PLACES)} {any_cell(chance)}" for _ in range(chance.randrange(3))]
    if chance.random() < 0.3:
        lines.append(f"next {any_cell(chance)}")
    depth = chance.choice((255, 256)) if chance.random() < 0.05 else chance.randrange(9)
    return [*lines, "returns " + " ".join(str(any_cell(chance)) for _ in range(depth))]


def cells_for(chance: random.Random) -> List[int]:
    """A random data stack; its top is mostly small, so that what goes over as many bytes is short."""
    depth = chance.choice((254, 255, 256)) if chance.random() < 0.05 else chance.choice((0, 1, 2, 3, 3, 4, 4, 4, 5, 6, 7))
    cells = [any_cell(chance) for _ in range(depth)]
    if cells and chance.random() < 0.8:
        cells[-1] = chance.choice((0, 1, 2, 5, 40, 300, 600, 610, 61440))
    if len(cells) > 1 and chance.random() < 0.9:
        cells[-2] = chance.choice((0, 1, 2, 5, 40, 300, 600))
    return cells


def came_lines(before: Any, after: Any) -> List[str]:
    """The lines that say what a row changed beside the data stack."""
    lines = [f"returns {' '.join(map(str, reversed(after.f_returns)))}".rstrip(), f"ip {after.f_ip}"]
    lines.append("next -" if after.f_pending == NONE else f"next {after.f_pending[1]}")
    lines.append("buffers " + machines.parts_text(after).rpartition("buffers ")[2])
    old, new = before.f_memory, after.f_memory
    pages = [first for first in range(0, 65536, 256) if old[first : first + 256] != new[first : first + 256]]
    places = [place for first in pages for place in range(first, first + 256) if old[place] != new[place]]
    return [*lines, *(f"bytes {place} {new[place]:02X}" for place in places)]


def trials(seed: int, count: int) -> Iterator[Tuple[int, List[str]]]:
    """So many random rows, each the lines of a case. A row after UPDATE is over a buffer that is marked."""
    chance = random.Random(seed)
    for place in range(count):
        number, cells = ROWS[place % len(ROWS)], cells_for(chance)
        given = given_lines(chance)
        state = State()
        for line in given:
            state.apply({}, line)
        lines, whole = list(given), state.whole()
        if chance.random() < 0.3:
            whole, _ = machines.row(114, 0, whole)
            lines += ["114 UPDATE ( -- )", *(f"  {line}" for line in came_lines(state.whole(), whole))]
        whole = whole._replace(f_values=machines.stack(cells))
        after, came = machines.row(number, state.numbers["token"], whole)
        left = " ".join(map(str, reversed(after.f_values)))
        lines.append(f"{'then ' if len(lines) > len(given) else ''}{number} ( {' '.join(map(str, cells))} -- {left} ) {came}".rstrip())
        yield number, [*lines, *(f"  {line}" for line in came_lines(whole, after)), ""]
