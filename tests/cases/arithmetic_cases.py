#!/usr/bin/env python3
"""Writes tests/cases/conformance/data/arithmetic.txt: cases of the arithmetic rows at the edges of cells and doubles.

Nothing here knows the program. The results come from Python's whole numbers, of which `//` and `%` are the floored
division and its remainder, and of the loop from its rule alone, walked one step at a time: a loop ends where the
boundary between limit - 1 and limit is crossed.

Run it without arguments: python3 tests/cases/arithmetic_cases.py
"""

import argparse
from itertools import product
from pathlib import Path
import sys
from typing import Callable, Iterator, List, Optional, Tuple, Union

CELLS = [-32768, -1, 0, 1, 32767]
DOUBLES = [-2147483648, -65536, -1, 0, 1, 65535, 65536, 2147483647]
TARGET = Path(__file__).resolve().parents[2] / "tests/cases/conformance/data/arithmetic.txt"

HEAD = """\
\\ The arithmetic rows at the edges of cells and doubles, computed by whole numbers apart from the program.
\\ Written by tests/cases/arithmetic_cases.py: change that, and not this file.
"""


def wrap(n: int, bits: int) -> int:
    """The signed number of that many bits which is `n` modulo 2 ** bits."""
    half = 1 << (bits - 1)
    return (n + half) % (1 << bits) - half


def unsigned(n: int, bits: int = 16) -> int:
    return n % (1 << bits)


def floored(n: int, m: int) -> Optional[Tuple[int, int]]:
    """Remainder and quotient, or None: a zero divisor, or a quotient that is no signed cell."""
    if m == 0:
        return None
    remainder, quotient = n % m, n // m
    return (remainder, quotient) if -32768 <= quotient <= 32767 else None


def unsigned_division(n: int, m: int) -> Optional[Tuple[int, int]]:
    """Remainder and quotient, or None: a zero divisor, or a quotient that is no unsigned cell."""
    if m == 0:
        return None
    remainder, quotient = n % m, n // m
    return (remainder, quotient) if quotient <= 65535 else None


def loop_goes_on(index: int, limit: int, step: int) -> Optional[int]:
    """The new index, or None if the walk from `index` by `step` crosses between limit - 1 and limit."""
    direction = 1 if step > 0 else -1
    for _ in range(abs(step)):
        following = wrap(index + direction, 16)
        if {index, following} == {wrap(limit - 1, 16), limit}:
            return None
        index = following
    return index


def cells(*numbers: int) -> str:
    return " ".join(map(str, numbers))


def halves(d: int) -> Tuple[int, int]:
    """The low and the high cell of a double."""
    return unsigned(d), unsigned(d // 65536)


def leaves(number: int, name: str, given: str, left: Optional[Union[int, str]]) -> str:
    """The line of a row that takes `given` and leaves `left`, or is fault 5 if that is None."""
    if left is None:
        return f"{number} {name} ( {given} -- same ) fault 5"
    return f"{number} {name} ( {given} -- {left} )"


def flag(is_true: bool) -> int:
    return -1 if is_true else 0


def doubles(*numbers: int) -> str:
    """Doubles as cells."""
    return cells(*(half for number in numbers for half in halves(number)))


def double_of(low: int, high: int) -> int:
    """The signed double of two cells."""
    return wrap(unsigned(low) + 65536 * high, 32)


def both(found: Optional[Tuple[int, int]]) -> Optional[str]:
    return found and cells(*found)


def loops() -> Iterator[str]:
    """Of a row at 298, and the loop that LEAVE would end at 900."""
    yield "ip 300\nset 300 700"
    for index, limit in product(CELLS, CELLS):
        yield f"returns 7 900 {cells(limit, index)}"
        for step in CELLS:
            following = loop_goes_on(index, limit, step)
            if following is None:
                change = "  returns 7\n  ip 302"
            else:
                change = f"  returns 7 900 {cells(limit, following)}\n  ip 700"
            yield f"11 (+LOOP) ( {step} -- )\n{change}"
            if step == 1:
                yield f"10 (LOOP) ( -- )\n{change}"


Row = Tuple[int, str, Callable[..., Optional[Union[int, str]]]]
DIVISIONS: List[Row] = [
    (51, "/", lambda n, m: (it := floored(n, m)) and it[1]),
    (52, "MOD", lambda n, m: (it := floored(n, m)) and it[0]),
    (53, "/MOD", lambda n, m: both(floored(n, m))),
]
SCALED: List[Row] = [
    (54, "*/", lambda n1, n2, m: (it := floored(n1 * n2, m)) and it[1]),
    (55, "*/MOD", lambda n1, n2, m: both(floored(n1 * n2, m))),
]
UNSIGNED: List[Row] = [(79, "UM/MOD", lambda low, high, m: both(unsigned_division(unsigned(low) + 65536 * unsigned(high), unsigned(m))))]
COMPARISONS: List[Row] = [
    (70, "=", lambda n1, n2: flag(n1 == n2)),
    (71, "<>", lambda n1, n2: flag(n1 != n2)),
    (72, "<", lambda n1, n2: flag(n1 < n2)),
    (73, ">", lambda n1, n2: flag(n1 > n2)),
    (74, "U<", lambda n1, n2: flag(unsigned(n1) < unsigned(n2))),
]
EXTREMES: List[Row] = [(64, "MIN", min), (65, "MAX", max)]
SUMS: List[Row] = [
    (48, "+", lambda n1, n2: wrap(n1 + n2, 16)),
    (49, "-", lambda n1, n2: wrap(n1 - n2, 16)),
    (50, "*", lambda n1, n2: wrap(n1 * n2, 16)),
    (78, "UM*", lambda n1, n2: doubles(unsigned(n1) * unsigned(n2))),
]
SINGLES: List[Row] = [
    (62, "NEGATE", lambda n: wrap(-n, 16)),
    (63, "ABS", lambda n: wrap(abs(n), 16)),
    (61, "2/", lambda n: n // 2),
    (60, "2*", lambda n: wrap(2 * n, 16)),
]
DOUBLE_SUMS: List[Row] = [(80, "D+", lambda d1, d2: doubles(d1 + d2)), (81, "D-", lambda d1, d2: doubles(d1 - d2))]
DOUBLE_EXTREMES: List[Row] = [(85, "DMIN", lambda d1, d2: doubles(min(d1, d2))), (86, "DMAX", lambda d1, d2: doubles(max(d1, d2)))]
DOUBLE_COMPARISONS: List[Row] = [
    (87, "D=", lambda d1, d2: flag(d1 == d2)),
    (89, "D<", lambda d1, d2: flag(d1 < d2)),
    (90, "DU<", lambda d1, d2: flag(unsigned(d1, 32) < unsigned(d2, 32))),
]
SINGLE_DOUBLES: List[Row] = [
    (82, "DNEGATE", lambda *halves_of: doubles(-double_of(*halves_of))),
    (83, "DABS", lambda *halves_of: doubles(abs(double_of(*halves_of)))),
    (84, "D2/", lambda *halves_of: doubles(double_of(*halves_of) // 2)),
    (88, "D0=", lambda *halves_of: flag(double_of(*halves_of) == 0)),
]


def each(rows: List[Row], values: List[int], count: int, given: Callable[..., str] = cells) -> Iterator[str]:
    """The lines of rows that take so many of these values, as they are given."""
    for operands in product(values, repeat=count):
        for number, name, does in rows:
            yield leaves(number, name, given(*operands), does(*operands))


GROUPS = [
    ("Floored quotients and remainders.", each(DIVISIONS, CELLS, 2)),
    ("The same of a product.", each(SCALED, CELLS, 3)),
    ("Quotients and remainders without signs.", each(UNSIGNED, CELLS, 3)),
    ("Loops: where they go on, at 700, and where they end, at 302.", loops()),
    ("Comparisons.", each(COMPARISONS, CELLS, 2)),
    ("The lesser and the greater.", each(EXTREMES, CELLS, 2)),
    ("Sums, differences and products.", each(SUMS, CELLS, 2)),
    ("Of one cell: it negated, its amount, its half and its double.", each(SINGLES, CELLS, 1)),
    ("Sums and differences of doubles.", each(DOUBLE_SUMS, DOUBLES, 2, doubles)),
    ("The lesser and the greater of doubles.", each(DOUBLE_EXTREMES, DOUBLES, 2, doubles)),
    ("Comparisons of doubles.", each(DOUBLE_COMPARISONS, DOUBLES, 2, doubles)),
    ("Of one double: it negated, its amount, its half; whether it is 0.", each(SINGLE_DOUBLES, CELLS, 2)),
]


def main() -> int:
    argparse.ArgumentParser(description=f"Writes {TARGET.name}: cases of the arithmetic rows, computed here.").parse_args()
    groups = (f"\n\\ {text}\n" + "".join(f"{case}\n" for case in found) for text, found in GROUPS)
    TARGET.write_text(HEAD + "".join(groups), encoding="utf-8")
    return 0


if __name__ == "__main__":
    sys.exit(main())
