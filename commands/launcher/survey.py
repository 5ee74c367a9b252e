"""Reports what old screens are, and what they need, before you move anything: the program's own `survey` makes the report, on one page.

    forth survey BLOCKS [FROM TO] [--over IMAGE] [--all]
    forth survey --card [ANSWERS]

- which screens look like source, shadows, text or data, which are blank, and which are the same;
- which dialect of screens/dialects they were written for, how sure that is, and why; or that it is undecided;
- where they use words that mean something else in another dialect, and what no dialect can keep;
- each word that neither they, the dialect nor the Forth (its tools, or IMAGE) define, with how often they use it and
  where first;
- which bytes are not text, and where; and whether the sectors would read better in another order.

--card prints ten lines to type on the old machine; with a text of the answers it says which dialect that is, how large a cell is,
which of its bytes comes first, and what the return key gives.

BLOCKS is a file of blocks of 1,024 bytes; `forth83 import` makes one from other containers. `forth survey` writes nothing.
"""
from __future__ import annotations

import argparse
import os
import subprocess
import sys
from typing import Callable

import card
import quiet_end
from launcher.program import Refused
from served import image

BLOCK, MAGIC = 1024, b"FTH83IMG"
LAST = 65535  # no screen has a higher number


def words_of(words: list[str]) -> argparse.Namespace:
    """What the command line asks for."""
    parser = argparse.ArgumentParser(
        prog="forth survey",
        usage="forth survey BLOCKS [FROM TO] [--over IMAGE] [--all]\n       forth survey --card [ANSWERS]",
        description=__doc__,
        formatter_class=argparse.RawDescriptionHelpFormatter,
    )
    parser.add_argument("blocks", metavar="BLOCKS", nargs="?")
    parser.add_argument("bounds", metavar="FROM TO", nargs="*", type=int)
    parser.add_argument("--over", metavar="IMAGE", help="the Forth that knows the words, instead of that of ./forth")
    parser.add_argument("--all", action="store_true", help="list every place, not only the first eight")
    parser.add_argument("--card", metavar="ANSWERS", nargs="?", const="", help="print lines to type on the old machine, or read the answers")
    asked = parser.parse_args(words)
    if asked.card is None and asked.blocks is None:
        parser.error("it needs the name of a file of blocks")
    if len(asked.bounds) not in (0, 2) or any(bound < 0 for bound in asked.bounds):
        parser.error("a range needs two numbers, FROM and TO")
    return asked


def read(name: str) -> bytes:
    try:
        with open(name, "rb") as file:
            return file.read()
    except OSError as error:
        raise Refused(f"cannot read {name}: {error.strerror}") from error


def range_of(name: str, data: bytes, bounds: list[int]) -> tuple[int, int]:
    """The first and the last screen of these that a file of blocks has."""
    if data.startswith(MAGIC):
        raise Refused(f"{name} is an image, not a file of blocks")
    size = len(data) // BLOCK
    if not size or len(data) % BLOCK:
        raise Refused(f"{name} has {len(data)} bytes, which is not a whole number of blocks; `forth83 import` makes blocks from it")
    first, last = bounds or (0, size - 1)
    last = min(last, size - 1, LAST)
    if first > last:
        raise Refused(f"{name} has screens 0 to {size - 1}")
    return first, last


def image_of(over: str | None, program: str) -> str:
    """The image whose words are known."""
    if over is None:
        return os.path.join(image.find(program), "served.img")
    if not read(over).startswith(MAGIC):
        raise Refused(f"{over} is not an image")
    return over


def report(program_of: Callable[[], str], asked: argparse.Namespace) -> int:
    """Has the program report, and says whether another order would read better."""
    data = read(asked.blocks)
    first, last = range_of(asked.blocks, data, asked.bounds)
    program = program_of()
    words = [program, "survey", image_of(asked.over, program), asked.blocks, str(first), str(last)]
    status = subprocess.call([*words, *["--all"] * asked.all])
    subprocess.call([program, "guess", asked.blocks, "--better"])
    return status


def main(program_of: Callable[[], str], words: list[str]) -> int:
    asked = words_of(words)
    if asked.card is None:
        return quiet_end.status_of(lambda: report(program_of, asked))
    shown = card.read(read(asked.card).decode("utf-8", "replace")) if asked.card else card.printed()
    return quiet_end.status_of(lambda: sys.stdout.write(shown) and 0)
