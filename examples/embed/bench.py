#!/usr/bin/env python3
"""The test bench of bench.c in Python, over the module forth83: bench.py IMAGE [WORD] [--library LIBRARY] < LINES

Block 1 is the instrument, and the others are kept in memory.
"""
import argparse
import sys
from typing import Optional

from forth83 import ABI, Forth, MemoryBlocks, Refused, Stop

BLOCKS, INSTRUMENT, TICKS = 16, 1, 1000000


class Bench(MemoryBlocks):
    """The blocks in memory, and the instrument: its first cell counts the measurements, its second is twice the output set in the third."""

    measured = 0

    def read(self, block: int) -> Optional[bytes]:
        if block == INSTRUMENT:
            self.measured += 1
            page = self.pages[block]
            doubled = 2 * int.from_bytes(page[4:6], "little")
            self.pages[block] = (self.measured % 65536).to_bytes(2, "little") + (doubled % 65536).to_bytes(2, "little") + page[4:]
        return super().read(block)


def type_line(forth: Forth, line: bytes) -> bool:
    """Types a line, and shows what it shows; whether the machine goes on. A line that takes too long is as if it had not been typed."""
    forth.drop_block(INSTRUMENT)
    before = forth.snapshot()
    ran = forth.run(line, TICKS)
    sys.stdout.buffer.write(ran.shown)
    if ran.stop == Stop.LIMIT:
        forth.restore(before)
        sys.stdout.buffer.write(b"\n(interrupted)\n")
    return ran.stop != Stop.HALTED


def main() -> int:
    """Enters the word, if one is named, and types each line of standard input."""
    words = argparse.ArgumentParser(description="A test bench: a Forth over an instrument in block 1. It types the lines of standard input.")
    words.add_argument("image", metavar="IMAGE", help="an image file")
    words.add_argument("word", metavar="WORD", nargs="?", help="a word to enter first")
    words.add_argument("--library", default=f"libforth83.so.{ABI}", metavar="LIBRARY", help="the shared library, if it is not installed")
    asked = words.parse_args()
    with open(asked.image, "rb") as file:
        forth = Forth(file.read(), Bench(BLOCKS), library=asked.library)
    try:
        if asked.word is not None:
            forth.enter(asked.word)
    except Refused as refused:
        print(f"bench: {asked.word}: status {refused.status.value}", file=sys.stderr)
        return 1
    for line in sys.stdin.buffer:
        if not type_line(forth, line):
            break
    return 0


if __name__ == "__main__":
    sys.exit(main())
