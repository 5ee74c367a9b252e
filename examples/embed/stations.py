#!/usr/bin/env python3
"""A host in Python, over the module forth83; what stations.cpp does in C++: stations.py IMAGE [--library LIBRARY]

An instrument in a block, a machine that is copied while it waits for a key, a hundred machines, faults, words that are called, and limits.
"""
import argparse
import sys
from typing import Callable, Iterator, List, Optional

from forth83 import ABI, Blocks, Fault, Forth, Stop, Unfinished

SENSOR, FIRST, STATIONS = 150, 1000, 100


class Sensor(Blocks):
    """A device: each measurement is one more than the last one. It has one block, and takes no bytes."""

    def __init__(self) -> None:
        self.next = FIRST

    def read(self, block: int) -> Optional[bytes]:
        if block != SENSOR:
            return None
        self.next += 1
        return (self.next - 1).to_bytes(2, "little").ljust(1024, b"\0")

    def write(self, block: int, page: bytes) -> bool:
        return False


def lines(image: bytes, library: str) -> Iterator[str]:
    """What is tried, and what came of it."""
    forth = Forth(image, Sensor(), library=library)
    forth.type(f": ADC {SENSOR} BLOCK @ ; : SQUARE DUP * ; : DIVIDE / ; : ASK 3 4 KEY . + . ; : LOOPS BEGIN AGAIN ;")
    for _ in range(2):
        forth.drop_block(SENSOR)
        yield f"sensor {forth.call('ADC')[0]}"
    forth.run(b"ASK\n")
    waits = forth.snapshot()
    for key in b"AB":
        forth.restore(waits)
        yield f"key {forth.run(bytes([key])).shown.decode().split(' ok')[0].strip()}"
    stations = [Forth(image, library=library) for _ in range(STATIONS)]
    for number, station in enumerate(stations):
        station.type(f": MINE {number} DUP * ;")
    yield f"stations {sum(station.call('MINE')[0] for station in stations)}"
    yield f"call {forth.call('SQUARE', 12)[0]}"
    tries: List[Callable[[], object]] = [lambda: forth.call("DIVIDE", 1, 0), lambda: forth.type("99 BLOCK"), lambda: forth.type("NOWORD")]
    for what in tries:
        try:
            what()
        except Fault as fault:
            yield f"fault {fault.number}"
    try:
        forth.call("LOOPS", limit=1000)
    except Unfinished as unfinished:
        yield f"limit {unfinished.stop == Stop.LIMIT:d}"
    yield f"then {forth.type('5 6 + .').strip()}"


def main() -> int:
    words = argparse.ArgumentParser(description="A host with an instrument, a hundred machines, and faults.")
    words.add_argument("image", metavar="IMAGE")
    words.add_argument("--library", default=f"libforth83.so.{ABI}", metavar="LIBRARY", help="the shared library, if it is not installed")
    asked = words.parse_args()
    with open(asked.image, "rb") as file:
        for line in lines(file.read(), asked.library):
            print(line)
    return 0


if __name__ == "__main__":
    sys.exit(main())
