"""Bridges: which addresses of an old program are devices, and what answers for them.

A map is a text such as `C0E0-C0E2 adc` and `C0F1 relay`: addresses in hexadecimal, and the name of a device; what comes after a `\\` or `#` is a
remark. INCLUDE of a map gives these addresses to the ports of the host, by the words of screens/library/devices.fs: the number of a port is the
address. A file of Python has the devices: its DEVICES has a function for each name, which gets an address and answers with a byte, or gets an address and a
byte that is stored.
"""
from __future__ import annotations

import re
from typing import NamedTuple, Optional

from served.faults import Unreadable

ENDS = ".map"
# What a session loads: the words of ports, before a dialect, which hides REQUIRE; and after it those that give
# addresses to devices.
BEFORE, AFTER = "REQUIRE board.fs", "INCLUDE devices.fs"
PORT_FETCH, PORT_STORE = 48, 49  # the services of PORT@ and PORT!
RANGE = re.compile(r"\s*([0-9A-F]{1,4})(?:\s*-\s*([0-9A-F]{1,4}))?\s+(\S+)\s*(?:[\\#].*)?", re.I)
REMARK = re.compile(r"\s*(?:[\\#].*)?")


class Range(NamedTuple):
    """Addresses of a device, from the first to the last."""

    first: int
    last: int
    device: str


def range_of(line: str, place: str) -> Optional[Range]:
    """The addresses of a line of a map; None for a remark."""
    if REMARK.fullmatch(line):
        return None
    found = RANGE.fullmatch(line)
    if found is None:
        raise Unreadable(f"{place}: a line of a map has addresses in hexadecimal and the name of a device, as in: C0E0-C0E2 adc")
    first, last = int(found[1], 16), int(found[2] or found[1], 16)
    if last < first:
        raise Unreadable(f"{place}: {found[2]} is before {found[1]}")
    return Range(first, last, found[3])


def ranges(name: str, content: bytes) -> list[Optional[Range]]:
    """The addresses of each line of a map."""
    found: list[Optional[Range]] = []
    for number, line in enumerate(content.decode("utf-8", "replace").splitlines(), 1):
        one = range_of(line, f"{name}:{number}")
        shared = one and next((other for other in found if other and one.first <= other.last and other.first <= one.last), None)
        if one and shared:
            raise Unreadable(f"{name}:{number}: {max(one.first, shared.first):X} is an address of {shared.device} already")
        found.append(one)
    return found


def text_of(name: str, content: bytes) -> bytes:
    """A map as a text of Forth, which has a line for each of its lines."""
    lines = (f"BASE @ HEX 0{one.first:X} 0{one.last:X} DEVICE PORT@ PORT! BASE !" if one else "" for one in ranges(name, content))
    return "\n".join(lines).encode("ascii")
