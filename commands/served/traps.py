"""Places of threads at which a machine stops.

A place where it is to stop has the kernel's KEY in its thread. When the machine executes that, it asks for a key: the host takes the
question back by the registers, and the machine is what it was before that tick. So a program runs at full speed up to there.
"""
from __future__ import annotations

from typing import Optional

from served.target import TOP
from served.wire import Wire, cells, packed

KEY = b"KEY"
IP, ASKS, ASKED, TOKEN = 0, 3, 4, 5  # cells of the registers


class Traps:
    """Places of threads at which the machine stops, while they are set. Each keeps the token that belongs there."""

    def __init__(self, wire: Wire) -> None:
        self._wire = wire
        self._key = min(header.token for header in self._wire.headers() if header.name == KEY)
        self.places: set[int] = set()
        self._tokens: dict[int, int] = {}

    def set(self, more: int = 0) -> None:
        """Sets all of them, and one more if it is not 0."""
        for place in self.places | ({more} if more else set()):
            token = self._wire.cell(place)
            if token != self._key:
                self._tokens[place] = token
                self._wire.set_cell(place, self._key)

    def lift(self) -> None:
        """Takes them away; what a program has compiled there since then stays."""
        for place, token in self._tokens.items():
            if self._wire.cell(place) == self._key:
                self._wire.set_cell(place, token)
        self._tokens = {}

    def is_hit(self) -> Optional[int]:
        """The place of the one that the machine has just executed."""
        place = (self._wire.state().ip - 2) % TOP
        return place if place in self._tokens else None

    def take_back(self, place: int) -> None:
        """The machine as it was before it executed the trap at that place."""
        registers = cells(self._wire.registers())
        registers[IP], registers[ASKS], registers[ASKED], registers[TOKEN] = place, 0, 0, 0
        self.lift()
        self._wire.put_registers(packed(*registers))
