"""The kiln as a program that has its devices: a model, which warms by 80 degrees in a step or cools by 25.

`./forth bridge kiln.map plant.py ..` calls these functions: with an address, to answer a byte; and with an address and a byte that is stored.
"""
from typing import Optional

READY, VALUE = 0xC0E1, 0xC0E2


class Kiln:
    """A model: reading the converter lets the time of a step pass."""

    def __init__(self) -> None:
        self.degrees, self.is_heating = 45, False

    def converter(self, address: int, byte: Optional[int] = None) -> int:
        if address != VALUE or byte is not None:
            return 128 if address == READY else 0
        self.degrees += 80 if self.is_heating else -25
        return self.degrees // 5

    def relay(self, address: int, byte: Optional[int] = None) -> int:
        if byte is not None:
            self.is_heating = byte != 0
        return int(self.is_heating)


KILN = Kiln()
DEVICES = {"converter": KILN.converter, "relay": KILN.relay}
