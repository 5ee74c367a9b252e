"""The kiln's devices on a Linux board such as a Raspberry Pi: the relay is line 17 of its first GPIO chip, and the converter sends a byte for each
`?` on a serial line. It needs Debian's python3-libgpiod and python3-serial. It was not tried on hardware.
"""
from typing import Optional

import gpiod
import serial

LINE, PORT = 17, "/dev/ttyUSB0"
READY, VALUE = 0xC0E1, 0xC0E2

chip = gpiod.Chip("gpiochip0")
pin = chip.get_line(LINE)
pin.request(consumer="forth", type=gpiod.LINE_REQ_DIR_OUT)
line = serial.Serial(PORT, 9600, timeout=1)


def relay(address: int, byte: Optional[int] = None) -> int:
    if byte is not None:
        pin.set_value(byte & 1)
    return int(pin.get_value())


def converter(address: int, byte: Optional[int] = None) -> int:
    if address != VALUE or byte is not None:
        return 128 if address == READY else 0
    line.write(b"?")
    answer = line.read(1)
    if not answer:
        raise TimeoutError(f"{PORT} has not answered for a second")
    return answer[0]


DEVICES = {"converter": converter, "relay": relay}
