"""A serial line to a board: packets that survive lost, added and changed bytes, as docs/FORMATS.md has them; the host's side."""
from __future__ import annotations

import binascii
import fcntl
import os
import select
import termios
import time
import tty
from typing import Callable, Iterator, NamedTuple, Optional

from served.texts import Unreadable
from served.wire import Gone

FLAG, ESCAPE, FLIP, MOST = 0x7E, 0x7D, 0x20, 128
VERSION = 1
BUSY = 0.5  # seconds for an answer that the board has promised
SILENT, GIVEN_UP = 3.0, 20.0  # seconds without an answer until that is said, and until nothing is expected any more
ADVICE = "is it plugged in, and does it run a program as examples/board is?"


class Packet(NamedTuple):
    kind: bytes
    number: int
    content: bytes


def wired(packet: Packet) -> bytes:
    """A packet as it is sent."""
    body = packet.kind + bytes([packet.number, len(packet.content)]) + packet.content
    body += binascii.crc_hqx(body, 0xFFFF).to_bytes(2, "little")
    return b"\x7e" + body.replace(b"\x7d", b"\x7d\x5d").replace(b"\x7e", b"\x7d\x5e") + b"\x7e"


def sound(body: bytes) -> Optional[Packet]:
    """The packet of these bytes; None if they are damaged."""
    is_whole = len(body) > 4 and len(body) == body[2] + 5 and body[2] <= MOST
    if not is_whole or binascii.crc_hqx(body[:-2], 0xFFFF) != int.from_bytes(body[-2:], "little"):
        return None
    return Packet(body[:1], body[1], body[3:-2])


class Reader:
    """Finds the packets among the bytes that come."""

    def __init__(self) -> None:
        self._body, self._is_escaped = bytearray(), False

    def take(self, come: bytes) -> Iterator[Optional[Packet]]:
        """The packets that end in these bytes; None for each that is damaged."""
        for byte in come:
            if byte == FLAG:
                body, is_cut = bytes(self._body), self._is_escaped
                self._body, self._is_escaped = bytearray(), False
                if body or is_cut:
                    yield None if is_cut else sound(body)
            elif byte == ESCAPE and not self._is_escaped:
                self._is_escaped = True
            else:
                self._body.append(byte ^ FLIP if self._is_escaped else byte)
                self._is_escaped = False


def opened(device: str, speed: int) -> int:
    """The line, which no other session has meanwhile: bytes pass as they are."""
    rate = getattr(termios, f"B{speed}", None)
    if rate is None:
        raise Unreadable(f"a line has no speed {speed} here; 115200 and 9600 are usual")
    try:
        file = os.open(device, os.O_RDWR | os.O_NOCTTY | os.O_NONBLOCK | os.O_CLOEXEC)
    except OSError as error:
        advice = "; its group may use it, so join that: sudo usermod -aG dialout $USER" * isinstance(error, PermissionError)
        raise Unreadable(f"cannot open {device}: {error.strerror}{advice}") from error
    if not os.isatty(file):
        raise Unreadable(f"{device} is not a serial line")
    try:
        fcntl.flock(file, fcntl.LOCK_EX | fcntl.LOCK_NB)
    except OSError as error:
        raise Unreadable(f"{device} is in use by another session; end that with BYE") from error
    tty.setraw(file)
    settings = termios.tcgetattr(file)
    settings[2] = settings[2] & ~termios.CRTSCTS | termios.CLOCAL | termios.CREAD
    settings[4] = settings[5] = rate
    termios.tcsetattr(file, termios.TCSANOW, settings)
    termios.tcflush(file, termios.TCIOFLUSH)
    return file


class Line:
    """A line with a board at its other end. The host asks and the board answers, packet by packet. What is not answered is sent again; the
    board does nothing twice, since a packet has a number."""

    def __init__(self, device: str, speed: int, report: Callable[[str], None], is_interrupted: Callable[[], bool]) -> None:
        self._file, self._device = opened(device, speed), f"{device} ({speed} bits a second)"
        self._report, self._is_interrupted = report, is_interrupted
        self._patience = 0.05 + 10 * 4 * (MOST + 7) / speed  # seconds for an answer: two packets and their escapes
        self._reader, self._come, self._number = Reader(), b"", os.urandom(1)[0]
        self.repeats = 0
        greeting = self._exchange(b"O", b"")
        if greeting[:1] != bytes([VERSION]):
            raise Unreadable(f"the board at {self._device} speaks another version of these packets")
        self.name = greeting[1:].decode(errors="replace")

    # A channel of frames

    def send(self, frames: bytes) -> None:
        for at in range(0, len(frames), MOST):
            self._come += self._next(frames[at : at + MOST])

    def come(self) -> bytes:
        if not self._come:
            return self._next(b"")
        come, self._come = self._come, b""
        return come

    def close(self) -> None:
        os.close(self._file)

    # Packets

    def _next(self, content: bytes) -> bytes:
        self._number = (self._number + 1) % 256
        return self._exchange(b"D", content)

    def _exchange(self, kind: bytes, content: bytes) -> bytes:
        """The answer to a packet, which is sent until it comes."""
        whole, begins, said = wired(Packet(kind, self._number, content)), time.monotonic(), False
        while True:
            self._write(whole)
            answer = self._answer()
            if answer is not None:
                return answer
            self.repeats += 1
            passed = time.monotonic() - begins
            if passed > GIVEN_UP or kind == b"O" and passed > SILENT or said and self._is_interrupted():
                raise Gone(f"no board answers at {self._device}; {ADVICE}")
            if passed > SILENT and not said:
                said = True
                self._report(f"the board at {self._device} does not answer; it is asked again, and ^C ends the session\n")

    def _answer(self) -> Optional[bytes]:
        """The answer to the packet that was sent last; None if the packet is to be sent again."""
        until = time.monotonic() + self._patience
        while True:
            left = until - time.monotonic()
            if left <= 0 or not select.select([self._file], [], [], left)[0]:
                return None
            for packet in self._reader.take(self._read()):
                if packet is None or packet.kind == b"N":
                    return None
                if packet.number != self._number:
                    continue
                if packet.kind == b"D":
                    return packet.content
                if packet.kind == b"C":
                    raise Gone(f"the board at {self._device} was reset")
                until = time.monotonic() + BUSY

    def _read(self) -> bytes:
        try:
            piece = os.read(self._file, 65536)
        except BlockingIOError:
            return b""
        except OSError as error:
            raise Gone(f"the line to the board is gone: {self._device}: {error.strerror}") from error
        if not piece:
            raise Gone(f"the line to the board is gone: {self._device}")
        return piece

    def _write(self, whole: bytes) -> None:
        while whole:
            try:
                whole = whole[os.write(self._file, whole) :]
            except BlockingIOError:
                if not select.select([], [self._file], [], SILENT)[1]:
                    return
            except OSError as error:
                raise Gone(f"the line to the board is gone: {self._device}: {error.strerror}") from error
