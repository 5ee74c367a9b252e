"""Lines that nobody types: those of -e, of texts, and of standard input, which programs read by themselves, too."""
from __future__ import annotations

import os
import select
from typing import Optional

from served.prompt import Signals
from served.texts import EndOf, Line, LONGEST, Unreadable

STANDARD_INPUT = "line"  # how a place in a script of standard input is named


class Pipe:
    """Standard input, of which a program takes bytes or lines."""

    def __init__(self, signals: Signals) -> None:
        self._signals, self._come, self._has_ended = signals, b"", False

    def _read(self) -> bool:
        """Takes what has come; whether anything has."""
        piece = b"" if self._has_ended else self._signals.wait(lambda: os.read(0, 65536))
        self._has_ended = not piece
        self._come += piece
        return bool(piece)

    def byte(self) -> Optional[int]:
        if not self._come and not self._read():
            return None
        byte, self._come = self._come[0], self._come[1:]
        return byte

    def line(self) -> Optional[bytes]:
        """The next line without its end, which is byte 10, byte 13, or both; None if there is none."""
        while True:
            ends = [at for at in (self._come.find(b"\n"), self._come.find(b"\r")) if at >= 0]
            at = min(ends, default=-1)
            is_cut = at == len(self._come) - 1 and self._come[at:] == b"\r"
            if at >= 0 and not is_cut:
                size = 2 if self._come[at : at + 2] == b"\r\n" else 1
                line, self._come = self._come[:at], self._come[at + size :]
                return line
            if not self._read():
                line, self._come = self._come.rstrip(b"\r"), b""
                return line if line or at >= 0 else None

    def expected(self, most: int) -> Optional[bytes]:
        """What EXPECT of so many bytes takes, after 1 if a return ended it, which is taken, too, else after 0; None if nothing comes."""
        while True:
            line = self._come[:most].replace(b"\r", b"\n").partition(b"\n")[0]
            has_return = len(line) < min(most, len(self._come))
            if has_return or len(line) == most or not self._read():
                self._come = self._come[len(line) + has_return :]
                return bytes([has_return]) + line if has_return or line else None

    def has_byte(self) -> bool:
        return bool(self._come) or not self._has_ended and bool(select.select([0], [], [], 0)[0])


class Script:
    """The lines of a script, with what the program in it reads by itself."""

    is_script = True

    def __init__(self, signals: Signals, lines: list[Line], reads: bool, is_shown: bool) -> None:
        """The lines are these, then those of standard input if `reads`."""
        self._pipe, self._lines, self._reads, self.is_shown, self._number = Pipe(signals), lines, reads, is_shown, 0
        self.draft, self.row = "", b""

    def next(self) -> Optional[Line]:
        """The next line of the script; None if it has ended."""
        if self._lines:
            return self._lines.pop(0)
        text = self._pipe.line() if self._reads else None
        self._number += 1
        if text is not None and len(text) > LONGEST:
            raise Unreadable(f"{STANDARD_INPUT} {self._number}, column {LONGEST + 1}: a line may have {LONGEST} bytes; split it")
        return None if text is None else Line("", self._number, text.replace(b"\t", b" "))

    def take_until(self, begins: Line, end_of: EndOf) -> bool:
        """Takes the lines after this one out, up to an end in one of them; whether there is one in the same text."""
        while True:
            line = self.next()
            if line is None or line.name != begins.name:
                return False
            end = end_of(line.text)
            if end:
                self._lines.insert(0, line._replace(text=b" " * end + line.text[end:]))
                return True

    def line(self, before: bytes, keeps: bool) -> Optional[bytes]:
        """A line that a program reads."""
        return self._pipe.line()

    def key(self) -> Optional[int]:
        return self._pipe.byte()

    whole_key = key

    def has_key(self, seconds: float = 0) -> bool:
        return self._pipe.has_byte()

    def raw(self) -> None:
        """Nothing has to be set."""

    cook = raw
    close = raw
