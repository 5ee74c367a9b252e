"""A board's machine as that of a session.

The machine rests here, in a server of this computer, and runs there. Before a run, what has changed here goes to the board; after it, what
has changed there comes back when somebody asks for it. So the tools ask a server that is here, undo takes no memory of the board, and a
line moves some hundred bytes. Checksums show which pieces of memory have changed.
"""
from __future__ import annotations

import os
import struct
import time
import zlib
from typing import Callable, Iterable, Iterator, Optional

from served.line import Line
from served.target import BLOCK, TOP
from served.texts import FIRST as FIRST_TEXT, Unreadable
from served.wire import cells, Frames, Gone, MOST, packed, Refused, Stop, Wire

LOOKS = "vGmyizhajdV"  # requests that change nothing
NAMES = {b"DOOR", b"TELL", b"BREAK", b"COLD"}  # words of the images that sessions know
LARGE, SMALL, COUNT = 4096, 256, 16  # bytes of the pieces that are compared, and how many of them at once
TOGETHER = 16  # bytes that are written together if one of them has changed
PART = 1024  # bytes of an image that are saved at once
GLANCE = 0.15  # seconds that a run should take, so that ^C is obeyed soon
NO_ROOM = 11  # why a board refuses a reply
ASKS, BUFFERS = 3, 10  # cells of the registers: what is asked, and the number of buffers
ASKS_LINE = 2  # above it a block is asked
HEADER = 5  # bytes of a header before its name


class Board(Wire):
    """A machine on a board, over the line, as the server that these words start keeps it."""

    def __init__(self, words: list[str], shown: Callable[[bytes], None], line: Line, blocks: Optional[str], is_script: bool) -> None:
        super().__init__(words, shown)
        self._there, self._line, self.board_name = Frames(line, lambda text: self.shown(text)), line, line.name
        self._file = os.open(blocks, os.O_RDONLY | os.O_CLOEXEC) if blocks else None
        self._is_behind, self._is_ahead = False, False  # whether the machine has run there since, and whether it was changed here since
        self._memory, self._registers, self._slice = bytearray(self.memory(0, TOP)), b"", 10_000
        try:
            self._pull()
        except Refused:
            raise Unreadable("the image on the board has another number of block buffers than that of a session") from None
        missing = NAMES - {header.name for header in self.headers()}
        if missing:
            raise Unreadable(f"the image on the board has no word {missing.pop().decode()}; give it one that ./forth --image made")
        self._settle(is_script)

    def _settle(self, is_script: bool) -> None:
        """The blocks and the lines of texts of an earlier session are others now. A script begins at the prompt, whatever runs."""
        self.set_cells({header.token - len(header.name) - HEADER: 0 for header in self.headers() if header.view >= FIRST_TEXT})
        registers = cells(self.registers())
        buffers = len(registers) - 4 * registers[BUFFERS]
        head, stacks, slots = registers[: BUFFERS + 1], registers[BUFFERS + 1 : buffers], registers[buffers::4]
        if is_script or head[ASKS] > ASKS_LINE:
            head, stacks = [head[0], 1, self.token(b"QUIT"), *[0] * 7, head[BUFFERS]], []
        self.put_registers(packed(*head, *stacks, *(number for slot in slots for number in (slot, 0, 0, 0))))

    # What has changed

    def _differing(self, begin: int, size: int) -> Iterator[int]:
        """Where pieces of this size begin, of the next ones from an address on, that the board has otherwise."""
        body = self._there.ask("S", packed(begin, size, COUNT))
        for at, (there,) in zip(range(begin, TOP, size), struct.iter_unpack("<I", body)):
            if zlib.crc32(self._memory[at : at + size]) != there:
                yield at

    def _pull(self) -> None:
        """What has changed there comes here."""
        self._is_behind = False
        for large in list(self._differing(0, LARGE)):
            for at in list(self._differing(large, SMALL)):
                self._memory[at : at + SMALL] = self._there.ask("m", packed(at, SMALL))
                super().ask("M", packed(at) + self._memory[at : at + SMALL])
        self._registers = self._there.ask("G")
        super().ask("P", self._registers)

    def _push(self) -> None:
        """What has changed here goes there."""
        now = self.memory(0, TOP)
        for at, end in changes(self._memory, now):
            self._there.ask("M", packed(at) + now[at:end])
        registers = self.registers()
        if registers != self._registers:
            self._there.ask("P", registers)
        self._memory, self._registers, self._is_ahead = bytearray(now), registers, False

    def ask(self, kind: str, body: bytes = b"") -> bytes:
        if kind == "p" and self._is_behind:  # a page for a program that loads many: it goes there at once
            return self._there.ask("B", body.rstrip(b" "))
        self._note(kind)
        return super().ask(kind, body)

    def ask_all(self, requests: Iterable[tuple[str, bytes]]) -> list[bytes]:
        asked = list(requests)
        for kind, _ in asked:
            self._note(kind)
        return super().ask_all(asked)

    def _note(self, kind: str) -> None:
        """The machine here is asked this next."""
        if self._is_behind:
            self._pull()
        self._is_ahead = self._is_ahead or kind not in LOOKS

    # Running

    def run(self, ticks: int) -> Stop:
        """Runs there, for so many ticks at most. Blocks of the file are answered for here."""
        if self._is_ahead:
            self._push()
        asked, begins = min(ticks, self._slice), time.monotonic()
        self._is_behind = True
        try:
            stop = self._there.asked_stop("r", struct.pack("<I", asked))
        except Refused as refused:
            if refused.cause != NO_ROOM:
                raise
            self.shown(b" ..\n(the board has no room for all that this step shows)\n")
            return Stop(asked, "-", 0)
        if stop.ticks == self._slice:
            self._slice = int(self._slice * min(2.0, max(0.5, GLANCE / (time.monotonic() - begins)))) + 1
        if stop.how in "rw" and self._file is not None and stop.number < os.fstat(self._file).st_size // BLOCK:
            return self._file_block(self._file, stop)
        return stop

    def _file_block(self, file: int, stop: Stop) -> Stop:
        """The machine asks for a block of the file. One that can be read goes there at once; the server here does the rest."""
        try:
            page = os.pread(file, BLOCK, BLOCK * stop.number) if stop.how == "r" else b""
        except OSError:
            page = b""
        answered = self.answer("p", page) if len(page) == BLOCK else super().run(0)
        return answered._replace(ticks=stop.ticks)

    def acts(self) -> int:
        return cells(self._there.ask("U"))[0]

    # The board's flash, and the end

    def save_image(self, image: bytes) -> None:
        """The board starts with this image from now on; Refused if it cannot be saved."""
        for at in range(0, len(image), PART):
            part = image[at : at + PART]
            self._there.ask("F", packed(at) + part + b"\xff" * (-len(part) % SMALL))
        self._there.ask("E", packed(len(image)) + struct.pack("<I", zlib.crc32(image)))

    def close(self) -> int:
        """Writes the updated buffers, and leaves the board to itself."""
        try:
            self.save()
            self._push()
            self._there.ask("X")
        except Gone:
            self._is_behind = False  # nothing more comes from the board
        self._line.close()
        return super().close()


def changes(before: bytes, now: bytes) -> Iterator[tuple[int, int]]:
    """Where bytes begin and end that are others now, in pieces that a frame has room for."""
    starts = [at for at in range(0, TOP, TOGETHER) if before[at : at + TOGETHER] != now[at : at + TOGETHER]]
    while starts:
        first = end = starts[0]
        while starts and starts[0] == end and end + TOGETHER - first < MOST - 1:
            end = starts.pop(0) + TOGETHER
        yield first, end
