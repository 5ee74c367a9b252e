"""The machine that a session drives: what it was asked and given since the last line, and what its cells mean to the tools."""
from __future__ import annotations

import os
from typing import Optional

from served.advising import Adviser
from served.faults import Input
from served.table import FIRST, SECOND
from served.texts import FIRST as FIRST_TEXT, Texts
from served.wire import Refused, Stop, Wire, cells, packed
from system_cells import BASE, BLK, CONTEXT, DP, FAULT, FENCE, FORTH_VOC, SCR, STATE, TIB, TO_IN  # noqa: F401

TOP = 65536
BLOCK = 1024
MOST_NOTED = 200_000  # answers of a line that are kept for WHY: a program that polls the keyboard for days takes no more memory


class Target:
    """A machine, its texts, and its file of blocks."""

    def __init__(self, wire: Wire, texts: Texts, blocks: Optional[str], program: str) -> None:
        """The program is the one that says what is said about its faults."""
        self.wire, self.texts, self.blocks, self.adviser = wire, texts, blocks, Adviser(program)
        self.log: Optional[list[tuple[str, bytes]]] = []  # what it was given since the line began; None if that was very much
        self.ticks = 0  # what it did since then
        self.all_ticks = 0  # what it did since the session began
        self.acts = 0  # what a board did by itself before the line
        self._bodies = {header.name: header.token + 2 for header in wire.headers()}  # those of the system's words

    # What it does

    def begin(self) -> None:
        """A line begins."""
        self.log, self.ticks, self.acts = [], 0, self.wire.acts()

    def run(self, ticks: int) -> Stop:
        stop = self.wire.run(ticks)
        self.ticks += stop.ticks
        self.all_ticks += stop.ticks
        return stop

    def give(self, kind: str, body: bytes = b"") -> Stop:
        """Gives it an answer, or changes a cell; what it does then."""
        if self.log is not None:
            self.log.append((kind, body))
            self.log = self.log if len(self.log) <= MOST_NOTED else None
        return self.wire.answer(kind, body)

    def put_registers(self, registers: bytes) -> None:
        """Makes all of it except its memory what it was when these registers were taken."""
        self.give("P", registers)

    def set_cell(self, address: int, number: int) -> None:
        self.give("c", packed(address, number))

    def set_results(self, first: int, second: int) -> None:
        self.set_cell(FIRST, first)
        self.set_cell(SECOND, second)

    # What it holds

    def address(self, name: str) -> int:
        """Where the cell of a variable of the system is, or the thread of a word, whatever a program names so."""
        return self._bodies[name.encode()]

    def variable(self, name: str) -> int:
        return self.wire.cell(self.address(name))

    def limit(self) -> int:
        """Where the buffers begin."""
        return TOP - BLOCK * len(self.wire.state().buffers)

    def input(self) -> Input:
        """What is being interpreted."""
        offset, block, count = self.wire.cells_at(TO_IN, 3)
        if not block:
            return Input(0, offset, self.wire.memory(TIB, min(count, 128)))
        return Input(block, offset, self.page(block) or b"")

    def loaders(self) -> list[tuple[int, int]]:
        """From where the block that is interpreted was loaded, and that block, and so on: BLK and >IN of each."""
        count = min(self.variable("#LOADS"), 16)
        pairs = self.wire.cells_at(self.address("LOADERS"), 2 * count)
        # 2! has put BLK after >IN.
        return [(pairs[2 * at + 1], pairs[2 * at]) for at in reversed(range(count))]

    def word(self) -> str:
        """Takes the next word of the input; one between two quotes may have blanks."""
        given = self.input()
        rest = given.text[given.offset :]
        start = given.offset + len(rest) - len(rest.lstrip(b" "))
        quote = given.text[start : start + 1] == b'"'
        end = given.text.find(b'"' if quote else b" ", start + quote)
        end = len(given.text) if end < 0 else end
        self.set_cell(TO_IN, min(end + 1, max(len(given.text), given.offset)))
        return os.fsdecode(given.text[start + quote : end])

    def rest(self) -> bytes:
        """Takes the rest of the line, without the blanks at its end."""
        given = self.input()
        self.set_cell(TO_IN, len(given.text))
        return given.text[given.offset :].rstrip(b" ")

    # Screens

    def count(self) -> int:
        return os.stat(self.blocks).st_size // BLOCK if self.blocks else 0

    def page(self, block: int) -> Optional[bytes]:
        """A block as the machine would see it: in a buffer, of a text or in the file; None if there is no such block."""
        if block >= FIRST_TEXT:
            return self.texts.page(block)
        for slot, held, _ in self.wire.state().buffers:
            if held == block:
                return self.wire.memory(self.limit() + BLOCK * slot, BLOCK)
        if not self.blocks or block >= self.count():
            return None
        with open(self.blocks, "rb") as file:
            file.seek(block * BLOCK)
            return file.read(BLOCK).ljust(BLOCK, b" ")

    def changed(self) -> dict[int, bytes]:
        """The screens that are changed and not in the file."""
        state = self.wire.state()
        limit = TOP - BLOCK * len(state.buffers)
        held = [(slot, block) for slot, block, is_updated in state.buffers if is_updated and block is not None]
        return {block: self.wire.memory(limit + BLOCK * slot, BLOCK) for slot, block in held}

    def put(self, block: int, page: bytes) -> None:
        """Makes a block this page, in a buffer of the machine, updated, as BLOCK and UPDATE do."""
        state = self.wire.state()
        slot = next((slot for slot, held, _ in state.buffers if held == block), None)
        if slot is None:
            slot, _, is_updated = state.buffers[-1]
            if is_updated and self.wire.save():
                raise OSError("a changed screen cannot be written, so no buffer is free for another one")
        self._take_buffer(slot, block)
        self.wire.put_memory(TOP - BLOCK * len(state.buffers) + BLOCK * slot, page)

    def _take_buffer(self, slot: int, block: int) -> None:
        """This buffer has the block, is updated, and is the most recent one."""
        registers = cells(self.wire.registers())
        before = len(registers) - 4 * registers[10]
        buffers = [registers[at : at + 4] for at in range(before, len(registers), 4)]
        others = [buffer for buffer in buffers if buffer[0] != slot]
        changed = [slot, 1, block, 1]
        self.wire.put_registers(packed(*registers[:before], *changed, *(number for buffer in others for number in buffer)))

    # Words

    def look_up(self, name: str) -> Optional[bytes]:
        """The name by which the machine finds a word: as it is typed, or in capitals if CAPS is on."""
        spelled = [name, name.upper()] if self.variable("CAPS") else [name]
        for typed in map(os.fsencode, spelled):
            try:
                self.wire.token(typed)
                return typed
            except Refused:
                pass
        return None


def signed(cell: int) -> int:
    return cell - TOP * (cell >= TOP // 2)
