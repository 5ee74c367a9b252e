"""Machines as they were before the last lines, for UNDO; and WHY, which runs a line again, unseen, up to its fault."""
from __future__ import annotations

from typing import NamedTuple, Optional

from served.target import TOP, Target
from served.wire import cell_at, Header, Refused, State
from system_cells import COLON

MOST = 100  # machines that are kept
SLICE = 1_000_000
LAST_ROW = 255  # the greatest code field of the kernel's own words
NO_FAULT, TOO_MUCH = "there was no fault yet", "the line took too many keys, blocks and services to be run again, or used ports"
# What calls the words of a line, or the word that an image starts with.
INTERPRETERS = (b"BY-NAMES", b"BY-ROWS", b"BY-DIALECT", b"INTERPRET", b"DO-BOOT", b"COLD")


class Kept(NamedTuple):
    """A machine: its registers and its memory."""

    registers: bytes
    memory: bytes


class Fault(NamedTuple):
    """A fault that was taken: the machine before its line, the ticks since then, and what it was given in them."""

    before: Kept
    ticks: int
    log: list[tuple[str, bytes]]


def keep(target: Target) -> Kept:
    return Kept(target.wire.registers(), target.wire.memory(0, TOP))


def look(target: Target) -> View:
    return View(target.wire.state(), target.wire.headers(), target.wire.memory(0, TOP))


def put_back(target: Target, kept: Kept) -> None:
    target.wire.put_registers(kept.registers)
    target.wire.put_memory(0, kept.memory)


class View(NamedTuple):
    """A machine that has stopped, as it is looked at: its state, its words and its memory."""

    state: State
    headers: list[Header]
    memory: bytes


class Frame(NamedTuple):
    """A call that has not returned: its word, the address of its next token, and how high the return stack is in it."""

    header: Header
    address: int
    height: int


class Past:
    """The machines before the last lines; none if the server cannot keep one."""

    def __init__(self, target: Target) -> None:
        self._target, self._kept, self.fault = target, [], None  # type: Target, list[Kept], Optional[Fault]
        self.why_none = NO_FAULT
        try:
            target.wire.registers()
            self.is_able = True
        except Refused:
            self.is_able = False

    def line_begins(self) -> None:
        """The machine asks for a line: it is kept as it is."""
        if self.is_able:
            self._kept = [*self._kept[1 - MOST :], keep(self._target)]

    def fault_taken(self) -> None:
        log = self._target.log if self._target.wire.acts() == self._target.acts else None
        if self._kept:
            self.fault = None if log is None else Fault(self._kept[-1], self._target.ticks, list(log))
            self.why_none = TOO_MUCH if log is None else NO_FAULT

    def undo(self, lines: int) -> bool:
        """Puts back the machine as it was before the last of so many lines; whether there was one."""
        if len(self._kept) < lines:
            return False
        before = self._kept[-lines]
        self._kept = self._kept[:-lines]
        put_back(self._target, before)
        return True

    def at_fault(self) -> Optional[View]:
        """The machine just before the last fault. Afterwards the machine is what it was."""
        if self.fault is None:
            return None
        now = keep(self._target)
        try:
            put_back(self._target, self.fault.before)
            self._run_again(self.fault)
            return look(self._target)
        finally:
            put_back(self._target, now)

    def _run_again(self, fault: Fault) -> None:
        """Runs a line again, unseen, up to the tick before its fault."""
        wire, left, log = self._target.wire, fault.ticks - 1, list(fault.log)
        shown, wire.shown = wire.shown, lambda text: None
        try:
            left -= self._run_to_stop(left)
            while log and log[0][0] != "n" and left >= 0:
                kind, body = log.pop(0)
                wire.ask(kind, body)
                if kind != "c":
                    left -= self._run_to_stop(left)
            self._run_to_stop(left)
        finally:
            wire.shown = shown

    def _run_to_stop(self, ticks: int) -> int:
        """Runs until something is asked, or for so many ticks; how many were done."""
        done = 0
        while done < ticks:
            stop = self._target.wire.run(min(ticks - done, SLICE))
            done += stop.ticks
            if stop.how != "-":
                break
        return done


def calls(view: View) -> list[Frame]:
    """The calls that have not returned, the innermost first, up to the line's: a return address comes after a call, in a word's thread."""
    threads = {header.token for header in view.headers if has_thread(header.code)}
    found: list[Frame] = []
    addresses = [*view.state.returns, view.state.ip]
    for height, address in reversed(list(enumerate(addresses))):
        inside = [header for header in view.headers if header.token < address]
        called = cell_at(view.memory, address - 2)
        if inside and has_thread(inside[-1].code) and (address == view.state.ip or called in threads):
            if inside[-1].name in INTERPRETERS:
                break
            found.append(Frame(inside[-1], address, height))
    return found


def has_thread(code: int) -> bool:
    """Whether words of this code field have a thread: `:` or DOES> made them."""
    return code == COLON or code > LAST_ROW
