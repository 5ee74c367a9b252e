"""CATCH and THROW: what CATCH found is put back when something is thrown, or when a fault happens."""
from __future__ import annotations

from typing import NamedTuple, Sequence

from served.target import BLK, Target, TO_IN
from served.wire import cells, packed, State

BUFFERS, BUFFER = 10, 4  # the cell of the registers that counts the buffers; cells of a buffer
UNASKED = (0,) * 7  # nothing is pending or asked, and the machine has not halted


class Caught(NamedTuple):
    """What a CATCH found: both stacks below its own cells, where its caller goes on, and the place in the input."""

    stack: list[int]
    returns: list[int]
    ip: int
    input: list[int]
    loads: int


class Catching:
    """The CATCHes that have not returned, the innermost last."""

    def __init__(self, target: Target) -> None:
        self._target = target
        self._caught: list[Caught] = []

    def begin(self) -> None:
        """A line begins, in which nothing is caught yet."""
        self._caught = []

    def catch(self, state: State) -> None:
        """CATCH asks: its word is on the stack, and two return addresses lead out of its service and out of itself."""
        target = self._target
        place = target.wire.cells_at(TO_IN, 2)
        self._caught.append(Caught(state.stack[:-1], state.returns[:-2], state.returns[-2], place, target.variable("#LOADS")))

    def done(self) -> None:
        """The word has returned to CATCH."""
        if self._caught:
            self._caught.pop()

    def throw(self, number: int, left: Sequence[int] = ()) -> bool:
        """Goes on after the innermost CATCH, which leaves the number; whether there is one. `left` is on the stack now: as much of it stays as
        CATCH found cells; what was taken comes back."""
        if not self._caught:
            return False
        target, caught = self._target, self._caught.pop()
        registers = cells(target.wire.registers())
        count, depth = registers[BUFFERS], len(caught.stack)
        stack = [*left[:depth], *caught.stack[len(left) :], number]
        target.put_registers(packed(caught.ip, *UNASKED, len(stack), len(caught.returns), count, *stack, *caught.returns, *registers[len(registers) - BUFFER * count :]))
        for address, cell in zip((TO_IN, BLK), caught.input):
            target.set_cell(address, cell)
        target.set_cell(target.address("#LOADS"), caught.loads)
        return True
