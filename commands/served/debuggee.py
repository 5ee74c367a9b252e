"""A session that a debugger drives: it stops at places of threads, shows its calls, and goes on."""
from __future__ import annotations

from typing import Callable, Optional

from served import reports
from served.output import FAULTED
from served.past import calls, has_thread, look, View
from served.prompt import Ended
from served.session import Session
from served.table import SERVICE
from served.target import DP, FAULT, FENCE
from served.texts import Line
from served.traps import Traps
from served.wire import cell_at, Header, Stop
from system_cells import COLON

SLICE = 200_000  # ticks between two looks at what the debugger asks


class Debuggee(Session):
    """The session. `console` asks the debugger for lines and keys; `stopped` is called when it stops, and returns when it is to go on."""

    def attach(self, stopped: Callable[[str, str], None], poll: Callable[[], bool], says: Callable[[str, str], None]) -> None:
        """Begins to be debugged. `poll` answers whether the program is to pause."""
        self._stopped, self._poll, self._says = stopped, poll, says
        self.traps = Traps(self.wire)
        self.lines: list[tuple[int, int]] = []  # where the code of each block of a text begins
        self._once = (0, -1)  # a trap for one stop, and the height of the return stack there
        self._is_single = False  # whether it stops again after one tick
        self._frozen: Optional[View] = None

    # What is shown

    def show(self, text: bytes) -> None:
        if hasattr(self, "_says") and not self.is_dropping:
            self._says("stdout", text.decode(errors="replace"))

    def report(self, text: str) -> None:
        self._says("stderr", text)

    # Running

    def _turn(self) -> None:
        if self._poll():
            self._stop("pause", "")
        stop = self.target.run(SLICE)
        self.signals.look()
        self.do(stop)

    def _script_line(self) -> None:
        self.traps.lift()
        self.past.line_begins()
        super()._script_line()
        self.traps.set()

    def _block(self, stop: Stop) -> None:
        if self.target.texts.place(stop.number):
            self.lines.append((self.wire.cell(DP), stop.number))
        super()._block(stop)

    def _key(self) -> None:
        place = None if self.wire.cell(SERVICE) else self.traps.is_hit()
        if place is None:
            super()._key()
            return
        self.traps.take_back(place)
        self.target.ticks -= 1
        once, height = self._once
        if place in self.traps.places or (place == once and len(self.wire.state().returns) == height):
            self._stop("breakpoint" if place in self.traps.places else "step", "")
        else:
            self._go_on()

    def _go_on(self) -> None:
        """Does the tick at a trap that is passed over, and sets the traps again."""
        stop = self.target.run(1)
        self.traps.set(self._once[0])
        if stop.how != "-":
            self.do(stop)

    def _fault(self, number: int) -> None:
        """A fault: the debugger sees the machine as it was just before it."""
        if self.wire.cell(FAULT) != self._tell:
            self.refused = ""
            return
        self.traps.lift()
        self.past.fault_taken()
        self._frozen = self.past.at_fault()
        text = reports.report(self.target, number, self.refused).lstrip(" ")
        self.report(text)
        self._stopped("exception", text.split("\n", 1)[0])
        self._frozen = None
        raise Ended(FAULTED)

    def _stop(self, reason: str, text: str) -> None:
        """Stops, and goes on as the debugger says: by one tick, or up to the next trap."""
        self.traps.lift()
        while True:
            self._once, self._is_single = (0, -1), False
            self._stopped(reason, text)
            stop = self.target.run(1)
            if stop.how != "-":
                self.traps.set(self._once[0])
                self.do(stop)
                return
            reason, text = "breakpoint" if self.wire.state().ip in self.traps.places else "step", ""
            if not self._is_single or not calls(self.view()):
                break
        self.traps.set(self._once[0])

    # Steps: each prepares where the machine stops next

    def step_into(self) -> None:
        """After the next token, or within the user's word that it calls."""
        view = self.view()
        token = cell_at(view.memory, view.state.ip)
        if token >= cell_at(view.memory, FENCE) and cell_at(view.memory, token) == COLON:
            self._is_single = True
        else:
            self.step_over()

    def step_over(self) -> None:
        """After the next token, with all that it calls."""
        view = self.view()
        token = cell_at(view.memory, view.state.ip)
        if has_thread(cell_at(view.memory, token)):
            self._once = (view.state.ip + 2, len(view.state.returns))
        else:
            self._is_single = True

    def step_out(self) -> None:
        """Where the present word returns to; after the last one the program goes on."""
        frames = calls(self.view())
        if len(frames) > 1:
            self._once = (frames[1].address, frames[1].height)

    # Looking

    def view(self) -> View:
        """The machine that has stopped."""
        return self._frozen or look(self.target)

    def line_of(self, header: Header, address: int) -> Optional[Line]:
        """The line of a text in which the token at an address was compiled."""
        texts = self.target.texts
        block = header.view
        for begins, number in self.lines:
            if header.token < begins <= address and texts.place(number):
                block = number
        return texts.place(block)

    def places_of(self, path: str, number: int) -> list[int]:
        """Where a line of a text begins in a thread: of several, where the text was read more than once, the last one."""
        found: dict[int, int] = {}
        threads = [header for header in self.wire.headers() if has_thread(header.code)]
        for begins, block in self.lines:
            line = self.target.texts.place(block)
            if line is None or line.name != path or line.number > number:
                continue
            inside = [header for header in threads if header.token < begins]
            starts = [header for header in threads if header.view == block]
            if inside and begins > inside[-1].token + 2 and begins in self.wire.thread(inside[-1].name):
                found[line.number] = begins
            elif starts:
                found[line.number] = starts[-1].token + 2
        return [found[max(found)]] if found else []
