"""DEBUG: a word step by step, over the server's single ticks and its line of a state."""
from __future__ import annotations

from typing import TYPE_CHECKING, Optional

from served import words
from served.faults import plain
from served.past import has_thread
from served.target import FENCE, signed
from served.traps import Traps
from served.wire import Header, State, Stop

if TYPE_CHECKING:
    from served.session import Session

KEYS = "space steps, i goes into, o over, u out, c continues, q quits"
LITERAL = "(LIT)"


class Steps:
    """The steps of a word, one by one, and the words before which a program stops.

    Each call that a stepped word makes, and that has not returned, is kept as the height of the return stack in it. What is stepped over runs
    at full speed, up to a trap where it returns to.
    """

    def __init__(self, session: Session) -> None:
        self._session = session
        self._token: Optional[int] = None  # the word, while it is run in steps
        self._calls: list[int] = []
        self._headers: list[Header] = []
        self._place = ""  # where the word was made whose step was shown last
        self._to = (0, -1)  # where it runs to, and the height of the return stack at that place
        self._traps: Optional[Traps] = None
        self.breaks: dict[str, int] = {}  # words before which programs stop, and where their threads begin

    @property
    def are_on(self) -> bool:
        """Whether the next tick is a step."""
        return self._token is not None and not self._to[0]

    def begin(self, header: Header, headers: list[Header]) -> None:
        """The word is stepped when it is executed."""
        self._token, self._headers, self._calls, self._place, self._to = header.token, headers, [], "", (0, -1)
        self._session.say_line(KEYS + "\n")

    def end(self) -> None:
        """There are no steps any more."""
        self._token, self._to = None, (0, -1)
        self.lift()

    def lift(self) -> None:
        """Takes the traps away, so that memory is as the program made it."""
        if self._traps:
            self._traps.lift()

    def set_breaks(self) -> None:
        """A program begins: it stops before the words that are to stop it."""
        if self.breaks or self._to[0]:
            self._set_traps()

    def _set_traps(self) -> None:
        if self._traps is None:
            self._traps = Traps(self._session.target.wire)
        self._traps.places = set(self.breaks.values())
        self._traps.set(self._to[0])

    def takes_key(self) -> bool:
        """Whether a key that the machine asks for is a trap of these steps; the machine is then as it was before it."""
        target = self._session.target
        place = self._traps.is_hit() if self._traps else None
        if place is None or self._traps is None:
            return False
        self._traps.take_back(place)
        target.ticks -= 1
        height = len(target.wire.state().returns)
        if (place, height) == self._to:
            self._to = (0, -1)
            while self._calls and self._calls[-1] > height:
                self._calls.pop()
        elif place in self.breaks.values():
            self._stop_at(place, height)
        else:
            stop = target.run(1)
            self._set_traps()
            if stop.how != "-":
                self._session.do(stop)
        return True

    def _stop_at(self, place: int, height: int) -> None:
        """A word begins before which programs stop: it is stepped from here on."""
        self._headers = self._session.target.wire.headers()
        self._to = (0, -1)
        if self._token is None:
            self._session.say_line(KEYS + "\n")
            self._token, self._calls, self._place = place - 2, [], ""
        while self._calls and self._calls[-1] > height:
            self._calls.pop()
        if not self._calls or self._calls[-1] != height:
            self._calls.append(height)

    def run(self) -> Stop:
        """A tick of the word; before it the step is shown, and a key says how to go on."""
        wire = self._session.target.wire
        before = wire.state()
        if self._calls and before.pending is None:
            self._show(before)
            self._obey(before)
        if self._token is None:
            stop = self._session.target.run(1)
            self.set_breaks()
            return stop
        called = wire.cell(before.ip) if before.pending is None else before.pending
        stop = self._session.target.run(1)
        if stop.ticks:
            self._note(called, len(wire.state().returns))
        if self._to[0]:
            self._set_traps()
        return stop

    def _note(self, called: int, height: int) -> None:
        """Notes a tick of the word `called`, after which the return stack has this height."""
        if (self._calls or called == self._token) and has_thread(self._session.target.wire.cell(called)):
            self._calls.append(height)
        elif self._calls:
            while self._calls and height < self._calls[-1]:
                self._calls.pop()
            if not self._calls:
                self.end()
                self.set_breaks()

    def _show(self, state: State) -> None:
        """Shows the stack and the next word, after the place of the word that has it."""
        session = self._session
        inside = [header for header in self._headers if header.token < state.ip and has_thread(header.code)]
        place = words.place_of(session.target, inside[-1].view, inside[-1].token) if inside else ""
        text = session.target.texts.place(inside[-1].view) if inside else None
        if place != self._place:
            session.say_line(f"{plain(inside[-1].name)}  {place}  {plain(text.text) if text else ''}".rstrip() + "\n")
            self._place = place
        head, stack, _ = session.target.wire.ask("d").decode(errors="replace").rsplit("|", 2)
        word = head.split(" ", 1)[1].strip()
        if word == LITERAL:
            word = str(signed(session.target.wire.cell(state.ip + 2)))
        shown = stack.split()
        shown = ["..", *shown[-8:]] if len(shown) > 8 else shown
        session.say_line("  " * min(len(self._calls) - 1, 15) + " ".join(["(", *shown, ")", word]) + " ")

    def _obey(self, state: State) -> None:
        """Does what a key says; other keys show what the keys are."""
        session, wire = self._session, self._session.target.wire
        token = wire.cell(state.ip)
        is_call = has_thread(wire.cell(token))
        while True:
            typed = session.console.key()
            key = " " if typed in (10, 13) else chr(typed or ord("q")).lower()
            if key == "q":
                session.interrupt()
            elif key == "c" or key == "u" and len(self._calls) < 2:
                self.end()
            elif key == "u":
                height = self._calls[-1] - 1
                self._to = (state.returns[height], height)
            elif key == "o" and is_call or key == " " and is_call and token < wire.cell(FENCE):
                self._to = (state.ip + 2, len(state.returns))
            elif key not in "io ":
                session.say_line(KEYS + "\n")
                continue
            return
