"""A session: it runs the machine, answers what it asks, and reports its faults."""
from __future__ import annotations

import os
from typing import Any, Callable, Optional, Union

from served import faults, reports, services, words as words_of
from served.catching import Catching
from served.keeping import Keeping
from served.output import FAILED, FAULTED, Output
from served.past import Past
from served.profile import Profile
from served.prompt import Ended, Interrupted, Signals, Terminal
from served.script import Script
from served.steps import Steps
from served.table import HOST, MARK, NAMES, OWN, PROMPT, SECOND, SERVICE
from served.target import DP, FAULT, FENCE, SCR, STATE, Target
from served.texts import Line, Texts, Unreadable
from served.wire import Gone, Refused, Stop, Wire

SLICE = 1_000_000  # ticks between two looks at what signals ask for
TYPED = 127  # bytes of a line that TIB has room for


class Session(Output):
    """A machine with its console: a terminal, or a script."""

    ending = "forth: a fault stopped the script\n"  # what is said after a fault in a script

    def __init__(
        self,
        words: list[str],
        blocks: Optional[str],
        signals: Signals,
        script: Optional[Script],
        arguments: list[str],
        wire: Callable[[list[str], Callable[[bytes], None]], Wire] = Wire,
    ) -> None:
        """The machine is that of the server that these words start, or that of a board."""
        self.program, self.images, self.signals, self.arguments = words[0], os.path.dirname(words[2]), signals, arguments
        super().__init__(script is not None, signals)
        self.wire = wire(words, self.show)
        self.target = Target(self.wire, Texts(), blocks, words[0])
        self.console: Union[Terminal, Script] = script or self.terminal()
        self.past = Past(self.target)
        self.steps = Steps(self)
        self.catching = Catching(self.target)
        self.profile: Optional[Profile] = None  # of the line that is done
        self.keeping = Keeping(self.target, script is not None)
        self.refused = ""  # what the last service said that refused
        self.faulty: Optional[tuple[int, int, int]] = None  # the screen of the last fault, its line and the byte in it
        self.open_texts: list[str] = []  # those that are being included
        self.open_lines: list[tuple[str, str]] = []  # those of the open definition
        self.edited: Any = None  # what the editor keeps from one call to the next
        self._breaks = 0  # how often ^C gave up what runs since the last prompt
        self.undoes = False  # UNDO was done in this line
        self._is_inside = False  # whether the dictionary ends within the Forth
        self.first: list[bytes] = []  # lines that are done before those that are typed
        self.status = 0
        door = 0 if script is None else 1 if script.is_shown else 2
        self.target.wire.set_cells({MARK: HOST, self.target.address("DOOR"): door})
        self._tell = self.target.address("TELL")

    def terminal(self) -> Terminal:
        return Terminal(self.signals, lambda: words_of.names(self.target))

    # The loop

    def run(self) -> int:
        """Runs until the session ends; its status."""
        try:
            while True:
                self._turn()
        except Ended as ended:
            return self.keeping.close(ended.status, self.report)
        except Refused as error:
            self.report(f"the machine cannot go on (cause {error.cause} of docs/FORMATS.md)\n")
            return self.keeping.close(FAULTED, self.report)
        except Gone as error:
            self.report((str(error) or "the program that runs the Forth has ended") + self.keeping.kept() + "\n")
            return 1
        finally:
            self.console.close()

    def _turn(self) -> None:
        """A run of the machine, and what it asks for."""
        stop: Optional[Stop] = None
        try:
            stop = self.steps.run() if self.steps.are_on else self.profile.run() if self.profile else self.target.run(SLICE)
            self.signals.look()
            if self.signals.take_interrupt() and stop.how not in "lbxyh":
                self.interrupt(stop)
            else:
                self.do(stop)
        except Interrupted:
            self.signals.take_interrupt()
            if stop and stop.how == "l" and self.wire.cell(SERVICE) == PROMPT and stop.number == TYPED:
                self.say("^C\n")
            else:
                self.interrupt(stop)

    def do(self, stop: Stop) -> None:
        """Does what the machine asks for, or reports its fault, after a run that ended so."""
        if stop.how == "f":
            self._fault(stop.number)
        elif stop.how == "l":
            self._line(stop.number)
        elif stop.how == "k":
            self._key()
        elif stop.how in "rw":
            self._block(stop)
        elif stop.how in "bxyh":
            self._halted(stop)

    def _block(self, stop: Stop) -> None:
        """The machine asks for a block that its file lacks: a line of a text, or no block at all."""
        page = self.target.texts.page(stop.number) if stop.how == "r" else None
        if page is not None:
            self.target.give("p", page)
            return
        failed = self.target.give("f" if stop.how == "r" else "g")
        count = self.target.count()
        self.refused = f"there is no screen {stop.number} in {self.keeping.named()}" + f"; it has 0 to {count - 1}" * (count > 0)
        self._fault(failed.number)

    def interrupt(self, stop: Optional[Stop] = None) -> None:
        """^C: what runs is given up, by the word BREAK; if no prompt has come since the last time, the machine is put back."""
        self.steps.end()
        if self.console.is_script:
            raise Ended(130)
        if self._breaks:
            self._put_back("the Forth does not come back to its prompt")
            return
        self._breaks += 1
        if stop and stop.how == "k":
            self.target.give("k", b"\0")
        if stop and stop.how == "l":
            self._give_line(b"")
        self.wire.set_cell(SERVICE, 0)
        self.wire.enter(self.target.address("BREAK") - 2)

    def _halted(self, stop: Stop) -> None:
        """The machine has ended."""
        if stop.how == "h":
            said = self.target.adviser.meaning(stop.number)
            self._put_back(f"{said}: no fault thread handled it, so the Forth has stopped")
        else:
            raise Ended(FAILED if stop.how == "y" else self.status)

    def _put_back(self, why: str) -> None:
        """The machine cannot go on: it is put back as it was before the line, or the session ends."""
        self.report(why + "\n")
        if self.console.is_script or not self.past.is_able or not self.past.undo(1):
            raise Ended(FAULTED)
        self._breaks = 0
        self.say_line("it is as it was before that line\n")

    # Lines and keys

    def _line(self, most: int) -> None:
        """The machine asks for a line: the prompt, or a program."""
        if self.wire.cell(SERVICE) != PROMPT or most != TYPED:
            self._program_line(most)
            return
        self.open_texts, self.refused, self._breaks = [], "", 0
        self.steps.end()
        self.catching.begin()
        if self.profile:
            self.say_line(self.profile.table())
            self.profile = None
        self.target.begin()
        self.wire.set_cells({MARK: HOST})
        self.keep_journal()
        self._look_at_here()
        if self.console.is_script:
            self._script_line()
        else:
            self._typed_line()

    def _look_at_here(self) -> None:
        """Says once that the dictionary ends within the words of the Forth, as after -30000 ALLOT: what is compiled next overwrites these."""
        was_inside, self._is_inside = self._is_inside, self.wire.cell(DP) < self.wire.cell(FENCE)
        if self._is_inside and not was_inside:
            self.report("HERE is inside the Forth, so what is compiled now overwrites it" + "; UNDO goes back" * (not self.console.is_script) + "\n")
        if self._is_inside and self.console.is_script:
            self.report(self.ending)
            raise Ended(FAULTED)

    def _typed_line(self) -> None:
        if not self.undoes:
            self.past.line_begins()
        self.undoes = False
        if self.first:
            line: Optional[bytes] = self.first.pop(0)
        else:
            line = self.console.line(self.column, bool(self.target.variable("HISTORY")))
        self.column = self.console.row
        if line is None:
            self._end_of_input()
            return
        if len(line) > 1024:
            self.say("a line may have 1024 bytes; nothing was done\n")
            return
        if len(line) >= TYPED:  # TIB has no room for it and its end: it is a block
            self.target.set_cell(SECOND, self.target.texts.add([Line("", 0, line)]).start)
            line = b""
        self.wire.set_cell(SERVICE, 0)
        self._give_line(line)
        self._look_at_line("this line", line)
        if line.strip().upper() == b"QUIT":
            self.say_line(faults.MESSAGES["quit"] + "\n")

    def _script_line(self) -> None:
        assert isinstance(self.console, Script)
        try:
            line = self.console.next()
        except Unreadable as error:
            self.report(f"{error}\n{self.ending}")
            raise Ended(FAULTED) from error
        if line is None:
            raise Ended(self._end_of_script())
        if self.console.is_shown:
            self.show(line.text + b" ")
        blocks = self.target.texts.add([line])
        self.target.set_cell(SECOND, blocks.start)
        self.wire.set_cell(SERVICE, 0)
        self._give_line(b"")
        self._look_at_line(reports.named(line), line.text)

    def _end_of_script(self) -> int:
        """The status of a script without more lines: that of a fault, which is reported, if a definition is still open."""
        is_open = self.wire.cell(STATE) or reports.defined(self.target)
        if not is_open or not self.open_lines:
            return self.status
        self.report(reports.unfinished(self.target, self.open_lines))
        return FAULTED

    def _look_at_line(self, name: str, line: bytes) -> None:
        """Looks at a line after those of the open definition, if it belongs to one."""
        before = self.open_lines if self.wire.cell(STATE) else []
        self.open_lines = [*before, (name, faults.plain(line))]
        self.look_at([*(("", text) for _, text in before), self.open_lines[-1]])

    def look_at(self, lines: list[tuple[str, str]]) -> None:
        """Says so if EXIT is in a counted loop of these lines."""
        said = self.target.adviser.looped(lines, self.target.variable("DIALECT") != 0)
        if said:
            self.report(said + "\n")

    def _give_line(self, line: bytes) -> None:
        """Answers a line; what EXPECT shows of it is on the terminal already."""
        self.is_dropping = True
        self.target.give("l", b"\1" + line)
        self.is_dropping = False
        self.steps.set_breaks()

    def _program_line(self, most: int) -> None:
        line = self.console.line(self.column, False)
        if line is None:
            self.target.give("x")
            return
        if not self.console.is_script:
            self.column = self.console.row
        is_whole = len(line) < most
        self.is_dropping = not (self.console.is_script and self.console.is_shown)  # type: ignore[union-attr]
        self.target.give("l", bytes([is_whole]) + line[:most])
        self.is_dropping = False

    def _key(self) -> None:
        """The machine asks for a key: a service, a program, or a place at which it is to stop."""
        if self.steps.takes_key():
            return
        asked = self.wire.cell(SERVICE)
        if PROMPT < asked <= len(NAMES) or asked >= OWN:
            self.target.set_cell(SERVICE, 0)
            self.steps.lift()
            try:
                fault = services.serve(self, asked)
            except services.Moved:
                return
            if self.undoes:
                self._undo()
                return
            self.target.give("k", bytes([fault]))
            self.steps.set_breaks()
            return
        key = self.console.key()
        if key is None:
            self.target.give("x")
        else:
            self.target.give("k", bytes([key]))

    def _undo(self) -> None:
        """The machine as it was before the line that was done before this one."""
        if self.past.undo(2):
            self.say_line("as it was before the last line; screens that were written stay written\n")
        else:
            self.past.undo(1)
            self.say_line("there is no line before this one\n")
        self.undoes = False

    def _end_of_input(self) -> None:
        """^D: the session ends, if the screens can be written."""
        left = self.wire.save()
        if left:
            self.report(self.keeping.why_unwritten(left) + "; the Forth stays\n")
        else:
            self.keeping.sync()
            raise Ended(0)

    # Faults

    def _fault(self, number: int) -> None:
        """A fault was taken: it is reported, unless a program handles it."""
        refused, self.refused = self.refused, ""
        if self.wire.cell(FAULT) != self._tell:
            return
        if self.past.is_able and self.catching.throw(number):
            return
        self.steps.end()
        self.past.fault_taken()
        self.wire.set_cell(MARK, HOST)
        self.faulty = reports.place_on_screen(self.target, number)
        if self.faulty:
            self.wire.set_cell(SCR, self.faulty[0])
        is_shown = number == faults.SAID and not refused and bool(self.column)
        if self.console.is_script:
            said = faults.plain(self.column).strip() if is_shown else refused
            self.report(reports.report(self.target, number, said).lstrip(" ") + self.ending)
            raise Ended(FAULTED)
        text = reports.report(self.target, number, refused)
        if is_shown:
            self.say(text)
        else:
            self.report(text.lstrip(" "))

    # Screens and the end

    def keep_journal(self) -> None:
        if not self.keeping.keep():
            self.say_line("changed screens are in memory alone: no file can be written for them, not even in the temporary folder\n")
