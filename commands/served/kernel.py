"""The kernel alone: bytes and lines of standard input as they are, and exactly what the machine shows."""
from __future__ import annotations

from typing import Optional

from served.keeping import Keeping
from served.output import FAILED, FAULTED, Output
from served.prompt import Ended, Interrupted, Signals
from served.script import Pipe
from served.target import Target
from served.texts import Texts
from served.wire import Gone, Stop, Wire

SLICE = 1_000_000  # ticks between two looks at what signals ask for
INTERRUPTED = 130
STATUSES = {"b": 0, "x": 0, "y": FAILED, "h": FAULTED}  # of a machine that has halted


class Kernel(Output):
    """A machine that runs the kernel, over standard input and output."""

    is_logged = False  # whether what it is given is kept from the start

    def __init__(self, words: list[str], blocks: Optional[str], signals: Signals) -> None:
        super().__init__(True, signals)
        self._pipe = Pipe(signals)
        self.target = Target(Wire(words, self.show), Texts(), blocks, words[0])
        self._keeping = Keeping(self.target, True)

    def run(self) -> int:
        """Runs until the machine halts, the input ends, or a signal comes; the status."""
        try:
            return self._keeping.close(self._halted(), self._report)
        except Ended as ended:
            return self._keeping.close(ended.status, self._report)
        except Interrupted:
            return self._keeping.close(INTERRUPTED, self._report)
        except Gone:
            self._report("the program that runs the Forth has ended\n")
            return 1

    def _report(self, text: str) -> None:
        """Standard output has nothing that the machine did not show."""
        self.write(2, f"forth: {text}".encode(errors="surrogateescape"))

    def _halted(self) -> int:
        """Runs the machine until it has halted; the status."""
        stop = self.target.run(0)
        while stop.how not in STATUSES:
            self._signals.look()
            if self._signals.take_interrupt():
                raise Interrupted
            stop = self._answered(stop)
        if stop.how == "h":
            self._stopped(stop.number)
        return STATUSES[stop.how]

    def _stopped(self, fault: int) -> None:
        self._report(f"fault {fault}, which no fault thread handled, has stopped the machine\n")

    def _answered(self, stop: Stop) -> Stop:
        """Answers what the machine asks for, or lets it go on; a block is asked for only if its file lacks it."""
        if not self.is_logged:
            self.target.begin()
        if stop.how == "k":
            key = self._pipe.byte()
            return self.target.give("x") if key is None else self.target.give("k", bytes([key]))
        if stop.how == "l":
            line = self._pipe.expected(stop.number)
            return self.target.give("x") if line is None else self.target.give("l", line)
        if stop.how in "rw":
            return self.target.give("f" if stop.how == "r" else "g")
        return self.target.run(SLICE)
