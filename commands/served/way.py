"""Where a fault of a program's image comes from: `./forth where` runs the image, then once more, unseen, up to its fault."""
from __future__ import annotations

import os
import shutil
import tempfile
from typing import Optional

from served import reports
from served.kernel import Kernel
from served.past import Past
from served.prompt import Signals
from served.target import FAULT
from served.wire import Gone, Stop


class Way(Kernel):
    """A machine that runs an image, over standard input and output, and the way to its last fault."""

    is_logged = True

    def __init__(self, words: list[str], blocks: Optional[str], copy: Optional[str]) -> None:
        """The words start the program over the copy of the blocks."""
        super().__init__(words, copy, Signals())
        self._blocks = blocks
        self.past, self.number = Past(self.target), 0
        self.past.line_begins()
        self.target.begin()
        handlers = [header.token + 2 for header in self.target.wire.headers() if header.name == b"TELL"]
        self._last = {0, *handlers}  # what the cell FAULT holds if no program handles a fault

    def _answered(self, stop: Stop) -> Stop:
        if stop.how == "f" and self.target.wire.cell(FAULT) in self._last:
            self.past.fault_taken()
            self.number = stop.number
        return super()._answered(stop)

    def _stopped(self, fault: int) -> None:
        if not self.number:
            self.past.fault_taken()
        if self._blocks and self.target.blocks:
            shutil.copyfile(self._blocks, self.target.blocks)
        found = self.past.at_fault()
        if found:
            said = self.target.adviser.meaning(self.number or fault).strip()
            self.write(2, b"\n" * bool(self.column))
            self._report(f"{said}\n{reports.way(self.target, found)}")


def where(program: str, image: str, blocks: Optional[str]) -> int:
    """Runs the image over a copy of the blocks; its status."""
    way: Optional[Way] = None
    with tempfile.TemporaryDirectory() as room:
        copy = os.path.join(room, "copy.blk") if blocks else None
        try:
            if blocks and copy:
                shutil.copyfile(blocks, copy)
            way = Way([program, "serve", "--", image, *([copy] if copy else [])], blocks, copy)
        except (Gone, OSError):  # `run` says why
            pass
        if way:
            return way.run()
    os.execv(program, [program, "run", "--", image, *([blocks] if blocks else [])])
