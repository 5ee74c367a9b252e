"""What keeps changed screens: the file of blocks, which is synchronized with its disk, and the journal."""
from __future__ import annotations

import os
from typing import Callable, Optional

from served.blocks import keep_lost
from served.journal import Journal
from served.output import FAULTED
from served.target import Target
from served.wire import Gone


class Keeping:
    """The file of blocks of a session, if it has one, and its journal, if it has a terminal."""

    def __init__(self, target: Target, is_script: bool) -> None:
        self._target, self._blocks = target, target.blocks
        self._file = os.open(self._blocks, os.O_RDWR | os.O_CLOEXEC) if self._blocks else None
        self._journal: Optional[Journal] = Journal(self._blocks) if self._blocks and not is_script else None

    def named(self) -> str:
        return self._blocks or "this session, which has no file of blocks"

    def why_unwritten(self, left: int) -> str:
        """Why so many screens could not be written."""
        is_read_only = self._blocks is not None and not os.access(self._blocks, os.W_OK)
        why = f"{self._blocks} is read-only" if is_read_only else "make room on the disk, then SAVE"
        return f"{left} changed screen{'s' * (left > 1)} cannot be written: {why}"

    def sync(self) -> None:
        """What was written stays, even if the power is cut."""
        if self._file is not None:
            os.fsync(self._file)

    def keep(self, screens: Optional[dict[int, bytes]] = None) -> bool:
        """Writes the journal of these screens, or of those that are changed now; False if no place takes it."""
        if self._journal is None:
            return True
        self._journal.keep(self._target.changed() if screens is None else screens)
        return not self._journal.is_lost

    def kept(self) -> str:
        """Where the screens are that were not written."""
        path = self._journal.path if self._journal else None
        return f"; the screens that were not written are in {path}" if path else ""

    def _end(self, is_damaged: bool) -> str:
        """The session ends, and all screens are written: the journal goes, unless memory was damaged and it has other screens."""
        lost = keep_lost(self._file, self._blocks) if self._file is not None and self._blocks else ""
        if self._journal is None:
            return lost
        if is_damaged and not self._journal.is_in(self._blocks or ""):
            return f"what the screens were before the last line is in {self._journal.path}\n"
        self._journal.remove()
        return lost

    def close(self, status: int, report: Callable[[str], None]) -> int:
        """Writes the changed screens, and ends the server; the status."""
        try:
            changed = self._target.changed() if self._blocks else {}
            left = self._target.wire.close()
        except Gone:
            return 1
        self.sync()
        if left:
            self.keep(changed)
            report(self.why_unwritten(left) + self.kept() + "\n")
            return status or FAULTED
        said = self._end(status == FAULTED)
        if said:
            report(said)
        return status
