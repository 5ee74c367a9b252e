"""PROFILE: in which words the ticks of a line are spent."""
from __future__ import annotations

import bisect
from collections import Counter

from served.faults import plain
from served.past import has_thread
from served.target import Target
from served.wire import Header, State, Stop

EXACT = 10_000  # ticks that are looked at one by one; then the looks are further and further apart


class Profile:
    """A line that is profiled: before each run of some ticks, it is looked at which word has them."""

    def __init__(self, target: Target) -> None:
        self._target = target
        self._headers: list[Header] = []
        self._ticks: Counter[str] = Counter()

    def run(self) -> Stop:
        """A run of some ticks, all of which are counted for the word in which they begin."""
        name = self._word_at(self._target.wire.state())
        stop = self._target.run(1 + sum(self._ticks.values()) // EXACT)
        self._ticks[name] += stop.ticks
        return stop

    def _word_at(self, state: State) -> str:
        """The word that has the next tick: the one that is pending, or that whose thread has the next token."""
        address = state.ip if state.pending is None else state.pending
        if not self._headers or address >= self._headers[-1].token:
            self._headers = self._target.wire.headers()
        at = bisect.bisect_left(self._headers, (address + 1,))  # a header begins with its word's address
        header = self._headers[at - 1] if at else None
        return plain(header.name) if header and (has_thread(header.code) or header.token == address) else "no word"

    def table(self) -> str:
        """The words with at least a hundredth of the ticks, and their shares."""
        total = sum(self._ticks.values())
        large = [(name, ticks) for name, ticks in self._ticks.most_common() if 100 * ticks >= total]
        rows = [*large, ("others", total - sum(ticks for _, ticks in large)), ("all", total)]
        return "\n".join(["       ticks  share  word", *(f"{ticks:12,} {100 * ticks // max(total, 1):4} %  {name}" for name, ticks in rows)]) + "\n"
