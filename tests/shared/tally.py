"""What a check counts: how much of what it tried is right and wrong. What is wrong is reported on standard error."""
import sys
from typing import Callable

# Counts whether something is so, and reports the text if it is not, as `Tally.must`.
Must = Callable[[object, str], object]


class Tally:
    """Counts what is right and what is wrong, and reports the latter after the name of the check. What is shown of a value that
    differs has at most `most` characters."""

    def __init__(self, check: str, most: int = 2000) -> None:
        self.check, self.most = check, most
        self.right = self.wrong = 0

    def fail(self, what: str) -> None:
        """Counts and reports something that is wrong."""
        self.wrong += 1
        print(f"{self.check}: {what}", file=sys.stderr, flush=True)

    def must(self, is_so: object, what: str) -> bool:
        """Counts it, and reports it if it is wrong."""
        if is_so:
            self.right += 1
        else:
            self.fail(what)
        return bool(is_so)

    def same(self, what: str, wanted: object, got: object) -> bool:
        """Both must be equal."""
        return self.must(wanted == got, f"{what}: wanted {self._shown(wanted)}, got {self._shown(got)}")

    def holds(self, what: str, part: str, whole: str) -> bool:
        """The part must be in the whole."""
        return self.must(part in whole, f"{what}: wanted {part!r} in {self._shown(whole)}")

    def _shown(self, value: object) -> str:
        text = repr(value)
        return text if len(text) <= self.most else f"{text[:self.most]}.."

    @property
    def status(self) -> int:
        """The status with which the check ends."""
        return int(self.wrong > 0)
