"""What a session shows: the bytes of the program, and what the tools say."""
from __future__ import annotations

import errno
import os
import select

from served.prompt import Ended, GLANCE, Signals

PIECE = 256  # bytes that a terminal takes at once
FAULTED, FAILED = 3, 5  # the status after a fault, and of a session whose streams failed


class Output:
    """Standard output, of which it is known what its last line shows; in a script, what is wrong goes to standard error."""

    def __init__(self, is_script: bool, signals: Signals) -> None:
        self._is_script, self._signals = is_script, signals
        self.column = b""  # what the last line shows
        self.is_dropping = False  # what EXPECT shows of a line is dropped
        self._has_failed = False

    def show(self, text: bytes) -> None:
        """Shows bytes of the program, just as they are."""
        if self.is_dropping:
            return
        self.column = (text if b"\n" in text else self.column + text).rpartition(b"\n")[2][-200:]
        self.write(1, text)

    def write(self, stream: int, text: bytes) -> None:
        """Writes all of it to standard output, or to standard error. A terminal may hold it, after ^S; if the session is to end then, the rest is
        given up."""
        is_terminal = os.isatty(stream)
        try:
            while text and not (is_terminal and self.is_held(stream)):
                text = text[self._signals.write(stream, text[:PIECE]) if is_terminal else os.write(stream, text) :]
        except OSError as error:
            if stream == 1 and not self._has_failed:
                self._has_failed = True
                self._explain(error)
            raise Ended(FAILED) from error

    @staticmethod
    def _explain(error: OSError) -> None:
        """Says why nothing can be shown, unless whoever read it has left, as `head` does."""
        try:
            if error.errno != errno.EPIPE:
                os.write(2, f"forth: cannot write the output: {error.strerror}\n".encode())
        except OSError:
            pass  # standard error has failed, too

    def is_held(self, stream: int) -> bool:
        """Waits until a terminal takes more; whether the session is to end before."""
        while not select.select([], [stream], [], 0 if self._signals.is_ending() else GLANCE)[1]:
            if self._signals.is_ending():
                return True
        return False

    def say(self, text: str) -> None:
        """Shows what a tool says."""
        self.show(text.encode(errors="surrogateescape"))

    def say_line(self, text: str) -> None:
        """The same, at the beginning of a line."""
        self.say("\n" * bool(self.column) + text)

    def report(self, text: str) -> None:
        """Says what is wrong: at a terminal in its place, in a script on standard error."""
        if self._is_script:
            self.show(b"\n" * bool(self.column))
            self.write(2, text.encode(errors="surrogateescape"))
        else:
            self.say_line(text)
