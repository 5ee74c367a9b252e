"""What is said about a fault: the program says it, of a case as docs/FORMATS.md describes it."""
from __future__ import annotations

import os
import subprocess
from typing import List, Optional, Sequence, Tuple

from served.faults import MESSAGES, UNKNOWN

NO_WORD = "the word"  # what a message calls a word that is not known
Lines = List[Tuple[str, str]]  # lines of a case, each its name and the rest; or lines of a source, each its name and its text


def source(lines: Lines) -> Lines:
    """Lines of a source, as a case has them."""
    return [line for name, text in lines for line in (("line", name), ("text", text))]


class Adviser:
    """The program that says it. Another server has no such subcommand: then it is said what a fault means, without advice."""

    def __init__(self, program: str) -> None:
        self._program = program

    def _answer(self, case: Lines) -> Optional[str]:
        """The answer to a case; None if the program has none."""
        text = "".join(f"{name} {rest}".replace("\n", " ") + "\n" for name, rest in case)
        words = [self._program, "advise", "--", "/dev/stdin"]
        try:
            done = subprocess.run(words, input=os.fsencode(text), stdout=subprocess.PIPE, stderr=subprocess.DEVNULL, check=False)
        except OSError:
            return None
        return done.stdout.decode(errors="replace")[:-1] if done.returncode == 0 and done.stdout.endswith(b"\n") else None

    def meaning(self, number: int, word: str = NO_WORD, known: Sequence[Tuple[str, str]] = ()) -> str:
        """What a fault means, by what is known of it, with its number."""
        answer = self._answer([("fault", str(number)), ("word", word), *known])
        return self._plain(number, word) if answer is None else answer

    def report(self, number: int, word: str, known: Lines, said: str) -> str:
        """The same after what was said of the fault, and with what the source says."""
        marks = [("mark", "said")] * bool(said)
        answer = self._answer([("report", str(number)), ("word", word), *marks, *known])
        if answer is None:
            return MESSAGES["numbered"].format(said=said, fault=number) if said else self._plain(number, word)
        return said + answer

    def looped(self, lines: Lines, has_dialect: bool) -> str:
        """What is said of EXIT in a counted loop of these lines, in one that has a name; an empty text if there is none."""
        if not any(name and "EXIT" in text.upper() for name, text in lines):
            return ""
        return self._answer([("loop", ""), *[("mark", "dialect")] * has_dialect, *source(lines)]) or ""

    @staticmethod
    def _plain(number: int, word: str) -> str:
        """What the number of a fault means."""
        said = MESSAGES["unknown"].format(word=word) if number == UNKNOWN else MESSAGES.get(str(number), MESSAGES["own"])
        return MESSAGES["numbered"].format(said=said, fault=number)
