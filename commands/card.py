"""A card of lines to type on an old machine, and what the answers say of it.

`forth survey --card` prints the lines, and `forth survey --card ANSWERS` reads a text with the answer to each of them in a line.
"""
from __future__ import annotations

from typing import Dict, List, NamedTuple, Tuple

UNKNOWN = "?"
NAMES = {"fig": "fig-FORTH", "f79": "Forth-79", "f83": "F83", "poly": "polyFORTH"}


class Line(NamedTuple):
    """A line to type, what it is about, and what answers mean: each an answer, which dialects give it, and what it says of them."""

    typed: str
    about: str
    answers: Tuple[Tuple[str, str, str], ...]


CARD = (
    Line("-7 2 / .", "division", (("-3", "fig f79 poly", "rounds towards 0"), ("-4", "f83", "rounds down"))),
    Line("5 NOT .", "NOT", (("0", "fig f79 poly", "is 0="), ("-6", "f83", "inverts each bit"))),
    Line("1 1 = .", "true", (("1", "fig f79 poly", "is 1"), ("-1", "f83", "is -1"))),
    Line("1 2 3 2 PICK .", "PICK", ((UNKNOWN, "fig", "is unknown"), ("2", "f79", "counts from 1"), ("1", "f83 poly", "counts from 0"))),
    Line(": T 0 5 DO I . -1 +LOOP ; T", "DO downwards", (("5 4 3 2 1", "fig", "stops before the limit"), ("5 4 3 2 1 0", "f79 f83 poly", "runs for the limit"))),
    Line(": U 4 0 DO I 2 = IF LEAVE THEN I . LOOP ; U", "LEAVE", (("0 1 2", "fig f79 poly", "ends the loop at LOOP"), ("0 1", "f83", "ends it at once"))),
    Line("12,5 D.", "a number with a comma", ((UNKNOWN, "fig f79", "is unknown"), ("125", "f83 poly", "is a double"))),
    Line("-1 0 D.", "a cell", (("65535", "", "has 16 bits"), ("4294967295", "", "has 32 bits"))),
    Line("HEX 1234 PAD ! PAD C@ . DECIMAL", "a cell's", (("34", "", "low byte is first"), ("12", "", "high byte is first"), ("0", "", "high byte is first"))),
    Line("KEY .   and then the return key", "the return key", (("13", "", "gives 13"), ("10", "", "gives 10"))),
)


def printed() -> str:
    """The card."""
    lines = "".join(f"{number:2}  {line.typed}\n" for number, line in enumerate(CARD, 1))
    return f"Type these lines on the old machine. Write each answer into a line of a text, without ok; ? for an error.\n{lines}"


def read(text: str) -> str:
    """What the answers say, in lines: the dialects that agree with most of them, and where they do not; then each by itself."""
    given = [" ".join(answer.split()) for answer in text.splitlines()]
    agree, asked = dict.fromkeys(NAMES, 0), 0
    said: List[str] = []
    against: Dict[str, List[str]] = {key: [] for key in NAMES}
    for line, answer in zip(CARD, given):
        found = [it for it in line.answers if it[0] == (UNKNOWN if answer.startswith(UNKNOWN) else answer)]
        said.append(f"{line.about} {found[0][2]}" if found else f"{line.about}: {answer}, which is none of the answers that are known")
        asked += bool(line.answers[0][1])
        for key in NAMES if line.answers[0][1] else ():
            agrees = bool(found) and key in found[0][1].split()
            agree[key] += agrees
            against[key] += [] if agrees else [line.typed]
    best = [key for key in NAMES if agree[key] == max(agree.values())]
    wrong = f"; not as in it: {', '.join(against[best[0]])}" if len(best) == 1 and against[best[0]] else ""
    found_in = f"dialect: {' or '.join(NAMES[key] for key in best)}, by {agree[best[0]]} of {asked} answers{wrong}"
    return "".join(f"{line}\n" for line in (found_in, *said))
