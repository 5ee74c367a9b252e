"""Sessions at a terminal as cases: the files of tests/cases/sessions, in the format that tests/README.md describes."""
import pathlib
from typing import List, NamedTuple, Tuple

FILES = pathlib.Path(__file__).resolve().parent / "sessions"
SIGNS = ("$", ">", "start", "line", "keys", "until", "within", "pause", "silent", "stops", "ends")


class Step(NamedTuple):
    """Something that is done: the number of its line, its sign, what follows that, and the lines that are wanted."""

    line: int
    sign: str
    text: str
    wanted: List[str]


class Session(NamedTuple):
    """A case: its name, and its steps."""

    name: str
    steps: List[Step]


class Case(NamedTuple):
    """A line that is typed, what it shows, and whether that is a fault, of which the beginning is wanted."""

    line: str
    shown: str
    is_fault: bool


def read(path: pathlib.Path, signs: Tuple[str, ...] = SIGNS) -> List[Session]:
    """The cases of a file, whose steps begin with these signs."""
    found: List[Session] = []
    for number, row in enumerate(path.read_text(encoding="utf-8").split("\n"), 1):
        sign, _, text = row.partition(" ")
        if sign == "case":
            found.append(Session(text, []))
        elif row.startswith("  "):
            found[-1].steps[-1].wanted.append(row[2:])
        elif sign in signs:
            found[-1].steps.append(Step(number, sign, text, []))
        elif sign not in ("", "#"):
            raise ValueError(f"{path.name}:{number}: {sign} is no sign of a session")
    return found


def cases() -> List[Case]:
    """The lines that show the same at a terminal and in the page."""
    steps = [step for session in read(FILES / "lines.txt") for step in session.steps if step.sign == ">"]
    return [Case(step.text, shown_of(step), step.wanted[-1:] == [".."]) for step in steps]


def shown_of(step: Step) -> str:
    """What a line shows before its ok, or up to the sign that more may follow."""
    shown = "\n".join(step.wanted or ["ok"])
    return shown[: -len("\n..")] if step.wanted[-1:] == [".."] else shown[: -len("ok")].rstrip()
