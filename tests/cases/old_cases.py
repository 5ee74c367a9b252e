"""Cases of old programs, as tests/cases/old_cases.txt has them, and of the dialects' words, as tests/cases/dialect_cases.txt does; and how they are
run by the built program.

A case has a dialect, a title, a reason, screens, and steps: first the load of screen 1, then typed lines. Each step has what must be
shown, or a text that must be in it.
"""
import pathlib
import re
from typing import Dict, List, Optional, Set

from sessions import ROOT, Folder, shown_by_line

CASES = ROOT / "tests/cases/old_cases.txt"
WORDS = ROOT / "tests/cases/dialect_cases.txt"
# The first screen of each dialect, and of the preludes that are loaded after one: "f79+mms".
FIRST = {"fig": 1001, "f79": 1021, "f83": 1041, "poly": 1061, "mms": 1088, "mvp": 1102, "volks": 1091, "hs": 1084, "rsc": 1093, "ports": 1086, "high-first": 1110}
# Texts of screens/library that are included after a dialect: "fig+devices".
TEXTS = {"devices": "INCLUDE devices.fs"}


class Step:
    """A line that is typed, the lines that answer it, and what must be shown."""

    def __init__(self, typed: str) -> None:
        self.typed = typed
        self.answers: List[str] = []
        self.shown: Optional[str] = None
        self.printed: Optional[str] = None
        self.ends = False

    def lines(self) -> str:
        return "".join(f"{line}\n" for line in [self.typed, *self.answers])

    def fails(self, output: str) -> Optional[str]:
        """What is wrong with what was shown, if anything."""
        got = " ".join(output.split())
        for answer in self.answers:
            got = (got[len(answer) :] if got.startswith(answer) else got).strip()
        if self.printed is not None:
            return None if " ".join(self.printed.split()) in got else f"wanted .. {self.printed} ..\n  got    {got:.300}"
        wanted = " ".join(f"{self.shown or ''} {'' if self.ends else 'ok'}".split())
        return None if self.shown is None and got.endswith("ok") or got == wanted else f"wanted {wanted}\n  got    {got:.300}"


class Case:
    """An old program, and what it shows."""

    def __init__(self, dialect: str, title: str) -> None:
        self.dialect, self.title = dialect, title
        self.reason = ""
        self.inside: Set[str] = set()
        self.screens: Dict[int, List[str]] = {1: [f"( {title.replace(')', '')[:60]} )"]}
        self.steps = [Step("1 LOAD")]

    def take(self, line: str) -> None:
        """Takes a line of the case's block."""
        sign, _, rest = line.partition(" ")
        if sign == "#":
            self.reason = rest
        elif sign.startswith("|"):
            self.screens.setdefault(int(sign[1:] or 1), []).append(rest)
        elif sign == ">":
            self.steps.append(Step(rest))
        elif sign == ">>":
            self.steps[-1].answers.append(rest)
        elif sign == "<":
            self.steps[-1].shown = rest
        elif sign == "<.":
            self.steps[-1].shown, self.steps[-1].ends = rest, True
        elif sign == "=":
            self.inside |= set(rest.split())
        elif sign == "!":
            self.steps[-1].printed = rest
        else:
            raise ValueError(f"{self.title}: {line}")

    def text(self) -> str:
        """Its screens as a text."""
        return "".join(f"% screen {number}\n" + "".join(f"{line}\n" for line in lines) for number, lines in self.screens.items())

    def dialects(self) -> List[str]:
        """The texts that are loaded before it."""
        return [name for name in self.dialect.split("+") if name != "none"]

    def tried(self) -> Set[str]:
        """The words that it tries: those of its lines, but not the names that `:` makes, and those that it says."""
        lines = [line for number, screen in self.screens.items() for line in screen[number == 1 :]] + [step.lines() for step in self.steps]
        words = " ".join(lines).split()
        return self.inside | {word for before, word in zip(["", *words], words) if before != ":"}

    def is_whole(self) -> bool:
        """Whether it has a reason, and something that must be shown."""
        return bool(self.reason) and any(step.shown is not None or step.printed is not None for step in self.steps)


def read_cases(text: str) -> List[Case]:
    """The cases of a text, one for each dialect that a case names; what is before the first one is a comment."""
    cases: List[Case] = []
    for block in text.split("\n\n"):
        first, *lines = block.strip("\n").split("\n")
        match = re.fullmatch(r"case ([\w+,-]+) (.+)", first)
        if match is None:
            if cases:
                raise ValueError(f"no case begins with: {first}")
            continue
        for dialect in match[1].split(","):
            if any(name != "none" and name not in FIRST and name not in TEXTS for name in dialect.split("+")):
                raise ValueError(f"{first}: {dialect} is no dialect")
            cases.append(Case(dialect, match[2]))
            for line in lines:
                cases[-1].take(line)
    return cases


def untried(dialect: str, words: Set[str], cases: List[Case]) -> List[str]:
    """Those words of a dialect that no case tries."""
    return sorted(words.difference(*(case.tried() for case in cases if dialect in case.dialects())))


class Runner:
    """Runs cases in a folder."""

    def __init__(self, folder: Folder) -> None:
        self.folder = folder
        self.room = pathlib.Path(folder.room)
        self.program = str(self.room / "crates/forth83/out/forth83")
        self.blocks: Dict[str, bytes] = {}

    def blocks_of(self, case: Case) -> bytes:
        """A file of blocks with the dialects of a case, made once for all cases that have these."""
        if case.dialect not in self.blocks:
            (self.room / "case.blk").unlink(missing_ok=True)
            said = self.folder.run([self.program, "new", "case.blk", "8"])
            for name in filter(FIRST.get, case.dialects()):
                said += self.folder.run([self.program, "screens", f"screens/dialects/{name}.txt", "case.blk"])
            if said:
                raise ValueError(said)
            self.blocks[case.dialect] = (self.room / "case.blk").read_bytes()
        return self.blocks[case.dialect]

    def wrong(self, case: Case) -> List[str]:
        """What is wrong with a case."""
        data = self.blocks_of(case)
        (self.room / "case.blk").write_bytes(data)
        (self.room / "case.txt").write_text(case.text(), encoding="ascii")
        said = self.folder.run([self.program, "screens", "case.txt", "case.blk"])
        if said:
            return [said]
        steps = [*(Step(TEXTS.get(name) or f"{FIRST[name]} LOAD") for name in case.dialects()), *case.steps]
        typed = "".join(step.lines() for step in steps)
        output = self.folder.typed("case.blk", typed)
        if "ESC" in "".join(step.shown or "" for step in case.steps):
            output = output.replace("\x1b", "ESC")
        shown = shown_by_line([step.typed for step in steps], output.replace("\a", "BEL"))
        gots = (re.sub(r" ok \d+$", " ok", got, flags=re.M) for got in shown)  # how many numbers are left is no part of a case
        return [f"{step.typed}: {wrong}" for step, got in zip(steps, gots) if (wrong := step.fails(got)) is not None]
