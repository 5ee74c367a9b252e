"""Runs the sessions of a page with the built program, and reports where the program shows something else than the page.

Sessions are between lines of three backquotes. They run one after another in a folder of their own, which `tests/shared/lay-built`
makes of the program.

- Lines after three backquotes and the name of a file are that file, which is in the folder from the beginning; if `examples` has a file of
  that name, they are lines of it, one after another.
- A line after `$` is run by the shell. `$ ./forth [BLOCKS]` starts the Forth with its tools. A page that begins without one is a session.
- A line after `>` is typed there. One after `>>` is typed, too, as the answer to a question; after `>>>` are keys
  without a return.
- What is shown is below. If nothing is below a line after `>`, the Forth must answer ok, and nothing else; only BYE shows nothing.
  Control sequences of a terminal (`ESC [`) and blanks at line ends are left out. ` ..` stands for more of that line.
"""
import os
import pathlib
import re
import shutil
import subprocess
import sys
import tempfile
from typing import Iterable, List

ROOT = pathlib.Path(__file__).resolve().parents[2]
CONTROLS = re.compile(r"\x1b\[[0-9;?]*[A-Za-z]")  # sequences of a terminal
sys.path.append(str(ROOT / "commands"))

import glossary  # noqa: E402
import typed_sessions  # noqa: E402

sys.path.append(str(ROOT / "page"))

import module  # noqa: E402


# What README types first.
README = [
    "3 4 + .",
    ": SQUARE ( n -- n*n ) DUP * ;",
    ": SQUARES ( n -- ) 0 DO I SQUARE . LOOP ;",
    "8 SQUARES",
    "1 2 3 .S",
    "+ + .",
    "SEE SQUARE",
    "1 0 /",
    "8 SQUARE FOO",
]


class Step:
    """What is typed, at the shell or not, what is typed after it, and the lines that are shown."""

    def __init__(self, typed: str, at_shell: bool) -> None:
        self.typed, self.at_shell = typed, at_shell
        self.answers = ""
        self.shown: List[str] = []


def steps_of(text: str) -> List[Step]:
    steps = []
    for block in re.findall(r"^```([\w.-]*\n.*?)^```$", text, re.M | re.S):
        for line in block.splitlines()[1:] if block.startswith("\n") else []:
            sign, _, rest = line.partition(" ")
            if sign in ("$", ">"):
                steps.append(Step(rest, sign == "$"))
            elif sign in (">>", ">>>"):
                steps[-1].answers += rest + ("\n" if sign == ">>" else "")
            else:
                steps[-1].shown.append(line)
    for step in steps:
        if not (step.shown or step.at_shell or step.typed == "BYE"):
            step.shown = ["ok"]
    return steps


def answer_in(text: str) -> List[str]:
    """The lines that are shown after what was typed, without the blanks that separate them from it."""
    first, *rest = [line.rstrip() for line in (text[:-1] if text.endswith("\n") else text).split("\n")]
    return [first.lstrip(), *rest] if first else rest


def shown_by_line(typed: List[str], output: str) -> List[str]:
    """What was shown after each line that was typed: each begins a line of the output, and has a blank after it. Control sequences are left out."""
    output, at, shown = CONTROLS.sub("", output), 0, []
    for line, following in zip(typed, [*typed[1:], None]):
        found = output.find(line, at)
        at = found + len(line) if found >= 0 else len(output)
        end = output.find(f"\n{following} ", at) if following is not None else len(output)
        end = output.find(f"{following} ", at) - 1 if end < 0 else end  # after QUIT no line begins
        end = len(output) if end < 0 else end
        shown.append(output[at:end])
        at = end
    return shown


def parted(steps: List[Step], output: str) -> List[List[str]]:
    """The lines that were shown after each step."""
    return [answer_in(shown) for shown in shown_by_line([step.typed for step in steps], output)]


class Folder:
    """The folder in which the sessions run."""

    def __init__(self, room: str, program: pathlib.Path) -> None:
        self.room = room
        subprocess.run([ROOT / "tests/shared/lay-built", program, room], check=True)
        self.program = f"{room}/crates/forth83/out/forth83"
        self.run(["./forth83", "kernel", "kernel"])
        shutil.copy(self.image(), f"{room}/tools")
        # The page's module may have to be made, which takes longer than to find a mistake in the tools.
        module.copy_to(pathlib.Path(room))

    def run(self, words: List[str], typed: str = "") -> str:
        return subprocess.run(words, cwd=self.room, input=typed, text=True, check=False, stdout=subprocess.PIPE, stderr=subprocess.STDOUT).stdout

    def image(self) -> pathlib.Path:
        """The image that sessions start with."""
        try:
            return pathlib.Path(typed_sessions.image.find(self.program), "served.img")
        except typed_sessions.image.NotMade as error:
            sys.exit(f"the tools cannot be built: {error}")

    def typed(self, blocks: str, typed: str) -> str:
        """What a session over a file of blocks shows, with what is typed in it."""
        here = os.getcwd()
        os.chdir(self.room)
        try:
            return typed_sessions.shown_by(self.program, blocks, typed)
        finally:
            os.chdir(here)

    def session(self, command: str, steps: List[Step]) -> List[List[str]]:
        blocks = (command.split() + ["forth.blk"])[1]
        if not pathlib.Path(self.room, blocks).exists():
            shutil.copy(f"{self.room}/kernel", f"{self.room}/{blocks}")
        output = self.typed(blocks, "".join(f"{step.typed}\n{step.answers}" for step in steps))
        return parted(steps, output)


def differs(page: str, step: Step, got: List[str]) -> int:
    got = [line.rstrip() for line in got]
    if re.fullmatch(re.escape("".join(f"{line}\n" for line in step.shown)).replace(r"\ \.\.", ".+"), "".join(f"{line}\n" for line in got)):
        return 0
    print(f"{page}: {step.typed}\n  wanted {step.shown}\n  got    {got}", file=sys.stderr)
    return 1


# Words that leave the Forth, or take the terminal: check-served and check-screen-editor try them at one.
AT_TERMINALS = {"BYE", "BYE-WITH", "COLD", "DEBUG", "ED", "EDIT", "RELOAD", "RETYPE", "TELL"}


def check_examples(words: Iterable[glossary.Word], program: str) -> int:
    """Returns 1 if the example of a word shows something else; `..` before what is shown stands for more that is shown."""
    tried = [word for word in words if word.typed and word.name not in AT_TERMINALS]
    steps = [Step("WARNING OFF", False)]
    for word in tried:
        steps.append(Step(word.typed[0], False))
        steps[-1].answers = "".join(f"{line}\n" for line in word.typed[1:])
    wrong = 0
    with tempfile.TemporaryDirectory() as room:
        shown = Folder(room, pathlib.Path(program).resolve()).session("./forth", steps)[1:]
    for word, lines in zip(tried, shown):
        got = re.sub(r"( ok( \d+)?)+$", "", " " + " ".join(" ".join(lines).split()))
        part = " ".join(word.shown.lstrip(".").split())
        if word.name not in " ".join(word.typed).split():
            got = f"no {word.name}"
        if not (part in got if word.shown.startswith("..") else got.endswith(f" {part}".rstrip()) if word.typed[1:] else got.strip() == part):
            print(f"data/words.txt: {word.name}: its example {word.typed}\n  wanted {word.shown}\n  got    {got}", file=sys.stderr)
            wrong = 1
    return wrong


def lay_files(page: str, text: str, room: str) -> int:
    """Writes the files that a page has into the folder; returns 1 if what it shows of an example is not in that."""
    wrong = 0
    for name, content in re.findall(r"^```([\w-]+\.\w+)\n(.*?)^```$", text, re.M | re.S):
        example = next((ROOT / "examples").rglob(name), None)
        if example is None:
            pathlib.Path(room, name).write_text(content, encoding="utf-8")
        elif content not in example.read_text(encoding="utf-8"):
            print(f"{page}: {example.relative_to(ROOT)} does not have the lines that begin with {content.splitlines()[0]}", file=sys.stderr)
            wrong = 1
    return wrong


def check(page: str, program: str, at_least: int) -> int:
    """Returns 1 if a session differs, or if the page has fewer lines to type than that."""
    text = (ROOT / page).read_text(encoding="utf-8")
    steps, wrong = steps_of(text), 0
    if len(steps) < at_least:
        print(f"{page}: {len(steps)} lines to type were found", file=sys.stderr)
        return 1
    if not steps[0].at_shell:
        steps.insert(0, Step("./forth", True))
    with tempfile.TemporaryDirectory() as room:
        folder = Folder(room, pathlib.Path(program).resolve())
        wrong |= lay_files(page, text, room)
        while steps:
            step, inside = steps.pop(0), []
            while steps and not steps[0].at_shell:
                inside.append(steps.pop(0))
            if not re.fullmatch(r"\./forth( \S+)?", step.typed):
                wrong |= differs(page, step, folder.run(["bash", "-c", step.typed]).splitlines())
                continue
            for one, got in zip(inside, folder.session(step.typed, inside)):
                wrong |= differs(page, one, got)
    return wrong
