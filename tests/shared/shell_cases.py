"""Runs cases that are commands of a shell, in the format of cram, with settings of one's own; tests/trials/check-commands runs those of a program."""
import os
import pathlib
import re
import subprocess
import sys
from typing import Any, List, Mapping, NamedTuple, Sequence, Tuple

from wanted_lines import difference, lines_of

ROOT = pathlib.Path(__file__).resolve().parents[2]
SALT = b"CASE-ENDS-HERE"
MOST = 900  # seconds for a file
C = {"LANG": "C", "LC_ALL": "C", "LANGUAGE": "C", "TZ": "GMT", "CDPATH": "", "COLUMNS": "80"}  # what cram sets, too


class Step(NamedTuple):
    """A command: the number of its first line, its lines, and those that it must print. The last one may be its status, `[3]`."""

    line: int
    command: List[bytes]
    wanted: List[bytes]


def steps_of(text: bytes) -> List[Step]:
    """The commands of a file."""
    steps: List[Step] = []
    for number, line in enumerate(text.split(b"\n"), 1):
        if line.startswith(b"  $ "):
            steps.append(Step(number, [line[4:]], []))
        elif line.startswith(b"  > "):
            steps[-1].command.append(line[4:])
        elif line.startswith(b"  "):
            steps[-1].wanted.append(line[2:])
    return steps


def script_of(steps: List[Step]) -> bytes:
    """What the shell reads: the commands, with a mark before each and at the end, which shows the status."""
    mark = b"echo " + SALT + b" $?\n"
    return b"".join(mark + b"\n".join(step.command) + b"\n" for step in steps) + mark


def printed_by(steps: List[Step], output: bytes) -> List[List[bytes]]:
    """What each command printed; nothing of those that the shell did not come to."""
    parts = re.split(SALT + rb" (\d+)\n", output)
    found = []
    for printed, status in zip(parts[2::2], parts[3::2] + [b"?"]):
        found.append(lines_of(printed, status))
    return found[: len(steps)] + [[b"was not run"]] * (len(steps) - len(found))


def run_file(path: pathlib.Path, room: pathlib.Path, settings: Mapping[str, object]) -> Tuple[int, List[str]]:
    """Runs a file in a folder of its own: how many commands it has, and what is reported of those that did something else."""
    steps, folder = steps_of(path.read_bytes()), room / path.name
    folder.mkdir()
    (room / "tmp").mkdir(exist_ok=True)
    own = {"TMPDIR": room / "tmp", "TESTDIR": path.parent, "TESTFILE": path.name, **settings}
    environment = {**os.environ, **C, **{name: str(value) for name, value in own.items()}}
    ends: Any = {"stdout": subprocess.PIPE, "stderr": subprocess.STDOUT}
    made = subprocess.run(["timeout", str(MOST), "bash", "-"], input=script_of(steps), cwd=folder, env=environment, check=False, **ends)
    wrong = []
    for step, got in zip(steps, printed_by(steps, made.stdout)):
        differs = difference(step.wanted, got)
        if differs:
            wrong.append("\n".join([f"{path.relative_to(ROOT)}:{step.line}: {step.command[0].decode('latin-1')}", *differs]))
    return len(steps), wrong


def lay(program: pathlib.Path, room: pathlib.Path) -> pathlib.Path:
    """A tree in which the program counts as proved."""
    subprocess.run([ROOT / "tests/shared/lay-built", program, room / "tree"], check=True)
    return room / "tree"


def run(files: Sequence[str], room: pathlib.Path, settings: Mapping[str, object]) -> int:
    """Runs these files of tests/cases in new folders of the room; how many of their commands did something else, which is reported."""
    wrong = 0
    for file in files:
        count, reports = run_file(ROOT / "tests/cases" / file, room, settings)
        wrong += len(reports)
        print("\n".join([*reports, f"{file}: {count - len(reports)} commands did what they must, {len(reports)} did not"]), file=sys.stderr)
    return wrong
