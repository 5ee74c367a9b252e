"""`./forth test`: runs files of tests, each in a session of its own, and shows a table."""
from __future__ import annotations

import os
import re
import subprocess
import sys
from typing import Callable

from launcher.program import ROOT, say
from served.start import Misused

LAUNCH = os.path.join(ROOT, "commands", "launch")
COUNTS = re.compile(rb"\n?(\d+) tests, (\d+) wrong\n\Z")


def run(program: str, name: str) -> tuple[int, int, bytes]:
    """How many tests a file has, how many were wrong (a file that does not end counts as one), and what else it showed."""
    words = [sys.executable, "-B", LAUNCH, "--program", program, "--quiet", "-e", f'INCLUDE tester.fs INCLUDE "{name}" TESTED']
    done = subprocess.run(words, stdin=subprocess.DEVNULL, stdout=subprocess.PIPE, stderr=subprocess.STDOUT, check=False)
    counts = COUNTS.search(done.stdout)
    if done.returncode > 1 or counts is None:
        return 0, 1, done.stdout
    return int(counts[1]), int(counts[2]), done.stdout[: counts.start()]


def main(find: Callable[[], str], names: list[str]) -> int:
    """Runs the files by the program that is found; 0 if all tests were right, 1 if not."""
    if not names:
        raise Misused("test needs files of tests, as in ./forth test calc-test.fs")
    if names[0].startswith("-"):
        raise Misused(f"test has no option {names[0]}")
    for name in names:
        if not os.path.isfile(name):
            say(f"{name}: there is no such file: name a text with tests")
            return 1
    program, wrong = find(), 0
    for name in names:
        tests, bad, shown = run(program, name)
        sys.stdout.flush()
        sys.stdout.buffer.write(shown.strip(b"\n") + b"\n" * bool(shown.strip(b"\n")))
        print(f"{name}: {tests} tests, {bad} wrong" if tests or not bad else f"{name}: it was not run to its end")
        wrong += bad
    return 1 if wrong else 0
