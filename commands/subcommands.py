"""Runs subcommands of the program, for scripts beside it."""
from __future__ import annotations

import os
import pathlib
import subprocess
from typing import List, NamedTuple, Optional

ROOT = pathlib.Path(__file__).resolve().parent.parent
PROGRAM = "FORTH83_PROGRAM"  # the program that runs them, if one was asked for


class Ran(NamedTuple):
    """How the program ended, and what it printed."""

    status: int
    text: str


def usual() -> pathlib.Path:
    """The program that runs them if none was asked for."""
    unproved = ROOT / "build/out/unproved"
    is_proved = subprocess.run([ROOT / "build/is-proved"], check=False).returncode == 0
    return unproved if not is_proved and unproved.exists() else ROOT / "forth83"


def program(words: List[str], is_heard: bool = True, given: Optional[bytes] = None) -> Ran:
    """Runs the program's own subcommand, with its standard input, if that is given: the program that was asked for; or else the proved one, or the one
    without proofs if that is all there is."""
    done = subprocess.run(
        [os.environ.get(PROGRAM) or usual(), *words], env={**os.environ, "FORTH83_PLAIN": "1"}, check=False, input=given, stdout=subprocess.PIPE if is_heard else None
    )
    return Ran(done.returncode, (done.stdout or b"").decode(errors="replace"))
