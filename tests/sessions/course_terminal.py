#!/usr/bin/env python3
"""Replays a page, docs/COURSE.md if none is named, at a pseudo terminal, as a person types it, and reports what is shown differently.

    tests/sessions/course_terminal.py FORTH FORTH83 SHARE

FORTH and FORTH83 are the launchers, of the tree or installed, and SHARE is the folder with screens and examples.
"""
import argparse
import os
import pathlib
import re
import shlex
import subprocess
import sys
import tempfile
from typing import Dict, List

import sessions
from session_terminals import Terminal, types, Wrong


class Replay:
    """A page in a folder: its shell's lines, and what is typed at the Forth between them."""

    def __init__(self, page: str, room: pathlib.Path, commands: Dict[str, str]) -> None:
        self.page, self.room, self.commands, self.wrong, self.count = page, room, commands, 0, 0

    def shell(self, line: str) -> List[str]:
        """What a line of the shell shows, with the commands as they are here."""
        for name, command in self.commands.items():
            line = re.sub(rf"(?<!\S){re.escape(name)}(?=\s|$)", shlex.quote(command).replace("\\", r"\\"), line)
        done = subprocess.run(["bash", "-c", line], cwd=self.room, stdout=subprocess.PIPE, stderr=subprocess.STDOUT, text=True, check=False)
        return done.stdout.splitlines()

    def compare(self, step: sessions.Step, got: List[str]) -> None:
        """Counts a line, and reports it if it shows something else."""
        self.count += 1
        self.wrong |= sessions.differs(f"{self.page} at a terminal", step, got)

    def run(self, steps: List[sessions.Step]) -> None:
        """Does all steps."""
        while steps:
            step = steps.pop(0)
            if not re.fullmatch(r"\./forth( \S+\.blk)?", step.typed):
                self.compare(step, self.shell(step.typed))
                continue
            words = [self.commands["./forth"], *step.typed.split()[1:]]
            terminal = Terminal(words, self.room, {**os.environ, "TERM": "xterm", "HOME": str(self.room)})
            terminal.until("interrupts what is running.\r\n")
            while steps and not steps[0].at_shell:
                inside = steps.pop(0)
                if inside.typed != "BYE":
                    self.compare(inside, types(terminal, inside))
            terminal.is_ready()
            terminal.keys("BYE\r")
            if terminal.status():
                raise Wrong(f"{self.page}: a session ends with another status than 0")


def check(forth: str, forth83: str, share: pathlib.Path, page: str = "docs/COURSE.md", at_least: int = 100) -> int:
    """1 if something else is shown at a terminal than the page says, or if the page has fewer lines than that."""
    commands = {"./forth83": forth83, "./forth": forth, "screens/course/course.txt": f"{share}/screens/course/course.txt", "examples/draw.txt": f"{share}/examples/draw.txt"}
    with tempfile.TemporaryDirectory() as room:
        replay = Replay(page, pathlib.Path(room), commands)
        replay.run(sessions.steps_of((sessions.ROOT / page).read_text(encoding="utf-8")))
    if replay.count < at_least:
        print(f"{page}: {replay.count} lines were replayed at a terminal", file=sys.stderr)
        return 1
    return replay.wrong


def main() -> int:
    words = argparse.ArgumentParser(description="Replays docs/COURSE.md at a pseudo terminal, and reports what is shown differently.")
    words.add_argument("forth", metavar="FORTH", help="the launcher forth")
    words.add_argument("forth83", metavar="FORTH83", help="the launcher forth83")
    words.add_argument("share", type=pathlib.Path, metavar="SHARE", help="the folder with screens and examples")
    asked = words.parse_args()
    return check(asked.forth, asked.forth83, asked.share)


if __name__ == "__main__":
    sys.exit(main())
