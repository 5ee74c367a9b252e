"""Runs the cases of tests/cases/sessions: what is typed at a pseudo terminal, what it must show, and what becomes of files."""
import pathlib
import re
import subprocess
import tempfile
import time
from typing import Any, List, Optional, Type

from session_cases import Session, Step
from session_terminals import children, environment, is_gone, PATIENCE, SerialLine, Terminal, Wrong
from wanted_lines import difference, ended, matches

ROOT = pathlib.Path(__file__).resolve().parents[2]
NAMED = {"r": "\r", "n": "\n", "t": "\t", "e": "\x1b", "\\": "\\"}


def keys_of(text: str) -> str:
    r"""Keys as a case has them: \r, \n, \t, \e, \\ and \x03 are one key each."""
    return re.sub(r"\\(?:x(..)|(.))", lambda found: chr(int(found[1], 16)) if found[1] else NAMED[found[2]], text)


def encoded(lines: List[str]) -> List[bytes]:
    return [line.encode() for line in lines]


def is_right(wanted: List[str], got: List[str]) -> bool:
    """Whether these lines are wanted; after `..` more may come."""
    if wanted[-1:] == [".."]:
        wanted, got = wanted[:-1], got[: len(wanted) - 1]
    return len(wanted) == len(got) and all(map(matches, encoded(wanted), encoded(got)))


class Run:
    """A case that is run in a folder of its own."""

    def __init__(self, folder: pathlib.Path, tree: pathlib.Path) -> None:
        self.folder = folder
        self.terminal: Optional[Terminal] = None
        self.started: List[int] = []
        self.environment = environment(folder, TREE=str(tree), TESTS=str(ROOT / "tests"), BASH_ENV=str(ROOT / "tests/cases/commands/lib.sh"))

    @property
    def session(self) -> Terminal:
        """The session that runs."""
        if self.terminal is None:
            raise Wrong("no session runs")
        return self.terminal

    def do(self, step: Step) -> None:
        """Does a step."""
        if step.sign == "$":
            self.command(step)
        elif step.sign == ">":
            wanted = step.wanted or ["ok"]
            got = self.session.answer(step.text, lambda lines: is_right(wanted, lines))
            if not is_right(wanted, got):
                raise Wrong("\n".join(difference(encoded(wanted), encoded(got))))
        else:
            getattr(self, f"do_{step.sign}")(step.text)

    def command(self, step: Step) -> None:
        """A command of the shell."""
        more = {"SESSION": str(self.terminal.process), "SERVER": " ".join(map(str, self.servers()))} if self.terminal else {}
        more.update({"LINE": self.terminal.name} if isinstance(self.terminal, SerialLine) else {})
        ends: Any = {"stdin": subprocess.DEVNULL, "stdout": subprocess.PIPE, "stderr": subprocess.STDOUT}
        done = subprocess.run(["bash", "-c", step.text], cwd=self.folder, env={**self.environment, **more}, check=False, timeout=10 * PATIENCE, **ends)
        differs = difference(encoded(step.wanted), ended(done))
        if differs:
            raise Wrong("\n".join(differs))

    def servers(self) -> List[int]:
        """What the session has started, and that it runs; it is looked at when it has ended."""
        self.started = children(self.session.process)
        return self.started

    def do_start(self, text: str, kind: Type[Terminal] = Terminal) -> None:
        """Starts a command at a terminal."""
        self.end()
        self.terminal = kind(["/bin/bash", "-c", f"exec {text}"], self.folder, self.environment)

    def do_line(self, text: str) -> None:
        """Starts a command whose console is a line."""
        self.do_start(text, SerialLine)

    def do_keys(self, text: str) -> None:
        """Types keys, whether or not they are waited for."""
        self.servers()
        self.session.keys(keys_of(text))

    def do_until(self, text: str) -> None:
        """Waits until this is shown."""
        self.session.until(keys_of(text))

    def do_within(self, text: str) -> None:
        """Waits until this is shown, so many seconds at most."""
        seconds, _, wanted = text.partition(" ")
        self.session.until(keys_of(wanted), float(seconds))

    def do_pause(self, text: str) -> None:
        """Waits so many seconds."""
        time.sleep(float(text))

    def do_silent(self, text: str) -> None:
        """Nothing may be shown for so many seconds; what was shown before does not count."""
        self.session.shown, until = b"", time.monotonic() + float(text)
        while time.monotonic() < until and not self.session.shown:
            self.session.goes_on()
        if self.session.shown:
            raise Wrong(f"{self.session.shown!r} is shown")

    def do_stops(self, _: str) -> None:
        """Waits until the session stops, as by ^Z."""
        if self.session.status() != -1:
            raise Wrong("the session does not stop")

    def do_ends(self, text: str) -> None:
        """Waits for the end of the session, with this status; what it has started ends, too."""
        status = self.session.status()
        started, self.started = self.started, []
        if not isinstance(self.terminal, SerialLine):
            self.terminal = None
        if str(status) != text:
            raise Wrong(f"the session ends with {status}")
        if not all(map(is_gone, started)):
            raise Wrong("a process that the session has started stays")

    def end(self) -> None:
        """Ends a session that still runs by ^D, whose status is 0."""
        if self.terminal and not isinstance(self.terminal, SerialLine):
            self.servers()
            self.terminal.is_ready()
            self.terminal.keys("\x04")
            self.do_ends("0")
        self.terminal = None


def wrong(case: Session, file: str, tree: pathlib.Path) -> str:
    """What is wrong with a case; nothing if it is right."""
    with tempfile.TemporaryDirectory() as name:
        folder = pathlib.Path(name, "case")
        folder.mkdir()
        run, at = Run(folder, tree), 0
        try:
            for step in case.steps:
                at = step.line
                run.do(step)
            run.end()
        except (Wrong, OSError, subprocess.SubprocessError) as error:
            if run.terminal:
                run.terminal.kill()
            return f"{file}:{at}: {case.name}: {error}"
    return ""
