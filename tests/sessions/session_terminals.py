"""Sessions of the Forth at pseudo terminals, as a person has them."""
import fcntl
import os
import pathlib
import pty
import re
import select
import signal
import struct
import subprocess
import sys
import termios
import time
from typing import Callable, Dict, List, Tuple

import sessions
from sessions import CONTROLS

JOINED = re.compile(rb"\r\n\x1b\[A(\x1b\[\d+C)? ")  # a session goes on in the row of the line that was typed
OK = re.compile(rb" ok(?: \d+)?\r\n")  # what ends a line: the depth of the stack is shown if it is not empty
PATIENCE = 30.0  # seconds for an answer


class Wrong(Exception):
    """Something else was shown, or became of a file, than must."""


def holds(what: str, is_so: bool) -> None:
    if not is_so:
        raise Wrong(what)


class Terminal:
    """A session at a pseudo terminal."""

    def __init__(self, words: List[str], folder: pathlib.Path, environment: Dict[str, str]) -> None:
        self.shown = b""
        self.process, self.screen = pty.fork()
        if self.process == 0:
            try:
                os.chdir(folder)
                os.execve(words[0], words, environment)
            finally:
                os._exit(127)
        fcntl.ioctl(self.screen, termios.TIOCSWINSZ, struct.pack("HHHH", 50, 200, 0, 0))

    def until(self, text: str, limit: float = PATIENCE) -> str:
        """What is shown up to this text."""
        return self._until(re.compile(re.escape(text.encode())), limit)[0]

    def until_any(self, *texts: str) -> str:
        """The one of these texts that is shown first."""
        return self._until(re.compile(b"|".join(re.escape(text.encode()) for text in texts)), PATIENCE)[1]

    def _until(self, wanted: "re.Pattern[bytes]", limit: float) -> Tuple[str, str]:
        """What is shown before this, and this."""
        until = time.monotonic() + limit
        found = wanted.search(self.shown)
        while found is None:
            if time.monotonic() > until or not self.goes_on():
                raise Wrong(f"wanted {wanted.pattern!r}, got {self.shown[-400:]!r}")
            found = wanted.search(self.shown)
        before, self.shown = self.shown[: found.start()], self.shown[found.end() :]
        return before.decode(errors="replace"), found[0].decode(errors="replace")

    def goes_on(self) -> bool:
        """Takes what is shown next; whether the session still goes on."""
        if select.select([self.screen], [], [], 0.1)[0]:
            try:
                piece = os.read(self.screen, 65536)
            except OSError:
                return False
            self.shown = JOINED.sub(b" ", self.shown + piece)
            return bool(piece)
        return True

    def keys(self, text: str) -> None:
        os.write(self.screen, text.encode())

    def is_ready(self) -> None:
        """Waits until a line is read by keys, which the terminal's settings show; a line that is typed before is shown twice."""
        until = time.monotonic() + PATIENCE
        while time.monotonic() < until:
            settings = termios.tcgetattr(self.screen)
            if not settings[0] & termios.ICRNL and not settings[3] & termios.ECHO:
                return
            time.sleep(0.01)
        raise Wrong("no line is read")

    def line(self, text: str, wanted: str = "") -> str:
        """Types a line; what is shown after it, up to what is wanted, or up to ok and the depth of the stack."""
        self.is_ready()
        self.keys(text + "\r")
        shown = (self.until(wanted) if wanted else self._until(OK, PATIENCE)[0]).partition(text)[2].replace("\r", "")
        return (shown[1:] if shown.startswith(" ") else shown).strip("\n")

    def answer(self, typed_line: str, is_whole: Callable[[List[str]], bool], answers: str = "") -> List[str]:
        """Types a line, and what it asks for; the lines that are shown, which are whole or all that came in time."""
        self.is_ready()
        self.keys(typed_line + "\r" + answers.replace("\n", "\r"))
        until = time.monotonic() + PATIENCE
        while not (is_whole(shown_after(typed_line, self.shown)) and self.shown.endswith(b"\n")):
            if time.monotonic() > until or not self.goes_on():
                break
        shown, self.shown = shown_after(typed_line, self.shown), b""
        return shown

    def status(self, limit: float = PATIENCE) -> int:
        """The status with which the session ends, or -1 if it stops."""
        until = time.monotonic() + limit
        while time.monotonic() < until:
            ended, status = os.waitpid(self.process, os.WNOHANG | os.WUNTRACED)
            if ended and os.WIFSTOPPED(status):
                return -1
            if ended:
                self.close()
                return os.WEXITSTATUS(status) if os.WIFEXITED(status) else 128 + os.WTERMSIG(status)
            self.goes_on()
        self.kill()
        raise Wrong(f"the session does not end; it shows {self.shown[-400:]!r}")

    def close(self) -> None:
        """Closes the terminal of a session that has ended."""
        os.close(self.screen)

    def kill(self) -> None:
        """Ends a session at once, if it still runs."""
        try:
            os.kill(self.process, signal.SIGKILL)
            os.waitpid(self.process, 0)
        except OSError:
            return
        os.close(self.screen)


class SerialLine(Terminal):
    """A session whose console is a pseudo terminal that it opens by its name."""

    def __init__(self, words: List[str], folder: pathlib.Path, environment: Dict[str, str]) -> None:
        self.shown = b""
        self.screen, self.side = pty.openpty()
        self.name = os.ttyname(self.side)
        # pylint: disable=consider-using-with
        running = subprocess.Popen(words, stdin=subprocess.DEVNULL, cwd=folder, env={**environment, "LINE": self.name}, start_new_session=True)
        self.process, running.returncode = running.pid, 0  # whose end `status` waits for

    def close(self) -> None:
        """The line stays, so that its settings can be looked at."""


def shown_after(typed_line: str, shown: bytes) -> List[str]:
    """The lines that a terminal shows after a line that was typed."""
    rows = CONTROLS.sub("", shown.decode(errors="replace")).replace("\r\n", "\n").split("\n")
    return sessions.answer_in("\n".join(row.rpartition("\r")[2] for row in rows).partition(typed_line)[2])


def types(terminal: Terminal, step: sessions.Step) -> List[str]:
    """Types a line of a page, and waits for what the page shows; what is shown."""
    return terminal.answer(step.typed, lambda shown: shown == step.shown, step.answers)


def environment(folder: pathlib.Path, **more: str) -> Dict[str, str]:
    """The environment of a session whose user is at home in this folder."""
    inherited = {name: value for name, value in os.environ.items() if name != "EDITOR"}
    return {**inherited, "TERM": "xterm", "HOME": str(folder), "FORTH_HISTORY": str(folder / "history"), "LC_ALL": "C.UTF-8", **more}


def launcher(program: pathlib.Path) -> List[str]:
    """What starts a session over this program."""
    return [sys.executable, "-I", "-S", "-B", str(sessions.ROOT / "commands/launch"), "--program", str(program)]


def of_program(program: pathlib.Path, folder: pathlib.Path, *words: str) -> Terminal:
    """A session over this program."""
    return Terminal([*launcher(program), *words], folder, environment(folder))


def children(process: int) -> List[int]:
    """The processes that a process has started."""
    found = []
    for path in pathlib.Path("/proc").glob("[0-9]*/stat"):
        try:
            fields = path.read_text(encoding="utf-8", errors="replace").rpartition(")")[2].split()
        except OSError:
            continue
        if fields[1] == str(process):
            found.append(int(path.parent.name))
    return found


def is_gone(process: int) -> bool:
    """Whether a process has ended, or ends soon."""
    until = time.monotonic() + 10
    while time.monotonic() < until:
        try:
            if pathlib.Path(f"/proc/{process}/stat").read_text(encoding="utf-8", errors="replace").rpartition(")")[2].split()[0] == "Z":
                return True
        except OSError:
            return True
        time.sleep(0.05)
    return False
