"""The program forth83: which one runs, and what it says."""
import io
import os
import pathlib
import subprocess
import sys
from typing import Any, Callable, List, Optional, Union

ROOT = pathlib.Path(__file__).resolve().parent.parent
KEPT = ROOT / "build/out"
sys.path.append(str(ROOT / "commands"))

import quiet_end  # noqa: E402
from served import image  # noqa: E402


class Refusal(Exception):
    """Why nothing is made, in a sentence; it ends with this status."""

    def __init__(self, text: str, status: int = 1) -> None:
        super().__init__(text)
        self.status = status


Parser = quiet_end.Parser


def say(text: str) -> None:
    print(f"forth: {text}", file=sys.stderr)


def printing(encoding: Optional[str] = None, newline: Optional[str] = None) -> None:
    """Sets how standard output spells its text; what it can't spell is escaped."""
    if isinstance(sys.stdout, io.TextIOWrapper):
        sys.stdout.reconfigure(encoding=encoding, errors="backslashreplace", newline=newline)


def guarded(act: Callable[[], int]) -> int:
    """Runs a tool, or reports why it cannot be run; returns the status."""
    try:
        return quiet_end.status_of(act)
    except Refusal as refusal:
        say(str(refusal))
        return refusal.status
    except OSError as error:
        say(f"{error.filename or 'a file'}: {error.strerror}")
        return 1
    except KeyboardInterrupt:
        say("interrupted; nothing was made")
        return 130


class Progress:
    """A line of progress on standard error, which replaces the one before, if that is a terminal."""

    def __init__(self) -> None:
        self.is_shown = sys.stderr.isatty()

    def tell(self, text: str) -> None:
        if self.is_shown:
            print(f"\rforth: {text}\x1b[K", end="", file=sys.stderr, flush=True)

    def end(self) -> None:
        if self.is_shown:
            print("\r\x1b[K", end="", file=sys.stderr, flush=True)


class Program:
    """The proved program if it exists, otherwise the one without proofs, as ./forth chooses them."""

    def __init__(self) -> None:
        proved, unproved = ROOT / "crates/forth83/out/forth83", KEPT / "unproved"
        self.is_proved = subprocess.run([ROOT / "build/is-proved"], check=False, stderr=subprocess.DEVNULL).returncode == 0
        if not self.is_proved and not os.access(unproved, os.X_OK):
            raise Refusal("there is no program yet; run ./forth once, which builds one in about a minute")
        self.path = proved if self.is_proved else unproved

    def run(self, words: List[Union[pathlib.Path, str]], **ends: Any) -> "subprocess.CompletedProcess[bytes]":
        """Runs the program; its output is bytes."""
        return subprocess.run([self.path, *words], stdout=subprocess.PIPE, stderr=subprocess.PIPE, check=False, **ends)

    def text(self, words: List[Union[pathlib.Path, str]]) -> str:
        """What the program prints; raises a refusal if it refuses."""
        done = self.run(words, stdin=subprocess.DEVNULL)
        if done.returncode:
            raise Refusal(said_by(done))
        return done.stdout.decode("utf-8", "replace")


def said_by(done: "subprocess.CompletedProcess[bytes]") -> str:
    """What a run of the program printed, in one piece."""
    said = (done.stdout + done.stderr).decode("utf-8", "replace").strip()
    return said or f"the program ended with status {done.returncode}"


def session_image(program: Program) -> pathlib.Path:
    """The image that sessions start with. It also runs without a host."""
    try:
        return pathlib.Path(image.find(str(program.path))) / "served.img"
    except (image.NotMade, OSError) as error:
        raise Refusal(f"the image of the Forth cannot be made: {error}") from error
