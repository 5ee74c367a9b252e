"""Building the program: without its proofs, while the proof is made in the background; and what is known of its state."""
from __future__ import annotations

import os
import re
import signal
import subprocess
import sys
import tempfile
import time
from typing import NoReturn

from launcher.program import AWAITED, KEPT, PROVED, Refused, ROOT, say

VERSION = os.path.join(ROOT, "crates", "command_words", "src", "lib.rt")


def build(name: str) -> str:
    return os.path.join(ROOT, "build", name)


def is_proved() -> bool:
    return subprocess.call([build("is-proved")]) == 0


def printed(*words: str) -> str:
    """What a command prints."""
    return subprocess.run(words, stdin=subprocess.DEVNULL, stdout=subprocess.PIPE, check=False).stdout.decode(errors="replace").strip()


def version() -> str:
    """The version of the program that would run now; one that is not made yet has that of its sources."""
    unproved = os.path.join(KEPT, "unproved")
    if is_proved():
        # A release without proofs, for trials, is installed as a proved one is, and its program says what it is.
        said = printed(PROVED, "--version")
        return said if said.endswith("unproved") else f"{said}, proved"
    if os.access(unproved, os.X_OK):
        return printed(unproved, "--version")
    with open(VERSION, encoding="utf-8") as file:
        found = re.search(r'^const VERSION: &str = "(.*)";$', file.read(), re.M)
    return f"forth83 {found.group(1) if found else ''}, not built yet"


def made(how: str) -> str:
    """The path of the program, which is built if it has to be; how is `proved`, `unproved`, or empty."""
    if how == "unproved":
        path = Unproved().path
        say("UNPROVED: nothing is proved about this program; ./forth --proved proves and builds it first.")
        return path
    if is_proved() or how == "proved" and subprocess.call([build("prove")], stdin=subprocess.DEVNULL) == 0:
        greet()
        return PROVED
    if how == "proved":
        raise Refused("")
    path = Unproved().path
    begin_proof()
    return path


def greet() -> None:
    """Says once that the proof that an earlier session began is done."""
    try:
        os.unlink(AWAITED)
        say("this program is proved now; ./forth --status says more.")
    except OSError:
        pass


def begin_proof() -> None:
    """Has the proof made in the background, after this session."""
    done = subprocess.run([build("prove"), "--meanwhile"], stdin=subprocess.DEVNULL, stdout=subprocess.DEVNULL, stderr=subprocess.PIPE, check=False)
    if done.returncode == 0:
        with open(AWAITED, "w", encoding="ascii"):
            pass
        say("this program is not proved yet. Its proof runs in the background; ./forth --status shows how far it is.")
    else:
        os.write(2, done.stderr)
        say("this program is not proved.")


class Unproved:
    """The program without proofs, which is built now if there is none: beside the images or, if nothing can be kept there, in a folder
    that stays until the system removes it."""

    def __init__(self) -> None:
        self.path = os.path.join(KEPT, "unproved")
        if not os.path.exists(build("unproved")):  # an installation has it not
            raise Refused("there is no program without proofs here: its sources do not exist")
        if not self._is_kept():
            try:
                self.path = os.path.join(tempfile.mkdtemp(), "unproved")
            except OSError:
                say(f"cannot make a folder in {tempfile.gettempdir()}: make room there, or set TMPDIR to another folder")
                raise Refused("") from None
        with tempfile.TemporaryFile() as said:
            self._build(said.fileno())
            said.seek(0)
            os.write(2, said.read())
        if self._status:
            raise Refused("")

    def _is_kept(self) -> bool:
        """Whether the program can be kept in the tree, or exists already."""
        try:
            os.makedirs(KEPT, exist_ok=True)
        except OSError:
            pass
        if os.path.isdir(KEPT) and os.access(KEPT, os.W_OK):
            return True
        try:
            with open(self.path + ".sum", encoding="ascii") as file:
                return file.read().strip() == printed(build("sources"), "sum")
        except OSError:
            return False

    def _build(self, said: int) -> None:
        """Runs build/unproved, in a session of its own, which ends whole if this process is to end."""
        before = {number: signal.signal(number, _leave) for number in (signal.SIGINT, signal.SIGTERM, signal.SIGHUP)}
        running = subprocess.Popen([build("unproved"), self.path], stdin=subprocess.DEVNULL, stderr=said, start_new_session=True)
        try:
            self._show(running)
            self._status = running.wait()
        except SystemExit:
            os.killpg(running.pid, signal.SIGTERM)
            raise
        finally:
            for number, handler in before.items():
                signal.signal(number, handler)

    def _show(self, running: subprocess.Popen[bytes]) -> None:
        """Says that it is built, and shows the seconds, at a terminal each, else each thirtieth. It makes a folder, of which it keeps the name,
        when it begins to build; before that it compares the sums of the sources, which takes a while on a busy machine."""
        while running.poll() is None and not os.path.exists(self.path + ".room"):
            time.sleep(0.01)
        if running.poll() is None:
            say(f"building the program without its proofs, which takes {duration()}")
        is_shown, seconds = os.isatty(2), 0
        while running.poll() is None:
            if is_shown:
                os.write(2, b"\rforth: %d seconds so far\033[K" % seconds)
            seconds += 1
            if not is_shown and seconds % 30 == 0:
                say(f"{seconds} seconds so far")
            try:
                running.wait(1)
            except subprocess.TimeoutExpired:
                pass
        if is_shown and seconds:
            os.write(2, b"\r\033[K")


def _leave(number: int, _: object) -> NoReturn:
    sys.exit(128 + number)


def duration() -> str:
    """How long the program without proofs takes, of build/times."""
    with open(build("times"), encoding="utf-8") as file:
        found = re.search(r"^unproved (\d+) (\d+)", file.read(), re.M)
    if not found:
        return "some minutes"
    return f"{found.group(2)} minute{'s' * (found.group(2) != '1')} on {found.group(1)} processors"
