"""The terminal of a session: lines by GNU readline, keys, and what signals ask for."""
from __future__ import annotations

import _thread
import contextlib
import io
import os
import select
import signal
import sys
import termios
import time
import unicodedata
from typing import Callable, Iterator, Optional

try:
    import readline
except ImportError:  # some builds of Python have none
    readline = None  # type: ignore[assignment]

GLANCE = 0.3  # seconds after which a signal is seen at the latest
PATIENCE = 1.0  # seconds that readline has to let a signal be seen
KEPT = 10_000  # lines of the history
ENDINGS = (signal.SIGTERM, signal.SIGHUP, signal.SIGQUIT)
KEYS = {  # what EKEY leaves for a sequence
    **{bytes([first, last]): number for first in b"[O" for number, last in enumerate(b"ABCDHF", 257)},
    b"[1~": 261,
    b"[4~": 262,
    b"[2~": 263,
    b"[3~": 264,
    b"[5~": 265,
    b"[6~": 266,
    b"[1;5D": 267,
    b"[1;5C": 268,
}
ESCAPE_ALONE, UNKNOWN_KEY = 269, 256


class Interrupted(Exception):
    """^C was typed while a line or a key was awaited."""


class Ended(Exception):
    """The session is to end, with this status."""

    def __init__(self, status: int) -> None:
        super().__init__(status)
        self.status = status


class Signals:
    """Notes ^C and the signals that end a session; where a line or a key is awaited, they end the wait.

    A signal can come where its exception ends nothing: in a function that readline or `input` calls, which drop it, or just before the
    wait. And Python handles a signal that comes while readline does something else than wait when the next signal comes. So an alarm comes
    every GLANCE seconds of a wait, and asks again. After a signal that ends the session alarms come until it has ended.
    """

    def __init__(self) -> None:
        self.is_waiting = self._is_writing = False
        self._interrupted, self._status = False, 0
        signal.signal(signal.SIGINT, self._on_interrupt)
        for number in ENDINGS:
            signal.signal(number, self._on_ending)
        signal.signal(signal.SIGPIPE, signal.SIG_IGN)
        signal.signal(signal.SIGALRM, self._ask)
        come, comes = os.pipe()
        os.set_blocking(comes, False)
        signal.set_wakeup_fd(comes, warn_on_full_buffer=False)
        _thread.start_new_thread(self._watch, (come, _thread.get_ident()))

    def _watch(self, come: int, session: int) -> None:
        """Within a sequence of keys, as ^R, readline lets nobody see a signal: so its input ends if the session is to end."""
        while not set(os.read(come, 64)) & set(ENDINGS):
            pass
        time.sleep(PATIENCE)
        if not self._status:
            os.dup2(os.open(os.devnull, os.O_RDONLY), 0)
        while True:
            signal.pthread_kill(session, signal.SIGALRM)
            time.sleep(GLANCE)

    def _on_interrupt(self, number: int, _: object) -> None:
        self._interrupted = True
        self._ask()

    def _on_ending(self, number: int, _: object) -> None:
        self._status = 128 + number
        self._ask()

    def _ask(self, *_: object) -> None:
        """Ends a wait, if a signal has come, and a write, if the session is to end."""
        if self.is_waiting:
            self.look()
            if self._interrupted:
                raise Interrupted
        if self._is_writing:
            self.look()

    def take_interrupt(self) -> bool:
        """Whether ^C came since the last call."""
        came, self._interrupted = self._interrupted, False
        return came

    def is_ending(self) -> bool:
        return self._status != 0

    def is_interrupted(self) -> bool:
        return self._interrupted

    def look(self) -> None:
        """Ended, if a signal asks for that."""
        if self._status:
            raise Ended(self._status)

    def wait(self, awaited: Callable[[], bytes]) -> bytes:
        """What is awaited; Interrupted or Ended if a signal comes before."""
        signal.setitimer(signal.ITIMER_REAL, GLANCE, GLANCE)
        try:
            self.is_waiting = True
            self._ask()
            return awaited()
        except SystemError as error:  # input() returned a line, though a signal had raised something in it
            raise (error.__cause__ or error) from None
        finally:
            self.is_waiting = False
            signal.setitimer(signal.ITIMER_REAL, 0)

    def write(self, stream: int, text: bytes) -> int:
        """Writes to a terminal, and returns how many bytes are done with. A terminal can hold them, after ^S: if the session is to end then, they
        are given up."""
        try:
            return self._write(stream, text)
        except Ended:
            return len(text)

    def _write(self, stream: int, text: bytes) -> int:
        self._is_writing = True
        try:
            return os.write(stream, text)
        finally:
            self._is_writing = False

    @contextlib.contextmanager
    def undisturbed(self) -> Iterator[None]:
        """Within a wait: what is done here is done whole, as a talk with the program that runs the Forth."""
        was_waiting, self.is_waiting = self.is_waiting, False
        try:
            yield
        finally:
            self.is_waiting = was_waiting


def history_file() -> str:
    """The file of the lines that were typed; empty if none are kept."""
    return os.environ.get("FORTH_HISTORY", os.path.expanduser("~/.local/state/jaurimet/history"))


class Terminal:
    """The terminal: lines that are edited, and keys."""

    is_script = False

    def __init__(self, signals: Signals, names: Callable[[], list[str]]) -> None:
        self._signals, self._names, self._matches = signals, names, []  # type: Signals, Callable[[], list[str]], list[str]
        self._tty = os.dup(0)  # its settings, also after the input has ended
        self._cooked = termios.tcgetattr(self._tty)
        self._is_raw = False
        self.draft = ""  # what the next line begins with
        self.row = b""  # what the row shows in which the session goes on after a line
        for stream in (sys.stdin, sys.stdout):
            if isinstance(stream, io.TextIOWrapper):
                stream.reconfigure(errors="surrogateescape")
        if readline:
            self._set_up()
        signal.signal(signal.SIGTSTP, self._on_stop)
        self.raw()

    def _set_up(self) -> None:
        readline.set_completer(self._complete)
        readline.set_completer_delims(" ")
        readline.set_auto_history(False)
        readline.parse_and_bind("tab: complete")
        readline.set_pre_input_hook(self._begin)
        if history_file():
            try:
                readline.read_history_file(history_file())
            except OSError:
                pass

    def _begin(self) -> None:
        """A line begins with what was prepared for it."""
        if self.draft:
            readline.insert_text(self.draft)
            readline.redisplay()
            self.draft = ""

    def _complete(self, part: str, at: int) -> Optional[str]:
        with self._signals.undisturbed():
            before = readline.get_line_buffer()[: readline.get_begidx()].upper().split()
            if at == 0 and before and before[-1] in ("INCLUDE", "RELOAD"):
                self._matches = paths(part)
            elif at == 0:
                self._matches = sorted({name for name in self._names() if name.upper().startswith(part.upper())})
            return self._matches[at] if at < len(self._matches) else None

    # Lines and keys

    def line(self, before: bytes, keeps: bool) -> Optional[bytes]:
        """The next line; None at the end of the input. `before` is what the terminal's line shows already."""
        self._show_typing()
        prompt = self._prompt(before.decode(errors="replace"))
        if prompt:
            self._put(b"\r")

        def typed() -> bytes:
            return input(prompt).encode(sys.stdin.encoding, "surrogateescape")

        try:
            line = self._signals.wait(typed)
        except EOFError:
            return None
        finally:
            self.raw()
        if keeps and line and readline:
            self._keep(os.fsdecode(line))
        row = prompt + line.decode(errors="replace")
        joint = join(row)
        self._put(joint)
        self.row = (row + " ").encode(errors="replace") if joint else b""
        return line

    def _put(self, text: bytes) -> None:
        """Writes to the terminal; Ended if the session is to end while ^S holds the output."""
        while not select.select([], [1], [], GLANCE)[1]:
            self._signals.look()
        self._signals.write(1, text)

    @staticmethod
    def _prompt(shown: str) -> str:
        """What the terminal's row shows already, which readline must know."""
        columns = os.get_terminal_size(1).columns or len(shown) + 1
        return shown[len(shown) // columns * columns :] if shown.isprintable() and readline else ""

    @staticmethod
    def _keep(line: str) -> None:
        """Adds a line to the history, and to its file."""
        count = readline.get_current_history_length()
        if count and readline.get_history_item(count) == line:
            return
        readline.add_history(line)
        path = history_file()
        if not path:
            return
        try:
            os.makedirs(os.path.dirname(path) or ".", exist_ok=True)
            if not os.path.exists(path):
                os.close(os.open(path, os.O_CREAT | os.O_WRONLY, 0o600))
            readline.append_history_file(1, path)
        except OSError:
            pass

    def key(self) -> Optional[int]:
        """The next byte that is typed; None at the end of the input."""
        typed = self._signals.wait(lambda: os.read(0, 1))
        return typed[0] if typed else None

    def has_key(self, seconds: float = 0) -> bool:
        return bool(select.select([0], [], [], seconds)[0])

    def whole_key(self) -> Optional[int]:
        """The next key as EKEY leaves it: a byte, or a number for a sequence."""
        first = self.key()
        if first != 27:
            return first
        sequence = b""
        while self.has_key(0.05) and len(sequence) < 8:
            sequence += bytes([self.key() or 0])
            if len(sequence) > 1 and 64 <= sequence[-1] <= 126:
                break
        return KEYS.get(sequence, UNKNOWN_KEY) if sequence else ESCAPE_ALONE

    # The terminal's settings

    def _on_stop(self, number: int, _: object) -> None:
        """^Z: the terminal is as it was before the session, until the session goes on."""
        was_raw = self._is_raw
        self.cook()
        os.kill(os.getpid(), signal.SIGSTOP)
        if was_raw:
            self.raw()

    def raw(self) -> None:
        """Keys come at once, and are not shown before they are read."""
        if not self._is_raw:
            settings = termios.tcgetattr(self._tty)
            settings[3] &= ~(termios.ICANON | termios.ECHO)
            termios.tcsetattr(self._tty, termios.TCSADRAIN, settings)
            self._is_raw = True

    def _show_typing(self) -> None:
        """What is typed is shown: only then readline shows it, too. A ^D stays a byte, which readline takes."""
        if not readline:
            self.cook()
            return
        settings = termios.tcgetattr(self._tty)
        settings[3] |= termios.ECHO
        termios.tcsetattr(self._tty, termios.TCSANOW, settings)
        self._is_raw = False

    def cook(self) -> None:
        termios.tcsetattr(self._tty, termios.TCSANOW, self._cooked)
        self._is_raw = False

    def close(self) -> None:
        """The terminal as it was; the history's file has no more than its last lines."""
        try:
            termios.tcsetattr(self._tty, termios.TCSANOW, self._cooked)  # does not wait for output that the terminal holds
        except termios.error:
            return
        if readline and history_file() and readline.get_current_history_length() > KEPT:
            readline.set_history_length(KEPT)
            try:
                readline.write_history_file(history_file())
            except OSError:
                pass


def join(typed: str) -> bytes:
    """What moves the cursor from the beginning of the next row back to the end of a line that was typed, as on a terminal of a Forth that
    reads keys itself, and shows a blank; nothing if the end of the line is not known for sure."""
    try:
        columns = os.get_terminal_size(1).columns
    except OSError:
        return b""
    width = sum(2 if unicodedata.east_asian_width(character) in "WF" else not unicodedata.combining(character) for character in typed)
    at = width % columns if columns > 1 else 0
    if os.environ.get("TERM", "dumb") == "dumb" or not (typed.isprintable() or not typed) or width and at in (0, columns - 1):
        return b""
    return b"\x1b[A" + (b"\x1b[%dC" % at if at else b"") + b" "


def paths(part: str) -> list[str]:
    """The files and folders whose names begin so."""
    folder, begins = os.path.split(part)
    try:
        found = sorted(name for name in os.listdir(os.path.expanduser(folder) or ".") if name.startswith(begins))
    except OSError:
        return []
    return [os.path.join(folder, name) + "/" * os.path.isdir(os.path.expanduser(os.path.join(folder, name))) for name in found]
