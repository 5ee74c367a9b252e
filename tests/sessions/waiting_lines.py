"""A signal comes where its exception is dropped, or while a terminal holds a write.

    waiting_lines.py COMMANDS SIGNAL begin|complete    shows what ended the wait for a line, and whether the function was done whole
    waiting_lines.py COMMANDS SIGNAL hold              shows that the write has ended
"""
import _thread
import os
import readline
import signal
import sys
import termios
import time

sys.path.insert(0, sys.argv[1])

from served.output import Output  # noqa: E402
from served.prompt import Ended, Interrupted, Signals, Terminal  # noqa: E402


def raised() -> None:
    os.kill(os.getpid(), getattr(signal, sys.argv[2]))


def raise_soon() -> None:
    time.sleep(0.5)
    raised()


class LateHold(Output):
    """^S comes between the look at the terminal and the write."""

    def is_held(self, stream: int) -> bool:
        termios.tcflow(stream, termios.TCOOFF)
        return False


def hold(signals: Signals) -> None:
    _thread.start_new_thread(raise_soon, ())
    LateHold(False, signals).write(1, b"is held")
    termios.tcflow(1, termios.TCOON)
    print("Given up", flush=True)


def wait_for_line(signals: Signals) -> None:
    done = []

    def names() -> "list[str]":
        raised()
        done.append("whole")
        return ["DUP"]

    terminal = Terminal(signals, names)
    if sys.argv[3] == "begin":
        readline.set_pre_input_hook(raised)
    os.write(1, b"waits\n")
    try:
        terminal.line(b"", False)
    except (Ended, Interrupted) as error:
        print(type(error).__name__, *done, flush=True)


if sys.argv[3] == "hold":
    hold(Signals())
else:
    wait_for_line(Signals())
