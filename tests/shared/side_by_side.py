"""Runs commands side by side, as many at once as there are processors, shows each as a whole when it has ended, and says how it ended."""
import concurrent.futures
import os
import shlex
import subprocess
import threading
import time
from typing import List, NamedTuple, Sequence

# Commands that take longer than this are shown with their seconds.
LONG = 10


class Ended(NamedTuple):
    """A command that has ended: its words, its status, what it printed, and how many seconds it took."""

    words: List[str]
    status: int
    printed: str
    seconds: float

    def report(self) -> str:
        """What is shown of it; of one that failed, how it is run again alone."""
        line = shlex.join(self.words)
        said = [self.printed.rstrip("\n")] if self.printed.strip() else []
        took = [f"test: {self.words[0]} took {self.seconds:.0f} seconds"] if self.seconds >= LONG else []
        failed = [f"test: FAILED: {line}"] if self.status else []
        return "\n".join([f"test: {line}", *said, *took, *failed])


SHOWING = threading.Lock()


def run(words: List[str]) -> Ended:
    """Runs a command, and shows it as a whole when it has ended."""
    began = time.monotonic()
    try:
        made = subprocess.run(words, stdin=subprocess.DEVNULL, stdout=subprocess.PIPE, stderr=subprocess.STDOUT, check=False)
        status, printed = made.returncode, made.stdout.decode(errors="replace")
    except OSError as error:
        status, printed = 127, str(error)
    ended = Ended(words, status, printed, time.monotonic() - began)
    with SHOWING:
        print(ended.report(), flush=True)
    return ended


def run_all(commands: Sequence[List[str]], at_once: int = 0) -> List[Ended]:
    """Runs these commands, so many at once, in their order. All of them are run, also if one fails."""
    with concurrent.futures.ThreadPoolExecutor(at_once or len(os.sched_getaffinity(0))) as pool:
        return list(pool.map(run, commands))
