"""How commands end: quietly if the program that reads what they print ends first, as `head` does; with one kind of sentence if their words
are wrong."""
import argparse
import os
import sys
from typing import Callable, NoReturn

READER_ENDED = 141  # the status that a shell reports of a command that SIGPIPE ended


def status_of(act: Callable[[], int]) -> int:
    """What `act` returns, or READER_ENDED if nobody reads what it prints any more."""
    try:
        try:
            return act()
        finally:
            sys.stdout.flush()
    except BrokenPipeError:
        os.dup2(os.open(os.devnull, os.O_WRONLY), sys.stdout.fileno())
        return READER_ENDED


class Parser(argparse.ArgumentParser):
    """Reads a command line."""

    def error(self, message: str) -> NoReturn:
        self.exit(2, f"forth: {message}; {self.prog} --help says more\n")
