"""Which program runs: the one that was proved in this tree; or one without proofs, while the proof is made in the background."""
from __future__ import annotations

import os

ROOT = os.path.dirname(os.path.dirname(os.path.dirname(os.path.realpath(__file__))))
BUILT = os.path.join(ROOT, "crates", "forth83", "out")
PROVED = os.path.join(BUILT, "forth83")
KEPT = os.path.join(ROOT, "build", "out")
AWAITED = os.path.join(KEPT, "awaited")  # the proof of the program began in an earlier session


class Refused(Exception):
    """It cannot be done, and why; nothing if that was said already."""


def say(text: str) -> None:
    os.write(2, os.fsencode(f"forth: {text}\n"))


def named(path: str) -> str:
    """The path of a program that the command line names."""
    if not os.path.isfile(path) or not os.access(path, os.X_OK):
        raise Refused(f"{path}: this is no program that can be run: name a built forth83")
    return path


def find(how: str) -> str:
    """The path of the program; how is `proved`, `unproved`, or empty."""
    if not how and os.access(PROVED, os.X_OK) and os.path.exists(os.path.join(BUILT, "proved")) and not os.path.exists(AWAITED):
        return PROVED
    from launcher import building  # it needs modules that a session does not

    return building.made(how)
