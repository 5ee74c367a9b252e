"""The command line that the checks share: the program that they try, and for some how many random cases."""
import argparse
import dataclasses
import pathlib
from typing import NamedTuple, Optional


class Count(NamedTuple):
    """How many random cases a check tries: the argument's name, what it counts, and how many if it is not given."""

    name: str
    what: str
    default: int


@dataclasses.dataclass(frozen=True)
class Asked:
    """What a check is asked to try."""

    program: pathlib.Path
    count: int


def read(doc: Optional[str], count: Optional[Count] = None) -> Asked:
    """Reads the command line of a check, whose docstring begins with what it does; ends with status 2 if it is wrong."""
    words = argparse.ArgumentParser(description=(doc or "").partition("\n\n")[0])
    words.add_argument("program", type=pathlib.Path, metavar="PROGRAM", help="a built forth83, proved or not")
    if count:
        words.add_argument("count", type=int, nargs="?", default=count.default, metavar=count.name, help=f"{count.what} [default: {count.default}]")
    asked = words.parse_args()
    if not asked.program.is_file():
        words.error(f"there is no program {asked.program}")
    return Asked(asked.program.resolve(), asked.count if count else 0)
