"""The services that words of the machine ask their host for: the one table of their numbers.

A text of screens/tools names a service between two @, as in `@SEE@ SERVE`; `image` puts the number there. A word that asks stores the
number in the cell SERVICE and executes KEY; the host answers with 0, or with the fault that it refuses by, and may put two numbers into
the cells FIRST and SECOND. Images that were saved have these numbers: a new name comes last. `tests/sessions/check-served --sources` holds this table
against the texts and against the functions of `services`.
"""
from __future__ import annotations

SERVICE, FIRST, SECOND, MARK = 56, 58, 60, 62
HOST = 83  # what the cell MARK holds where there is a host

# The name of each service; its number is its place, from 1 on. Each but PROMPT, which asks for a line, has a function in `services`.
NAMES = (
    "PROMPT",
    "UNCLOSED",
    "INCLUDE",
    "INCLUDED",
    "RELOAD",
    "LIST",
    "INDEX",
    "SEARCH",
    "RETYPE",
    "EDIT",
    "ED",
    "SAVE",
    "BYE-WITH",
    "EMPTY",
    "SEE",
    "VIEW",
    "LOCATE",
    "WORDS",
    "HELP",
    "DUMP",
    "VERSION",
    "MS",
    "KEY?",
    "EKEY",
    "ARGUMENT",
    "ENVIRONMENT",
    "UNDO",
    "WHY",
    "DEBUG",
    "BREAK-AT",
    "FAULT-TEXT",
    "REPORT",
    "REQUIRE",
    "SKIP",
    "EVALUATE",
    "CATCH",
    "CAUGHT",
    "THROW",
    "TICKS",
    "PROFILE",
    "PLACE",
    "NO-LINE",
    "NO-FIT",
    "LINE-LOST",
    "DATE",
    "CLOCK",
    "SAVE-IMAGE",
    "PORT-FETCH",
    "PORT-STORE",
    "UPDATE",
)
PROMPT = 1
OWN = 100  # numbers from here on are services that a host registers itself


def numbers() -> dict[str, int]:
    return {name: number for number, name in enumerate(NAMES, 1)}


def function_name(name: str) -> str:
    """The function of `services` that does a service."""
    return "do_" + name.lower().replace("-", "_").replace("?", "_is_there")
