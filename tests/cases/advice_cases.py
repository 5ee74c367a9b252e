"""The cases of advice_cases.txt, of what is said of a fault: over the program, the C library and the page."""
import ctypes
import pathlib
import subprocess
from typing import Any, Callable, List, NamedTuple

from tally import Must

FILE = pathlib.Path(__file__).resolve().parent / "advice_cases.txt"
ROOM, SHORT_ROOM, REFUSED = 4096, 3, 23
FILLED = b"\x5a"  # what a room has before a call


class Case(NamedTuple):
    """A case: what it tries, its text, and what is said of it: `= ANSWER`, or `! CAUSE` if it is refused."""

    title: str
    text: str
    wanted: str


def case(part: str) -> Case:
    """The case of a part of the file."""
    title, *lines, wanted = part.rstrip("\n").split("\n")
    assert wanted[:1] in ("=", "!"), f"{title}: no answer"
    return Case(title, "".join(f"{line}\n" for line in lines), wanted)


def cases() -> List[Case]:
    """All of them."""
    return [case(part) for part in FILE.read_text(encoding="ascii").split("\n% ")[1:]]


def said(answer: str) -> str:
    """An answer as cases have it."""
    return f"= {answer}" if answer else "="


def by_program(program: str, one: Case) -> str:
    """What the subcommand prints."""
    done = subprocess.run([program, "advise", "/dev/stdin"], input=one.text.encode(), stdout=subprocess.PIPE, check=False)
    text = done.stdout.decode()
    if done.returncode == 0 and text.endswith("\n"):
        return said(text[:-1])
    return f"! {text[6:-1]}" if done.returncode == 1 and text.startswith("case: ") else f"status {done.returncode}, {text}"


def in_c(calls: Any, one: Case, room: int = ROOM) -> str:
    """What the C library says."""
    text, place, size = one.text.encode(), ctypes.create_string_buffer(FILLED * ROOM, ROOM), ctypes.c_uint64(77)
    status = calls.forth83_advise(text, ctypes.c_uint64(len(text)), place, ctypes.c_uint64(room), ctypes.byref(size))
    if status:
        is_left = place.raw == FILLED * ROOM
        return f"status {status}, {size.value}" if is_left else f"status {status}, and the room was written"
    is_beside = place.raw[size.value :] == FILLED * (ROOM - size.value)
    return said(place.raw[: size.value].decode()) if is_beside else "more than the answer was written"


def try_program(program: str, must: Must) -> int:
    """All cases over the program: how many there are."""
    for one in cases():
        got = by_program(program, one)
        must(got == one.wanted, f"advise, {one.title}: {got} in place of {one.wanted}")
    return len(cases())


def try_library(calls: Any, must: Must) -> int:
    """All cases over the C library, of each answer also that it fits its own size and no smaller one: how many there are."""
    for one in cases():
        got, size = in_c(calls, one), len(one.wanted[2:])
        wanted = one.wanted if one.wanted[0] == "=" else f"status {REFUSED}, 77"
        must(got == wanted, f"forth83_advise, {one.title}: {got} in place of {wanted}")
        must(got != one.wanted or in_c(calls, one, size) == wanted, f"forth83_advise, {one.title}: a room that is just large enough")
        short = in_c(calls, one, size - 1) if size and got == one.wanted else ""
        must(not short or short == f"status {SHORT_ROOM}, {size}", f"forth83_advise, {one.title}: a room that is too small: {short}")
    return len(cases())


def try_page(says: Callable[[List[List[str]]], str], must: Must) -> int:
    """All cases that have an answer over the page, which gives the lines of a case to a function: how many there are."""
    answered = [one for one in cases() if one.wanted[0] == "="]
    for one in answered:
        lines = [list(line.partition(" ")[::2]) for line in one.text.splitlines()]
        got = said(says(lines))
        must(got == one.wanted, f"the page, {one.title}: {got} in place of {one.wanted}")
    return len(answered)
