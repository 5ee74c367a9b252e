"""Texts of screens as cases of tests/cases/text_cases.txt, and random ones, over the program's `screens`, the C library and the page; and their
headings, as cases of tests/cases/heading_cases.txt, over the program."""
from __future__ import annotations

import ctypes
import pathlib
import random
import re
import subprocess
import tempfile
from typing import Any, Callable, Dict, Iterator, List, NamedTuple, Tuple

from tally import Must

HERE = pathlib.Path(__file__).resolve().parent
PAGE = 1024
CAUSES = ("OutOfMemory", "BadEscape", "LongLine", "FullScreen", "BadHeading", "LateHeading", "NamedTwice", "NoScreen")
# Of what random texts are made.
MARKED = (b"% screen 1", b"% screen 2", b"% screen 3 ", b"% screen 03", b"%x", b"%%x", b"%~a~41", b"%~~")
LINES = (*MARKED, b"", b" ", b"\t", b"x\ty", b": A 1 ;", b"(\xc3\xa4)", b"64 " * 22, b"~41", b"\x1a", b"%", b"% screen 65535")
Reads = Callable[[bytes], str]


class Case(NamedTuple):
    """A text, and the answer that is wanted."""

    text: bytes
    wanted: str


def piece(text: str) -> bytes:
    """`'bytes'`, or `N x PIECE`, where the piece may be a sum in parentheses."""
    count, _, rest = text.strip().rpartition(" x ") if not text.strip().endswith(")") else text.strip().partition(" x ")
    if rest.startswith("("):
        return int(count) * made(rest[1:-1])
    return int(count or "1") * eval(f"b{rest}", {})  # a literal of the file of cases


def made(recipe: str) -> bytes:
    """Pieces with + between them."""
    return b"".join(map(piece, re.split(r" \+ (?![^(]*\))", recipe)))


def answer_of(screens: Dict[int, bytes]) -> str:
    """Screens as an answer."""
    return " ".join(f"{number} {page.rstrip(b' ')!r}" for number, page in screens.items())


def wanted_of(text: str) -> str:
    """The answer that a case wants."""
    if text.startswith("line "):
        return text
    found = re.findall(r"(?:^| )(\d+) ((?:\d+ x )?(?:'[^']*'|\((?:[^)]*)\))(?: \+ (?:\d+ x )?(?:'[^']*'|\([^)]*\)))*)", text)
    return answer_of({int(number): made(recipe) for number, recipe in found})


def lines_of(name: str) -> Iterator[List[str]]:
    """The texts of a file of cases, each with what is wanted."""
    for line in (HERE / name).read_text(encoding="ascii").split("\n"):
        if line and not line.startswith("#"):
            yield re.split(r" =>(?: |$)", line)


def cases() -> List[Case]:
    """Texts, each with its screens, or why it is refused."""
    return [Case(made(text), wanted_of(wanted)) for text, wanted in lines_of("text_cases.txt")]


def heading_cases() -> List[Case]:
    """Texts, each with its headings."""
    return [Case(made(text), wanted) for text, wanted in lines_of("heading_cases.txt")]


def random_texts(count: int, seed: int) -> Iterator[bytes]:
    chance = random.Random(seed)
    for _ in range(count):
        front = [b"% screen 9"] if chance.random() < 0.8 else []
        lines = front + chance.choices(LINES, k=chance.randrange(12)) + [b"more"] * chance.choice((0, 0, 12))
        yield b"".join(line + chance.choice((b"\n", b"\n", b"\r\n")) for line in lines)


def headings_by_program(program: str) -> Reads:
    """What `headings` prints."""

    def reads(text: bytes) -> str:
        done = subprocess.run([program, "headings", "/dev/stdin"], input=text, stdout=subprocess.PIPE, check=False)
        return ", ".join(done.stdout.decode().splitlines()) if done.returncode == 0 else f"status {done.returncode}"

    return reads


def by_program(program: str) -> Reads:
    """What `screens` puts into a file of blocks; screens that no heading names are those from 1 on."""
    headings = headings_by_program(program)

    def reads(text: bytes) -> str:
        with tempfile.TemporaryDirectory() as room:
            source, blocks = pathlib.Path(room, "text"), pathlib.Path(room, "blocks")
            source.write_bytes(text)
            done = subprocess.run([program, "screens", "--", source, blocks], stdout=subprocess.PIPE, check=False)
            if done.returncode:
                return done.stdout.decode().strip().replace(":", "")
            content = blocks.read_bytes() if blocks.exists() else b""
        named = [int(heading.split()[0]) for heading in headings(text).split(", ") if heading]
        return answer_of({number: content[PAGE * number : PAGE * (number + 1)] for number in named or range(1, len(content) // PAGE)})

    return reads


def by_library(calls: Any) -> Reads:
    """What forth83_screens answers."""

    def reads(text: bytes) -> str:
        most = text.count(b"\n") + 1
        numbers, pages = (ctypes.c_uint16 * most)(), ctypes.create_string_buffer(PAGE * most)
        count, line, cause = ctypes.c_uint64(), ctypes.c_uint64(), ctypes.c_uint16()
        words = text, ctypes.c_uint64(len(text)), numbers, ctypes.c_uint64(most), pages, ctypes.c_uint64(PAGE * most)
        status = calls.forth83_screens(*words, ctypes.byref(count), ctypes.byref(line), ctypes.byref(cause))
        if status == 23:
            return f"line {line.value} " + (CAUSES[cause.value] if cause.value < 256 else f"BadByte {cause.value - 256}")
        return answer_of({numbers[at]: pages.raw[PAGE * at : PAGE * (at + 1)] for at in range(count.value)}) if status == 0 else f"status {status}"

    return reads


def written_by(calls: Any, number: int, page: bytes) -> Tuple[int, bytes]:
    """The status of forth83_text, and the text."""
    room, size = ctypes.create_string_buffer(3200), ctypes.c_uint64()
    status = calls.forth83_text(ctypes.c_uint16(number), page, ctypes.c_uint64(len(page)), room, ctypes.c_uint64(3200), ctypes.byref(size))
    return status, room.raw[: size.value]


def try_cases(what: str, reads: Reads, must: Must, tried: List[Case]) -> int:
    """All these cases: how many there are."""
    for case in tried:
        got = reads(case.text)
        must(got == case.wanted, f"{what}: {case.text!r}: {got} in place of {case.wanted}")
    return len(tried)


def try_alike(texts: List[bytes], one: Reads, other: Reads, must: Must) -> None:
    """Two readers give the same answers."""
    for text in texts:
        answers = one(text), other(text)
        must(answers[0] == answers[1], f"{text!r} is read as {answers[0]} and as {answers[1]}")
