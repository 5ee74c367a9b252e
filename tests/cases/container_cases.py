"""Containers of other systems as cases of tests/cases/container_cases.txt, over the terminal's `import` and `export`, the program's `unpack` and `pack`,
the C library and the page."""
from __future__ import annotations

import ast
import ctypes
import functools
import hashlib
import pathlib
from typing import Any, Callable, Iterator, NamedTuple, Tuple

from tally import Must

TEXT = pathlib.Path(__file__).resolve().parent / "container_cases.txt"
Expect = Callable[[str, object, object], object]


class Case(NamedTuple):
    """A line: what is called, with which options, on which bytes, and what is wanted. `second` are the blocks that are written."""

    call: str
    options: str
    recipe: str
    data: bytes
    second: bytes
    wanted: str


def noise(seed: int, size: int, least: int, count: int) -> bytes:
    """Bytes of a linear congruential generator, from `least` on, of so many values."""
    made = bytearray()
    for _ in range(size):
        seed = (seed * 1103515245 + 12345) % 2**31
        made.append(least + (seed >> 16) % count)
    return bytes(made)


@functools.lru_cache(maxsize=None)
def piece(text: str) -> bytes:
    """A piece of a recipe: a text in quotes, which may be repeated, bytes as hexadecimal digits, noise, or ink, which is noise that is seen."""
    word, *rest = text.split()
    if word in ("noise", "ink"):
        return noise(int(rest[0]), int(rest[1]), 0 if word == "noise" else 33, 256 if word == "noise" else 94)
    if word == "hex":
        return bytes.fromhex(rest[0])
    count, _, quoted = text.rpartition(" x ")
    return int(count or "1") * ast.literal_eval(f"b{quoted}")


def made(recipe: str) -> bytes:
    return b"".join(piece(part.strip()) for part in recipe.split(" + ")) if recipe.strip() != "-" else b""


def cases() -> Iterator[Case]:
    """All of them. Of `writes` the third field is the container, and after an arrow are the blocks."""
    for line in TEXT.read_text(encoding="ascii").split("\n"):
        if line and not line.startswith("#"):
            call, options, recipe, wanted = line.split(" | ")
            first, _, second = recipe.partition(" <- ")
            yield Case(call, "" if options == "-" else options, recipe, made(first), made(second) if second else b"", wanted)


def told(first: int, blocks: bytes) -> str:
    """Blocks as cases have them: the first one's number, how many they are, and a sum."""
    return f"{first} {len(blocks) // 1024} {summed(blocks)}"


def summed(data: bytes) -> str:
    return hashlib.sha256(data).hexdigest()[:16]


def matches(case: Case, got: str) -> bool:
    """Whether an answer is the one that is wanted; of a sentence the wanted one is a piece."""
    return got.startswith("refused: ") and case.wanted in got if case.call in ("refused", "unwritten") else got == case.wanted


def in_c(calls: Any, case: Case) -> str:
    """What the C library answers."""
    said, said_size, size, first = ctypes.create_string_buffer(512), ctypes.c_uint64(), ctypes.c_uint64(), ctypes.c_uint16()
    words, told_in = (case.options.encode(), ctypes.c_uint64(len(case.options))), (said, ctypes.c_uint64(512), ctypes.byref(said_size))
    data = ctypes.create_string_buffer(case.data, max(len(case.data), 1))
    bytes_of_it = (data, ctypes.c_uint64(len(case.data)))
    if case.call == "guessed":
        status, answer = calls.forth83_guess_format(*bytes_of_it, *told_in), lambda: said.raw[: said_size.value].decode()
    elif case.call in ("writes", "unwritten"):
        status = calls.forth83_pack(*words, case.second, ctypes.c_uint64(len(case.second)), *bytes_of_it, *told_in)
        answer = lambda: summed(data.raw[: len(case.data)])  # noqa: E731
    else:
        room = 0
        while True:
            place = ctypes.create_string_buffer(b"\x5a" * (room + 1), room + 1)
            status = calls.forth83_unpack(*words, *bytes_of_it, place, ctypes.c_uint64(room), ctypes.byref(size), ctypes.byref(first), *told_in)
            if status != 3:
                break
            room = size.value
        answer = lambda: told(first.value, place.raw[: size.value])  # noqa: E731
    return answer() if status == 0 else f"refused: {said.raw[:said_size.value].decode()}" if status == 23 else f"status {status}"


def try_library(calls: Any, must: Must) -> int:
    """All cases over the C library: how many there are."""
    count = 0
    for count, case in enumerate(cases(), 1):
        got = in_c(calls, case)
        must(matches(case, got), f"{case.call} {case.options} {case.recipe[:80]}: {got} in place of {case.wanted}")
        must(case.data == b"" or case.call != "unwritten" or got.startswith("refused"), f"{case.recipe}: it was written")
    return count


def at_terminal(folder: Any, case: Case, reads: str, writes: str) -> str:
    """What `import` or `export` makes, or another subcommand that reads or writes."""
    room = pathlib.Path(folder.room)
    (room / "case.blk").unlink(missing_ok=True)
    (room / "case.dsk").write_bytes(case.data)
    if case.call in ("writes", "unwritten"):
        (room / "case.blk").write_bytes(case.second)
        said = folder.run(["./forth83", writes, "case.blk", "case.dsk", *case.options.split()])
        data = (room / "case.dsk").read_bytes()
        return summed(data) if case.call == "writes" or data != case.data else f"refused: {said}"
    said = folder.run(["./forth83", reads, "case.dsk", "case.blk", *case.options.split()])
    if not (room / "case.blk").is_file():
        return f"refused: {said}"
    blocks = (room / "case.blk").read_bytes()
    first = int(case.wanted.split()[0])
    front = blocks[: 1024 * first]
    return told(first, blocks[1024 * first :]) if not front.strip() else "the screens before the first are not blank"


def try_terminal(folder: Any, expect: Expect) -> None:
    """All cases that a terminal has, over the launcher."""
    for case in cases():
        for reads, writes in (("import", "export"), ("unpack", "pack")):
            if case.call in ("reads", "writes"):
                expect(f"{reads}: {case.call} {case.options} {case.recipe[:80]}", case.wanted, at_terminal(folder, case, reads, writes))
            elif case.call in ("refused", "unwritten"):
                got = at_terminal(folder, case, reads, writes)
                is_said = reads == "import" or "--width" in case.options or "--format tape" in case.options or case.wanted in got
                expect(f"{reads}: {case.options} {case.recipe[:80]}: {got}", ("refused", True), (got[:7], is_said))


def try_page(asks: Callable[[str, bytes], Tuple[int, bytes, str]], must: Must) -> int:
    """The cases that a page reads, by `asks`: the number of the first block and the blocks, or why they are not read. How many there are."""
    read = [case for case in cases() if case.call in ("reads", "refused")]
    for case in read:
        first, blocks, wrong = asks(case.options, case.data)
        got = f"refused: {wrong}" if wrong else told(first, blocks)
        must(matches(case, got), f"{case.options} {case.recipe[:80]}: the page has {got} in place of {case.wanted}")
    return len(read)
