"""What is known of words and memory: lists of words, the kinds of those that SEE has no source for, and the system's sources."""
from __future__ import annotations

import os
from typing import Iterable, Iterator, Sequence

from served import image
from served.faults import plain, section
from served.target import CONTEXT, FENCE, FORTH_VOC, TOP, Target
from served.wire import cell_at, Header
from system_cells import CONSTANT, VARIABLE, VOCABULARY

WIDTH = 64
LONGEST_CHAIN = 32768
PRIMITIVES = 5  # codes from here on to 255 are the kernel's own
HELP = "\n".join(text for where, text in section("help") if where != "page")


def visible(target: Target, vocabularies: Sequence[int] = ()) -> list[Header]:
    """The words that a line finds, or those of these vocabularies, the newest first: of words of the same name only the newest one."""
    memory = target.wire.memory(0, TOP)
    by_link = {header.token - 3 - len(header.name): header for header in target.wire.headers()}
    found: dict[bytes, tuple[int, Header]] = {}
    for vocabulary in vocabularies or (cell_at(memory, CONTEXT), FORTH_VOC):
        for link in links(memory, vocabulary):
            header = by_link.get(link)
            if header and not header.is_hidden and header.name not in found:
                found[header.name] = (link, header)
    return [header for _, header in sorted(found.values(), key=lambda pair: -pair[0])]


def names(target: Target) -> list[str]:
    """The names that a line finds, for completion."""
    return [plain(header.name) for header in visible(target)]


def links(memory: bytes, vocabulary: int) -> Iterator[int]:
    """The link fields of a vocabulary's four chains, of each the newest first."""
    for head in range(vocabulary, vocabulary + 8, 2):
        link, left = cell_at(memory, head), LONGEST_CHAIN
        while link and left:
            yield link
            link, left = cell_at(memory, link), left - 1


def listed(headers: Iterable[Header], part: str) -> str:
    """The names, or those with a part, in lines of no more than WIDTH columns."""
    lines = [""]
    for header in headers:
        name = plain(header.name)
        if part.upper() in name.upper():
            if lines[-1] and len(lines[-1]) + len(name) >= WIDTH:
                lines.append("")
            lines[-1] += name + " "
    return "\n".join(lines) + "\n"


def kind(target: Target, name: bytes) -> str:
    """What a word is that is no colon word."""
    token = target.wire.token(name)
    code, body = target.wire.cells_at(token, 2)
    if code == VARIABLE:
        return f"a variable at {token + 2}, holding {body}"
    if code == CONSTANT:
        return f"a constant, {body}"
    if code == VOCABULARY:
        return f"a vocabulary at {token + 2}"
    if PRIMITIVES <= code <= 255:
        return f"primitive {code}"
    maker = [header for header in target.wire.headers() if header.token < code]
    return f"made by {os.fsdecode(maker[-1].name)}, with {body} first" if maker else f"code {code}"


def place_of(target: Target, view: int, token: int) -> str:
    """Where a word was made."""
    place = target.texts.place(view)
    if place:
        return f"{place.name}:{place.number}"
    if token < target.wire.cell(FENCE):
        return "a word of the system"
    return f"screen {view}" if view else "typed"


def system_source(images: str, number: int, part: str = "") -> str:
    """A screen of the system, or its lines that have a name: IMAGES is the folder of the image that runs."""
    path, text = image.system(images).get(str(number), ("", ""))
    shown = [line for line in text.splitlines() if part in line]
    return "\n".join([f"{path}, screen {number}", *shown]) + "\n" if path else "a word of the system\n"


def dump(memory: bytes, address: int) -> str:
    """Memory in lines of 16 bytes, in hexadecimal and as characters."""
    lines = []
    for at in range(0, len(memory), 16):
        row = memory[at : at + 16]
        shown = "".join(chr(byte) if 32 <= byte <= 126 else "." for byte in row)
        lines.append(f"{(address + at) & 0xFFFF:5X} " + "".join(f"{byte:02X} " for byte in row) + shown)
    return "\n".join(lines) + "\n"
