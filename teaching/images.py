"""What is in the memory of an image: headers, vocabularies, and where each word ends. The program reads the file, finds the headers and looks
names up, as a server (docs/FORMATS.md, "Frames"); docs/MACHINE.md has the memory map.
"""
import bisect
import pathlib
from typing import Dict, Iterator, List, Optional, Tuple

import program
import texts
from rows import COLON
from served import wire
from system_cells import BASE, BLK, CONTEXT, CURRENT, DP, FAULT, FENCE, FORTH_VOC, HLD, LAST, NUMBER_TIB, SCR, SPAN, STATE, TIB, TO_IN, VOC_LINK  # noqa: F401

MEMORY = 65536
PAGE = 1024
TIB_END, DICTIONARY = 256, 256
CELLS = {
    STATE: "STATE",
    BASE: "BASE",
    TO_IN: ">IN",
    BLK: "BLK",
    NUMBER_TIB: "#TIB",
    SPAN: "SPAN",
    DP: "DP",
    LAST: "LAST",
    CONTEXT: "CONTEXT",
    CURRENT: "CURRENT",
    HLD: "HLD",
    SCR: "SCR",
    FAULT: "FAULT",
    VOC_LINK: "VOC-LINK",
    FENCE: "FENCE",
}
CHAIN_TOO_LONG = 5  # a server's cause
CAUSES = {
    "BadMagic": "it does not begin like an image; ./forth --image makes one, and so does ./forth83 load",
    "BadVersion": "its version is neither 1 nor 2",
    "BadBuffers": "it does not have 2 to 16 block buffers",
    "BadSize": "its size does not fit in memory",
    "TrailingBytes": "it has bytes after its end",
    "Truncated": "it ends too soon",
    "ChainTooLong": "a chain of its words never ends",
}


class BadImage(program.Refusal):
    """Why a file is no image: its cause, as the program spells it."""

    def reason(self) -> str:
        """The cause in words."""
        return f"{CAUSES[str(self)]} ({self})" if str(self) in CAUSES else str(self)


class Memory:
    """65,536 bytes; addresses wrap."""

    def __init__(self, content: bytes) -> None:
        self.bytes = content

    def byte(self, address: int) -> int:
        return self.bytes[address & 0xFFFF]

    def cell(self, address: int) -> int:
        return self.byte(address) | self.byte(address + 1) << 8

    def span(self, address: int, count: int) -> bytes:
        return bytes(self.byte(address + step) for step in range(count))


class Header:
    """A word's header, known by the address of its link field."""

    def __init__(self, memory: Memory, word: wire.Header) -> None:
        self.name, self.view, self.code = word.name, word.view, word.code
        self.is_immediate, self.is_hidden = word.is_immediate, word.is_hidden
        self.code_field = word.token
        self.link_field = (word.token - len(word.name) - 3) & 0xFFFF
        self.begins, self.body = (self.link_field - 2) & 0xFFFF, (word.token + 2) & 0xFFFF
        self.link = memory.cell(self.link_field)
        self.end = 0

    def is_colon(self) -> bool:
        return self.code == COLON

    def chain(self) -> int:
        """The number of its chain: the first byte of its name, modulo 4; an empty name is in none."""
        return self.name[0] & 3 if self.name else 0


class Image:
    """An image that a server has loaded and does not run: its size as a file, its memory, its headers by their addresses, its vocabularies."""

    def __init__(self, forth83: program.Program, path: pathlib.Path) -> None:
        self.size = path.stat().st_size
        self._server = wire.Wire([str(forth83.path), "serve", "--", str(path)], lambda _: None)
        state = self._server.state()
        self.buffers, self.entry = len(state.buffers), state.pending or 0
        self.memory = Memory(self._server.memory(0, MEMORY))
        self.headers = sorted(self._listed(), key=lambda header: header.link_field)
        self.by_code_field: Dict[int, Header] = {}
        for header in self.headers:
            self.by_code_field.setdefault(header.code_field, header)
        self._set_ends()

    def __enter__(self) -> "Image":
        return self

    def __exit__(self, *_: object) -> None:
        self._server.close()

    def limit(self) -> int:
        """Where the block buffers begin."""
        return MEMORY - PAGE * self.buffers

    def used(self) -> int:
        """Where the bytes that are not 0 end, below the block buffers."""
        return len(self.memory.bytes[: self.limit()].rstrip(b"\0"))

    def _listed(self) -> Iterator[Header]:
        try:
            yield from (Header(self.memory, word) for word in self._server.headers())
        except wire.Refused as why:
            raise BadImage("ChainTooLong" if why.cause == CHAIN_TOO_LONG else "it has too many words to list") from why

    def _records(self) -> Iterator[int]:
        """The records of the vocabularies, the newest first. They end, since the server has listed their words."""
        at = self.memory.cell(VOC_LINK)
        while at:
            yield at
            at = self.memory.cell(at + 8)

    def _set_ends(self) -> None:
        """A word ends where the next header begins, or at HERE."""
        beginnings = sorted(header.begins for header in self.headers)
        for header in self.headers:
            at = bisect.bisect_left(beginnings, header.body)
            header.end = beginnings[at] if at < len(beginnings) else self.memory.cell(DP)

    def owners(self) -> Dict[int, Header]:
        """The colon word in whose thread each address lies."""
        found: Dict[int, Header] = {}
        for header in filter(Header.is_colon, self.headers):
            found.update((address, header) for address in range(header.body, header.end))
        return found

    def find(self, name: bytes) -> Optional[Header]:
        """The header that the machine's own search of the name comes to."""
        try:
            return self.by_code_field.get(self._server.token(name))
        except wire.Refused:
            return None

    def name_of(self, code_field: int) -> bytes:
        """The name that a token has in a trace."""
        header = self.by_code_field.get(code_field)
        return header.name if header else b"?"

    def _vocabulary_name(self, record: int) -> bytes:
        return b"FORTH" if record == FORTH_VOC else self.name_of((record - 2) & 0xFFFF)

    def vocabularies(self) -> List[Tuple[str, int, List[int]]]:
        """Each vocabulary's name, record, and the link field that begins each of its four chains."""
        return [(texts.shown(self._vocabulary_name(record)), record, [self.memory.cell(record + 2 * number) for number in range(4)]) for record in self._records()]


def opened(forth83: program.Program, path: pathlib.Path) -> Image:
    """The image of a file, which must be one and be readable."""
    with path.open("rb"):  # says why, if it cannot be read
        said = program.said_by(forth83.run(["view", "--", str(path), "-"]))
    if said.startswith("image: "):
        raise BadImage(said.partition(": ")[2])
    return Image(forth83, path)
