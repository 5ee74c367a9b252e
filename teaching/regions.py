"""The regions of an image's memory, in the order of their addresses, and the differences of two images."""
from typing import Dict, List, Optional, Tuple

import images
import rows

KINDS = {rows.COLON: "thread", rows.VARIABLE: "data", rows.CONSTANT: "data", rows.VOCABULARY: "record"}
WHAT = {rows.COLON: "colon word", rows.VARIABLE: "variable", rows.CONSTANT: "constant", rows.VOCABULARY: "vocabulary"}


class Region:
    """Bytes from an address up to another, of one kind."""

    def __init__(self, begins: int, end: int, kind: str, header: Optional[images.Header] = None) -> None:
        self.begins, self.end, self.kind, self.header = begins, end, kind, header

    def size(self) -> int:
        return self.end - self.begins


class Map:
    """An image with its dictionary, and the regions of its memory."""

    def __init__(self, name: str, image: images.Image) -> None:
        self.name, self.image = name, image
        self.here, self.limit = image.memory.cell(images.DP), image.limit()
        self.top = max(image.used(), min(self.here, self.limit))
        self.words = [header for header in image.headers if images.DICTIONARY <= header.begins < self.limit]

    def outline(self) -> List[Tuple[int, int, str, str]]:
        """All of memory in a few regions, each with a description."""
        rows = [
            (0, images.TIB, "system", "system cells"),
            (images.TIB, images.TIB_END, "tib", "TIB, the line that is typed"),
            (images.DICTIONARY, self.top, "words", "the dictionary"),
            (self.top, self.limit, "free", "free room"),
        ]
        for slot in range(self.image.buffers):
            begins = self.limit + images.PAGE * slot
            rows.append((begins, begins + images.PAGE, "buffer", f"block buffer {slot}"))
        return rows

    def regions(self) -> List[Region]:
        """The dictionary's regions: each word's header, its code field and what follows it; and the bytes between that belong to no word."""
        found, at = [], images.DICTIONARY
        for header in self.words:
            if header.begins > at:
                found.append(Region(at, header.begins, "other"))
            if header.begins >= at:
                found += parts_of(header)
                at = max(header.end, header.body)
        if self.top > at:
            found.append(Region(at, self.top, "other"))
        return [region for region in found if region.size() > 0]

    def at_link_field(self) -> Dict[int, images.Header]:
        return {header.link_field: header for header in self.image.headers}


def parts_of(header: images.Header) -> List[Region]:
    kind = KINDS.get(header.code, "data")
    return [Region(header.begins, header.code_field, "header", header), Region(header.code_field, header.body, "code", header), Region(header.body, header.end, kind, header)]


def what(header: images.Header) -> str:
    """What a word is, in a few words."""
    if header.code in WHAT:
        return WHAT[header.code]
    return f"primitive {header.code}" if header.code < 256 else "made by a word with DOES>"


class Changes:
    """The differences between two images."""

    def __init__(self, first: Map, second: Map) -> None:
        self.first, self.second = first, second
        old = {(header.begins, header.name): header for header in first.words}
        new = {(header.begins, header.name): header for header in second.words}
        self.came = [header for key, header in new.items() if key not in old]
        self.went = [header for key, header in old.items() if key not in new]
        self.changed = [(old[key], header) for key, header in new.items() if key in old and self.differs(old[key], header)]

    def differs(self, one: images.Header, other: images.Header) -> bool:
        size = max(one.end, other.end) - one.begins
        return self.first.image.memory.span(one.begins, size) != self.second.image.memory.span(one.begins, size)

    def cells(self) -> List[Tuple[str, int, int]]:
        """The system cells whose values differ: the name, the value before and the value after."""
        old, new = self.first.image.memory, self.second.image.memory
        names = dict(images.CELLS)
        names.update({42 + 2 * number: f"FORTH-VOC, chain {number}" for number in range(4)})
        return [(names[at], old.cell(at), new.cell(at)) for at in sorted(names) if old.cell(at) != new.cell(at)]

    def runs(self, begins: int, end: int) -> List[Tuple[int, int]]:
        """The pieces between two addresses whose bytes differ."""
        old, new = self.first.image.memory.bytes, self.second.image.memory.bytes
        found, at = [], begins
        while at < end:
            start = at
            while at < end and old[at] != new[at]:
                at += 1
            if at > start:
                found.append((start, at))
            at += 1
        return found

    def bytes(self) -> int:
        """How many bytes of memory differ."""
        return sum(end - begins for begins, end in self.runs(0, images.MEMORY))
