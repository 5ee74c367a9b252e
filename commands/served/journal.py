"""The journal: changed screens that are not in the block file yet, in a file beside it, which the next session offers.

A journal is a line `jaurimet journal 1`, then for each screen its number in decimal and a new line, and its 1,024 bytes.
"""
from __future__ import annotations

import os
from typing import Optional

import whole

HEAD = b"jaurimet journal 1\n"
BLOCK = 1024


def places(blocks: str) -> list[str]:
    """Where a journal may be: beside its blocks, or at home or in the temporary folder if nothing can be written there."""
    name = os.path.basename(blocks) + ".journal"
    return [blocks + ".journal", os.path.join(os.path.expanduser("~"), name), os.path.join(os.environ.get("TMPDIR") or "/tmp", name)]


def read(path: str) -> dict[int, bytes]:
    """The screens of a journal; none if there is no such file, or it is not one."""
    try:
        with open(path, "rb") as file:
            content = file.read()
    except OSError:
        return {}
    found: dict[int, bytes] = {}
    at = len(HEAD) if content.startswith(HEAD) else len(content)
    while at < len(content):
        end = content.find(b"\n", at, at + 8)
        page = content[end + 1 : end + 1 + BLOCK]
        if end < 0 or not content[at:end].isdigit() or len(page) < BLOCK:
            break
        found[int(content[at:end])] = page
        at = end + 1 + BLOCK
    return found


class Journal:
    """The journal of a block file."""

    def __init__(self, blocks: str) -> None:
        self._blocks, self._places, self._kept = blocks, places(blocks), {}  # type: str, list[str], dict[int, bytes]
        self.path: Optional[str] = None  # where it is
        self.is_lost = False  # no place takes it

    def keep(self, screens: dict[int, bytes]) -> None:
        """The changed screens are these now."""
        if screens == self._kept and not self.is_lost:
            return
        if not screens:
            self.remove()
            return
        content = HEAD + b"".join(b"%d\n" % number + page for number, page in sorted(screens.items()))
        for path in [*([self.path] if self.path else []), *self._places]:
            try:
                whole.replace(path, content, self._blocks)
            except OSError:
                continue
            self.path, self._kept, self.is_lost = path, dict(screens), False
            return
        self.is_lost = True

    def is_in(self, blocks: str) -> bool:
        """Whether the file of blocks has all of these screens as they are here."""
        with open(blocks, "rb") as file:
            content = file.read()
        return all(content[number * BLOCK : (number + 1) * BLOCK] == page for number, page in self._kept.items())

    def remove(self) -> None:
        if self.path is not None and os.path.exists(self.path):
            os.unlink(self.path)
        self._kept, self.is_lost = {}, False
