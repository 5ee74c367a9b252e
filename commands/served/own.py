"""An image of one's own program, for `./forth --image`: a session loads its screens and texts, and the image is taken from it."""
from __future__ import annotations

import os
import sys
from typing import Optional

import whole
from served import image
from served.blocks import look_at_name, open_blocks
from served.faults import plain
from served.output import FAULTED
from served.prompt import Ended, Signals
from served.script import Script
from served.session import Session
from served.table import FIRST, MARK, SECOND, SERVICE
from served.target import STATE, Target
from served.texts import FIRST as FIRST_TEXT, Line, Unreadable

SHOWN_LINES = 1  # what DOOR holds if an image that starts with the Forth reads a pipe and shows its lines
HEADER = 5  # bytes of a header before its name: view, link and count


class Loaded(Exception):
    """All lines are done."""


class Lines(Script):
    """The lines that load a program, which has no input of its own."""

    def line(self, before: bytes, keeps: bool) -> Optional[bytes]:
        raise Unreadable("what it loads asks for a line")

    def key(self) -> Optional[int]:
        raise Unreadable("what it loads asks for a key")

    whole_key = key


class Maker(Session):
    """A session that shows nothing. When its lines are done, it has what the image is to have."""

    ending = ""
    is_silent = False  # whether it does not even report a fault

    def write(self, stream: int, text: bytes) -> None:
        if stream == 2 and not self.is_silent:
            super().write(stream, text)

    def _script_line(self) -> None:
        if not self.lines:
            raise Loaded
        self.lines -= 1
        super()._script_line()

    def load(self, lines: int) -> None:
        """Does its lines, which are so many; Unreadable or Ended says why that was not possible."""
        self.lines = lines
        try:
            ended = Ended(self.run())
        except Unreadable:
            self.end()
            raise
        except Loaded:
            if not self.wire.cell(STATE):
                return
            name = plain(self.wire.headers()[-1].name)
            self.end()
            raise Unreadable(f"the definition of {name} has no ;") from None
        if ended.status == 0:
            raise Unreadable("what it loads leaves the Forth")
        raise ended

    def end(self) -> int:
        """Writes the screens that what it loaded has changed; the status."""
        return self.keeping.close(0, self.report)


def start_of(target: Target) -> str:
    """The word that an image of this machine starts with; empty if it is the Forth."""
    token = target.variable("'BOOT")
    return "".join(plain(header.name) for header in target.wire.headers() if token and header.token == token)


def image_of(target: Target) -> bytes:
    """The file of an image of this machine. Nobody is its host, and no line of a text is where one of its words was made: the texts are gone."""
    places = {header.token - len(header.name) - HEADER: 0 for header in target.wire.headers() if header.view >= FIRST_TEXT}
    target.wire.set_cells({**places, SERVICE: 0, FIRST: 0, SECOND: 0, MARK: 0, target.address("DOOR"): SHOWN_LINES})
    return target.wire.image(target.address("COLD") - 2)


def look_at_own(own: str, images: str) -> None:
    """Refuses an image's name that cannot be one, or that is in the way."""
    if os.path.isdir(own):
        raise Unreadable(f"{own} is a folder; name an image")
    look_at_name(own)
    if os.path.isfile(own) and os.path.getsize(own):
        with open(own, "rb") as file:
            if file.read(8) != b"FTH83IMG":
                raise Unreadable(f"{own} exists already, and is not an image")
    if os.path.exists(own) and any(os.path.samefile(own, entry.path) for entry in os.scandir(images)):
        raise Unreadable(f"{own} is one of the launcher's own images; name another file")


def write_own(own: str, made: bytes) -> None:
    """Writes the image beside its place, and puts it there when it is whole."""
    try:
        if os.path.isfile(own) or not os.path.exists(own):
            whole.replace(own, made)
        else:
            with open(own, "wb") as file:
                file.write(made)
    except OSError as error:
        raise Unreadable(f"it cannot be written: {error.strerror}") from error


def lines_of(screens: list[int], blocks: str) -> list[Line]:
    """The line that loads these screens."""
    if not os.path.exists(blocks):
        raise Unreadable(f"there is no {blocks} to make an image from")
    first, last = screens
    if first > last:
        raise Unreadable(f"there are no screens from {first} to {last}")
    if last >= os.path.getsize(blocks) // 1024:
        raise Unreadable(f"{blocks} has screens 0 to {os.path.getsize(blocks) // 1024 - 1}")
    return [Line("", 0, f"{first} {last} THRU".encode())]


def loaded(program: str, images: str, blocks: Optional[str], lines: list[Line]) -> Maker:
    """A session that has done these lines: over the small image if that has all that they need, otherwise over that of all sessions."""
    for base in "small.img", "served.img":
        signals = Signals()
        words = [program, "serve", os.path.join(images, base), *([blocks] if blocks else [])]
        maker = Maker(words, blocks, signals, Lines(signals, lines[:], False, False), [])
        maker.is_silent = base == "small.img"
        try:
            maker.load(len(lines))
            break
        except Ended as ended:
            if ended.status != FAULTED or not maker.is_silent:
                raise
    return maker


def make_own(program: str, own: str, screens: list[int], blocks: Optional[str], lines: list[Line]) -> int:
    """Makes the image of these screens, if any, and then these lines; says with which word it starts. The status."""
    lines, images = [*(lines_of(screens, blocks or "") if screens else []), *lines], image.find(program)
    look_at_own(own, images)
    if blocks:
        open_blocks(program, blocks)
    try:
        maker = loaded(program, images, blocks, lines)
        starts, made = start_of(maker.target), image_of(maker.target)
        status = maker.end()
        write_own(own, made)
    except Unreadable as error:
        sys.stderr.write(f"forth: {own} was not made: {error}\n")
        return 1
    except Ended as ended:
        sys.stderr.write(f"forth: {own} was not made\n")
        return 1 if ended.status == FAULTED else ended.status
    sys.stderr.write(f"forth: {own} starts with {starts or 'the Forth; BOOT NAME has it start with NAME'}\n")
    return status
