"""A screen while it is edited: sixteen lines of 64 bytes, a cursor, and what can be taken back.

A change is a function from one state to the next, or to None if it has no room: text is never pushed off a line or off the screen. Bytes
that a change does not touch stay as they are, whatever they are.
"""

from __future__ import annotations

import dataclasses
import typing

LINES = 16
COLUMNS = 64
PAGE = LINES * COLUMNS
BLANK = b" "
# What counts as a blank at the end of a line: old systems filled screens with bytes 0.
FILLING = b" \0"


@dataclasses.dataclass(frozen=True)
class Editing:
    """A screen's bytes, and the cursor: its line, and its byte in that line, at most 64."""

    page: bytes
    line: int = 0
    byte: int = 0

    def row(self, line: int) -> bytes:
        """The 64 bytes of a line."""
        return self.page[line * COLUMNS : (line + 1) * COLUMNS]

    def text(self, line: int) -> bytes:
        """A line without the blanks at its end."""
        return self.row(line).rstrip(FILLING)

    @property
    def front(self) -> bytes:
        """What is before the cursor in its line."""
        return self.row(self.line)[: self.byte]

    @property
    def tail(self) -> bytes:
        """What is from the cursor on in its line, without the blanks at the end."""
        return self.text(self.line)[self.byte :]

    def at(self, line: int, byte: int) -> Editing:
        """The cursor elsewhere: at the beginning of a character, and on the screen."""
        line = max(0, min(LINES - 1, line))
        byte = max(0, min(COLUMNS, byte))
        while 0 < byte < COLUMNS and byte not in starts(self.row(line)):
            byte -= 1
        return dataclasses.replace(self, line=line, byte=byte)

    def with_rows(self, first: int, rows: list[bytes]) -> Editing:
        """Lines from one on replaced, each of at most 64 bytes."""
        whole = b"".join(row.ljust(COLUMNS) for row in rows)
        begin = first * COLUMNS
        return dataclasses.replace(self, page=self.page[:begin] + whole + self.page[begin + len(whole) :])


Change = typing.Callable[[Editing], "Editing | None"]


def size_of(row: bytes, at: int) -> int:
    """How many bytes the character at a place has; a byte that begins none counts as one."""
    first = row[at]
    size = 1 if first < 194 or first > 244 else 2 if first < 224 else 3 if first < 240 else 4
    rest = row[at + 1 : at + size]
    return size if len(rest) == size - 1 and all(128 <= byte < 192 for byte in rest) else 1


def starts(row: bytes) -> list[int]:
    """Where the characters of a line begin, and its end."""
    places, at = [], 0
    while at < len(row):
        places.append(at)
        at += size_of(row, at)
    return [*places, len(row)]


def column_of(row: bytes, byte: int) -> int:
    """The column of a byte, when each character is in one column."""
    return sum(1 for start in starts(row) if start < byte)


def byte_of(row: bytes, column: int) -> int:
    """The byte of a column, or the line's end."""
    places = starts(row)
    return places[min(column, len(places) - 1)]


# Moves.


def left(now: Editing) -> Editing:
    """A character back; from a line's beginning to the end of the text of the one before."""
    if now.byte == 0:
        return now.at(now.line - 1, len(now.text(now.line - 1))) if now.line else now
    return now.at(now.line, now.byte - 1)


def right(now: Editing) -> Editing:
    """A character on; from a line's end to the beginning of the next."""
    if now.byte == COLUMNS:
        return now.at(now.line + 1, 0) if now.line < LINES - 1 else now
    return now.at(now.line, now.byte + size_of(now.row(now.line), now.byte))


def vertically(by: int) -> Change:
    """So many lines on, in the same column."""

    def change(now: Editing) -> Editing:
        line = max(0, min(LINES - 1, now.line + by))
        return now.at(line, byte_of(now.row(line), column_of(now.row(now.line), now.byte)))

    return change


def home(now: Editing) -> Editing:
    """The beginning of the line."""
    return now.at(now.line, 0)


def end(now: Editing) -> Editing:
    """The end of the line's text."""
    return now.at(now.line, len(now.text(now.line)))


def word_left(now: Editing) -> Editing:
    """The beginning of the word before the cursor."""
    front = now.front.rstrip(FILLING)
    if not front:
        return left(home(now))
    return now.at(now.line, max(front.rfind(BLANK), front.rfind(b"\0")) + 1)


def word_right(now: Editing) -> Editing:
    """The beginning of the next word."""
    tail = now.row(now.line)[now.byte :]
    word = tail.lstrip(FILLING) if tail[:1] in (b" ", b"\0") else next_word(tail)
    if not word:
        return now.at(now.line + 1, 0) if now.line < LINES - 1 else end(now)
    return now.at(now.line, COLUMNS - len(word))


def next_word(tail: bytes) -> bytes:
    """A text from its second word on."""
    blank = min((place for place in (tail.find(BLANK), tail.find(b"\0")) if place >= 0), default=len(tail))
    return tail[blank:].lstrip(FILLING)


def tab(now: Editing) -> Editing:
    """The next column of eight."""
    row = now.row(now.line)
    return now.at(now.line, byte_of(row, (column_of(row, now.byte) // 8 + 1) * 8))


# Changes.


def insert(text: bytes) -> Change:
    """A text at the cursor."""

    def change(now: Editing) -> Editing | None:
        row = now.front + text + now.tail
        if len(row) > COLUMNS:
            return None
        return now.with_rows(now.line, [row]).at(now.line, now.byte + len(text))

    return change


def replace(text: bytes) -> Change:
    """A character in place of that at the cursor."""

    def change(now: Editing) -> Editing | None:
        rest = now.tail[size_of(now.tail, 0) :] if now.tail else b""
        row = now.front + text + rest
        if len(row) > COLUMNS:
            return None
        return now.with_rows(now.line, [row]).at(now.line, now.byte + len(text))

    return change


def without(now: Editing, begin: int, stop: int) -> Editing:
    """The cursor's line without some bytes; the cursor where they were."""
    row = now.row(now.line)
    return now.with_rows(now.line, [row[:begin] + row[stop:].rstrip(FILLING)]).at(now.line, begin)


def delete_back(now: Editing) -> Editing | None:
    """Without the character before the cursor; at a line's beginning the line joins the one before."""
    if now.byte == 0:
        return join(end(now.at(now.line - 1, 0))) if now.line else None
    before = left(now)
    return without(now, before.byte, now.byte)


def delete_here(now: Editing) -> Editing | None:
    """Without the character at the cursor."""
    if not now.tail:
        return None
    return without(now, now.byte, now.byte + size_of(now.tail, 0))


def delete_word(now: Editing) -> Editing | None:
    """Without the word before the cursor."""
    front = now.front.rstrip(FILLING)
    begin = max(front.rfind(BLANK), front.rfind(b"\0")) + 1
    return without(now, begin, now.byte) if now.byte else None


def delete_tail(now: Editing) -> Editing | None:
    """Without all from the cursor on in its line."""
    return without(now, now.byte, COLUMNS) if now.tail else None


def split(now: Editing) -> Editing | None:
    """What follows the cursor on a new line, if the last line is blank."""
    if now.text(LINES - 1) or now.line == LINES - 1:
        return None
    below = [now.row(line) for line in range(now.line + 1, LINES - 1)]
    return now.with_rows(now.line, [now.front, now.tail, *below])


def new_line(now: Editing) -> Editing | None:
    """A new line with what follows the cursor, and the cursor there; without room for one, the beginning of the next line."""
    opened = split(now)
    if opened is None:
        return now.at(now.line + 1, 0) if now.line < LINES - 1 else None
    return opened.at(now.line + 1, 0)


def join(now: Editing) -> Editing | None:
    """The next line's text at the cursor; within text after it, and a blank."""
    if now.line == LINES - 1:
        return None
    front = now.front if not now.tail else now.text(now.line) + BLANK
    row = front + now.text(now.line + 1).lstrip(BLANK)
    if len(row) > COLUMNS:
        return None
    below = [now.row(line) for line in range(now.line + 2, LINES)]
    return now.with_rows(now.line, [row, *below, b""]).at(now.line, now.byte)


def cut_line(now: Editing) -> Editing | None:
    """Without the cursor's line; those below move up."""
    below = [now.row(line) for line in range(now.line + 1, LINES)]
    return now.with_rows(now.line, [*below, b""]).at(now.line, 0)


def put_line(row: bytes) -> Change:
    """A line over the cursor's line."""
    return lambda now: now.with_rows(now.line, [row]).at(now.line, 0)


def put_page(page: bytes) -> Change:
    """A screen over this one."""
    return lambda now: dataclasses.replace(now, page=page)


def paste(text: bytes) -> tuple[Change, list[bytes]]:
    """A text with its lines at the cursor, as far as there is room; the list gets what is left out."""
    rest: list[bytes] = []

    def change(now: Editing) -> Editing | None:
        pieces = text.replace(b"\r\n", b"\n").replace(b"\r", b"\n").replace(b"\t", BLANK).split(b"\n")
        for number, piece in enumerate(pieces):
            opened: Editing | None = now if number == 0 else new_line(now)
            placed = insert(piece)(opened) if opened else None
            if placed is None:
                rest.extend(pieces[number:])
                return now
            now = placed
        return now

    return change, rest


class Log:
    """What was done to one screen, to take it back and to do it again. Changes of one kind, one after another, are one step."""

    def __init__(self) -> None:
        self.done: list[tuple[Editing, Editing]] = []
        self.undone: list[tuple[Editing, Editing]] = []
        self.kind: str | None = None

    def note(self, before: Editing, after: Editing, kind: str | None) -> None:
        """A change was made."""
        self.undone.clear()
        goes_on = kind is not None and kind == self.kind and self.done and self.done[-1][1] == before
        first = self.done.pop()[0] if goes_on else before
        self.done.append((first, after))
        self.kind = kind

    def rest(self) -> None:
        """The next change is a step of its own."""
        self.kind = None

    def undo(self, now: Editing) -> Editing | None:
        """The state before the last step; None if there is none, or if the screen was changed by others since."""
        return self._move(now, self.done, self.undone, 1)

    def redo(self, now: Editing) -> Editing | None:
        """The state after the step that was taken back last."""
        return self._move(now, self.undone, self.done, 0)

    def _move(self, now: Editing, steps: list[tuple[Editing, Editing]], others: list[tuple[Editing, Editing]], side: int) -> Editing | None:
        """The other side of the last of these steps, of which the screen is at this one; the step is among the others then."""
        if not steps or steps[-1][side].page != now.page:
            return None
        others.append(steps.pop())
        self.rest()
        return others[-1][1 - side]
