"""A screen edited by an editor of the user's own: it becomes a text, and what comes back is checked before it becomes the screen."""

from __future__ import annotations

import os
import pathlib
import shlex
import subprocess
import tempfile

from .editing import COLUMNS, FILLING, LINES


class DoesNotFit(ValueError):
    """The text is no screen; `args` has the reason, and the file in which it is kept."""


def text_of(page: bytes) -> bytes:
    """A screen as a text of sixteen lines, without the blanks at their ends."""
    rows = [page[begin : begin + COLUMNS].rstrip(FILLING) for begin in range(0, len(page), COLUMNS)]
    return b"".join(row + b"\n" for row in rows)


def page_of(text: bytes, before: bytes) -> bytes:
    """The screen of a text. Lines that say what they said keep their bytes; ValueError names the first line that does not fit."""
    lines = text.replace(b"\r\n", b"\n").split(b"\n")
    while lines and not lines[-1].strip():
        lines.pop()
    if len(lines) > LINES:
        raise ValueError(f"it has {len(lines)} lines, and a screen has {LINES}")
    kept = text_of(before).split(b"\n")
    rows = []
    for number, line in enumerate(lines + [b""] * (LINES - len(lines))):
        old = before[number * COLUMNS : (number + 1) * COLUMNS]
        row = old if line == kept[number] else line.replace(b"\t", b" ").rstrip()
        if len(row) > COLUMNS:
            raise ValueError(f"line {number} has {len(row)} bytes, and a line of a screen has {COLUMNS}")
        rows.append(row.ljust(COLUMNS))
    return b"".join(rows)


def edit_text(editor: str, title: str, page: bytes, line: int = 0) -> bytes:
    """The screen as the editor leaves it, opened at a line. DoesNotFit if it is none, OSError if the editor can't be started."""
    descriptor, name = tempfile.mkstemp(prefix=f"{title}.", suffix=".fs")
    file = pathlib.Path(name)
    with os.fdopen(descriptor, "wb") as opened:
        opened.write(text_of(page))
    status = subprocess.call([*shlex.split(editor), f"+{line + 1}", name])
    text = file.read_bytes()
    if status != 0:
        file.unlink()
        raise OSError(f"{editor} ended with status {status}, so the screen stays as it was")
    try:
        changed = page_of(text, page)
    except ValueError as why:
        raise DoesNotFit(f"{why}; your text is kept in {name}") from None
    file.unlink()
    return changed
