"""Reports of faults: the message, the place, and from where the text or screen was loaded."""
from __future__ import annotations

import itertools
import os
from typing import Optional

from served import faults, past, words
from served.advising import Lines, source
from served.script import STANDARD_INPUT
from served.target import BASE, DP, signed, Target
from served.texts import FIRST as FIRST_TEXT, Line
from served.wire import cell_at, Refused

LINE = 64


def described(target: Target, number: int) -> str:
    """A fault in words, without its place."""
    given = target.input()
    word = faults.word_at(number, given)
    return target.adviser.meaning(number, faults.plain(given.text[word.start : word.stop]), known_of(target, number, given))


def known_of(target: Target, number: int, given: faults.Input) -> Lines:
    """What is known of a fault, as lines of a case."""
    word = faults.word_at(number, given)
    asked, follows = given.text[word.start : word.stop], given.text[given.offset :].lstrip(b" ").partition(b" ")[0]
    is_name = number == faults.UNKNOWN and target.look_up(os.fsdecode(asked)) is not None
    marks = {
        "texts": True, "name": is_name, "hidden": target.variable("HIDDEN-TOOL") != 0, "dialect": target.variable("DIALECT") != 0,
        "open": asked.endswith(b'"') and b'"' not in given.text[word.stop :],
    }  # fmt: skip
    left = target.variable("LIMIT") - target.wire.cell(DP)
    known = [("follows", faults.plain(follows)), ("base", str(target.wire.cell(BASE))), ("left", str(left))]
    known += [("mark", mark) for mark, is_set in marks.items() if is_set]
    if number in (faults.UNKNOWN, faults.SAID) and not is_name:
        known += [("defining", name) for name in defined(target)]
    if number == faults.UNKNOWN and not is_name:
        known += [("name", name) for name in words.names(target)]
    return known


def defined(target: Target) -> list[str]:
    """The word that is being defined, if one is, and its name can be found."""
    try:
        newest = target.wire.headers()[-1:]
    except Refused:
        newest = []
    return [faults.plain(header.name) for header in newest if header.is_hidden]


def unfinished(target: Target, lines: list[tuple[str, str]]) -> str:
    """What is said of a definition that is still open after these lines of a script, and the line on which it begins."""
    name = next(iter(defined(target)), "")
    begun = target.texts.place(target.wire.headers()[-1].view) if name else None
    place = (named(begun), faults.plain(begun.text)) if begun else lines[0]
    return "\n".join([f"{name or 'a definition'} is not finished: its ; is missing", *place]) + "\n"


def report(target: Target, number: int, said: str) -> str:
    """A fault in words, with its place; `said` is what the program or a service has said of it."""
    given = target.input()
    word = faults.word_at(number, given)
    name = faults.plain(given.text[word.start : word.stop])
    place = target.texts.place(given.block)
    lines = open_lines(target, given) if number == faults.SAID and name == ";" else []
    said = target.adviser.report(number, name, known_of(target, number, given) + source(lines), said)
    is_placed = place.name != "" if place else given.block != 0
    if number != faults.UNKNOWN and not is_placed and name:
        said += f" at {name}"
    return "\n".join([said, *place_lines(given, place, word.start), *loader_lines(target, given.block)]) + "\n"


def open_lines(target: Target, given: faults.Input) -> Lines:
    """The source of the open definition, each line with what it is called."""
    header = target.wire.headers()[-1]
    place = target.texts.place(given.block)
    if not header.is_hidden:
        return []
    lines = [("this line", given.text[: given.offset])]
    if place:
        first = header.view if FIRST_TEXT <= header.view <= given.block else given.block
        before = [target.texts.place(block) for block in range(first, given.block)]
        lines = [(f"line {line.number}", line.text) for line in before if line] + [(f"line {place.number}", given.text[: given.offset])]
    elif given.block:
        lines = [(f"line {at // LINE}", given.text[at : min(at + LINE, given.offset)]) for at in range(0, given.offset, LINE)]
    return [(name, text.decode(errors="replace")) for name, text in lines]


def place_lines(given: faults.Input, place: Optional[Line], at: int, has_column: bool = True) -> list[str]:
    """Where a fault happened: the place, and the line with a mark below byte `at` of the input."""
    if place:
        column = faults.columns(given.text[:at]) + 1
        where = f":{column}" if place.name else f", column {column}" if len(place.text) > faults.WIDTH else ""
        return [named(place) + where * has_column, *faults.marked(place.text, at)]
    if not given.block:
        return []
    line = line_of(at)
    return [f"screen {given.block} line {line}", *faults.marked(given.text[LINE * line : LINE * line + LINE], at - LINE * line)]


def line_of(at: int) -> int:
    """The line of a screen that has this byte."""
    return min(at, 1023) // LINE


def place_on_screen(target: Target, number: int) -> Optional[tuple[int, int, int]]:
    """The screen on which a fault happened, the line and the byte in it; None if it was not on a screen."""
    given = target.input()
    if not given.block or given.block >= FIRST_TEXT:
        return None
    at = faults.word_at(number, given).start
    return given.block, line_of(at), at % LINE


def loader_lines(target: Target, block: int) -> list[str]:
    """From where the text or the screen of a fault was loaded."""
    found = []
    for loader, offset in target.loaders():
        how = "included" if block >= FIRST_TEXT else "loaded"
        place = target.texts.place(loader)
        if place and place.number:
            found.append(f"{how} by {named(place)}")
        elif loader and not place:
            found.append(f"{how} by screen {loader} line {line_of(max(offset - 1, 0))}")
        block = loader
    return found


def way(target: Target, view: past.View) -> str:
    """The words that led to a fault, from the one that had it on, each with its place; and the stack. The machine is one just before it."""
    token = view.state.pending or cell_at(view.memory, view.state.ip)
    found = [*(header for header in view.headers if header.token == token), *(frame.header for frame in past.calls(view))]
    lines = [f"{faults.plain(header.name):16} {words.place_of(target, header.view, header.token)}" for header in found]
    counted = [(line, len(list(same))) for line, same in itertools.groupby(lines)]
    shown = [line + f", {count} times" * (count > 1) for line, count in counted]
    return "\n".join([*shown, f"stack: {' '.join(str(signed(cell)) for cell in view.state.stack) or 'empty'}"]) + "\n"


def named(place: Line) -> str:
    """A line's file and number; lines of standard input, and typed ones, have no file."""
    return f"{place.name}:{place.number}" if place.name else f"{STANDARD_INPUT} {place.number or 'typed'}"
