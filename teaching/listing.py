"""An image's map as text for a terminal."""
from typing import Iterator

import images
import regions
import texts

BAR = 40


def bar(size: int, most: int) -> str:
    """A bar whose length is to scale, with at least one sign unless the length is 0."""
    return "#" * (max(1, round(BAR * size / most)) if size else 0)


def outline(one: regions.Map) -> Iterator[str]:
    image = one.image
    yield f"{one.name}: {image.size} bytes, {image.buffers} block buffers, begins with {entry(one)}"
    yield ""
    for begins, end, _, text in one.outline():
        yield f"{begins:6}  {end - begins:6}  {text:28} {bar(end - begins, images.MEMORY)}"


def entry(one: regions.Map) -> str:
    return texts.shown(one.image.name_of(one.image.entry))


def cells(one: regions.Map) -> Iterator[str]:
    yield ""
    yield "system cells"
    for address, name in images.CELLS.items():
        yield f"{address:6}  {name:9} {one.image.memory.cell(address):6}"


def vocabularies(one: regions.Map) -> Iterator[str]:
    found = one.at_link_field()
    yield ""
    yield "vocabularies, and the newest word of each of their four chains"
    for name, record, heads in one.image.vocabularies():
        newest = [texts.shown(found[head].name) if head in found else "-" for head in heads]
        yield f"{record:6}  {name:9} {'  '.join(newest)}"


def word(one: regions.Map, header: images.Header, mark: str = " ") -> str:
    found = one.at_link_field()
    before = texts.shown(found[header.link].name) if header.link in found else "-"
    signs = "".join(sign for sign, is_so in (("i", header.is_immediate), ("h", header.is_hidden)) if is_so)
    sizes = f"{header.begins:6} {header.body - header.begins:4} {max(0, header.end - header.body):5}"
    return f"{mark}{sizes}  {texts.shown(header.name):31} {signs:2} {regions.what(header):26} {header.chain()} {before}"


HEADING = "begins head  body  name                               what                       chain, and the word before in it"


def words(one: regions.Map) -> Iterator[str]:
    yield ""
    yield f" {HEADING}"
    for header in one.words:
        yield word(one, header)
    yield f" {one.here:6}             HERE; {one.limit - one.top} bytes are free up to {one.limit}"


def listing(one: regions.Map) -> Iterator[str]:
    for lines in (outline(one), cells(one), vocabularies(one), words(one)):
        yield from lines


def cell_lines(changes: regions.Changes) -> Iterator[str]:
    yield ""
    yield "system cells that changed"
    for name, before, after in changes.cells():
        yield f"        {name:20} {before:6} -> {after:6}"


def word_lines(changes: regions.Changes) -> Iterator[str]:
    yield ""
    yield f" {HEADING}"
    rows = [("+", changes.second, header) for header in changes.came]
    rows += [("-", changes.first, header) for header in changes.went]
    rows += [("*", changes.second, header) for _, header in changes.changed]
    for mark, one, header in sorted(rows, key=lambda row: (row[2].begins, row[0])):
        yield word(one, header, mark)
    yield f" {len(changes.came)} words came (+), {len(changes.went)} went (-), {len(changes.changed)} have other bytes (*)"


def comparison(first: regions.Map, second: regions.Map) -> Iterator[str]:
    changes = regions.Changes(first, second)
    for lines in (outline(first), [""], outline(second), cell_lines(changes), word_lines(changes)):
        yield from lines
    yield f" {changes.bytes()} of 65536 bytes differ; HERE went from {first.here} to {second.here}"
