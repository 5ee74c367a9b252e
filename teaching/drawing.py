"""An image's map as SVG: memory in rows, each byte a column; each letter of a name is on its byte.

The words after FENCE, which are the user's, come first. Each map is drawn twice into one file, for wide and for narrow windows; the
style shows one of them, as wide as the window. On paper the Forth's own words are left out if there are others.
"""
import pathlib
from typing import Iterator, List, Optional, Tuple
from html import escape

import images
import listing
import regions
import texts

HERE = pathlib.Path(__file__).resolve().parent
MARK = "<!-- a map of ./forth map -->"
BYTE, ROW, GUTTER, LINE, ABOVE, LETTER, TITLE_LETTER = 13, 24, 56, 17, 8, 7.3, 8.1


class Canvas:
    """The parts of a drawing, and how far down they reach."""

    def __init__(self, width: int) -> None:
        self.width, self.y = width, 8
        self.parts: List[str] = []
        self.on_paper: Optional[int] = None

    def add(self, text: str) -> None:
        self.parts.append(text)

    def line(self, text: str, kind: str = "text", x: int = 8) -> None:
        """Adds a text, broken into as many lines as the width needs."""
        most = max(12, int((self.width - x) / (TITLE_LETTER if kind == "title" else LETTER)))
        self.y += ABOVE if kind in ("title", "heading") and self.parts else 0
        while text:
            cut = len(text) if len(text) <= most else (text.rfind(" ", 1, most) if " " in text[1:most] else most)
            self.y += LINE
            self.add(f'<text class="{kind}" x="{x}" y="{self.y - 4}">{escape(text[:cut])}</text>')
            text = text[cut:].lstrip()

    def room(self, height: int) -> None:
        self.y += height


class Grid:
    """Where the bytes of one image's dictionary are: so many a row, from an x on. Those from an address on, where the user's words
    begin, are in rows of their own, from the y `own` on; those before it are from `system` on."""

    def __init__(self, one: regions.Map, x: int, wide: int, split: int) -> None:
        self.one, self.x, self.wide, self.split = one, x, wide, split
        self.own, self.system = 0, 0

    def own_rows(self) -> int:
        return max(1, -(-self.one.top // self.wide) - self.split // self.wide)

    def system_rows(self) -> int:
        """How many rows the words before the split have; none if it begins the dictionary."""
        return -(-min(self.split, self.one.top) // self.wide) - images.DICTIONARY // self.wide

    def rows(self) -> Iterator[Tuple[int, int]]:
        """The first address and the y of each row."""
        for count, first, y in ((self.own_rows(), self.split, self.own), (self.system_rows(), images.DICTIONARY, self.system)):
            yield from (((first // self.wide + row) * self.wide, y + row * ROW) for row in range(count))

    def spot(self, address: int) -> Tuple[int, int]:
        """The left upper corner of a byte."""
        first, y = (self.split, self.own) if address >= self.split else (images.DICTIONARY, self.system)
        return self.x + GUTTER + address % self.wide * BYTE, y + (address // self.wide - first // self.wide) * ROW

    def pieces(self, begins: int, end: int) -> Iterator[Tuple[int, int, int]]:
        """The pieces of a region, one a row: x, y, how many bytes."""
        while begins < end:
            count = min(end - begins, self.wide - begins % self.wide)
            if begins < self.split:
                count = min(count, self.split - begins)
            yield (*self.spot(begins), count)
            begins += count

    def boxes(self, begins: int, end: int, kind: str) -> str:
        return "".join(f'<rect class="{kind}" x="{x}" y="{y + 2}" width="{count * BYTE}" height="{ROW - 6}"/>' for x, y, count in self.pieces(begins, end))

    def letters(self, header: images.Header) -> str:
        """The name, each letter on its byte."""
        drawn, at = [], header.link_field + 3
        for byte in header.name:
            x, y = self.spot(at)
            letter = chr(byte) if 32 < byte < 127 else "·"
            drawn.append(f'<text class="letter" x="{x + BYTE / 2}" y="{y + 15}">{escape(letter)}</text>')
            at += 1
        return "".join(drawn)

    def contains(self, address: int) -> bool:
        return images.DICTIONARY <= address < self.one.top

    def arc(self, header: images.Header) -> str:
        """The link from a word to the one before it in its chain: between the rows and beside them, so that it crosses no text."""
        if not header.link or not self.contains(header.link - 2):
            return ""
        x, y = self.spot(header.link_field)
        to_x, to_y = self.spot(header.link - 2)
        x, middle = x + BYTE, to_x + BYTE / 2
        if y == to_y:
            way = f"M{x} {y + ROW - 4}v2H{middle}v-2"
        else:
            gutter, is_between = self.x + GUTTER - 3, header.link - 2 < self.split <= header.link_field
            gap = f"V{self.own + self.own_rows() * ROW}M{gutter} {self.system - 4}" if is_between else ""
            way = f"M{x} {y + ROW - 4}v2H{gutter}{gap}V{to_y + ROW - 2}H{middle}v-2"
        return f'<path class="link c{header.chain()}" data-from="{header.link_field}" d="{way}"/>'


def lines_of(one: regions.Map, header: images.Header) -> List[str]:
    """The lines that a map shows for a word."""
    found = one.at_link_field()
    before = texts.shown(found[header.link].name) if header.link in found else "none"
    size = max(0, header.end - header.body)
    signs = [sign for sign, is_so in (("immediate", header.is_immediate), ("hidden", header.is_hidden)) if is_so]
    view = f", screen {header.view}" if header.view else ""
    return [
        ", ".join([texts.shown(header.name), regions.what(header), *signs]) + view,
        f"header {header.begins} to {header.body - 1}, and {size} bytes after it",
        f"chain {header.chain()}, the word before: {before}",
    ]


def word(grid: Grid, header: images.Header) -> str:
    """A word as a group that keys reach."""
    lines = lines_of(grid.one, header)
    drawn = "".join(grid.boxes(region.begins, region.end, region.kind) for region in regions.parts_of(header))
    link = grid.boxes(header.link_field, header.link_field + 2, f"cell c{header.chain()}")
    text = escape("|".join(line.replace("|", "¦") for line in lines))
    return (
        f'<g class="word" tabindex="0" data-at="{header.link_field}" data-link="{header.link}" data-about="{text}">'
        f"<title>{escape(chr(10).join(lines))}</title>{drawn}{link}{grid.letters(header)}</g>"
    )


def newest_chain(one: regions.Map) -> List[int]:
    """The link fields of the chain in which the newest word is."""
    newest = one.at_link_field().get(one.image.memory.cell(images.LAST)) or (one.words[-1] if one.words else None)
    found, all_headers = [], one.at_link_field()
    while newest and newest.link_field not in found:
        found.append(newest.link_field)
        newest = all_headers.get(newest.link)
    return found


def draw_grid(canvas: Canvas, grid: Grid, runs: List[Tuple[int, int]]) -> None:
    """The dictionary's rows with their addresses, words, links, and what changed."""
    canvas.add('<g class="half">')
    for address, y in grid.rows():
        canvas.add(f'<text class="address" x="{grid.x + GUTTER - 6}" y="{y + 15}">{address}</text>')
    for region in grid.one.regions():
        if region.header is None:
            canvas.add(grid.boxes(region.begins, region.end, region.kind))
    canvas.add("".join(word(grid, header) for header in grid.one.words))
    marked = set(newest_chain(grid.one))
    arcs = "".join(grid.arc(header).replace('class="link', 'class="link on' if header.link_field in marked else 'class="link') for header in grid.one.words)
    canvas.add(f'<g class="links">{arcs}</g>')
    canvas.add("".join(grid.boxes(begins, end, "changed") for begins, end in runs))
    if images.DICTIONARY <= grid.one.here <= grid.one.top:
        x, y = grid.spot(grid.one.here)
        canvas.add(f'<path class="here" d="M{x} {y}v{ROW - 2}"/>')
        canvas.add(f'<text class="text" x="{x + 4}" y="{y + 15}">HERE {grid.one.here}</text>')
    canvas.add("</g>")


def draw_strip(canvas: Canvas, one: regions.Map) -> None:
    """All of memory to scale, and what its parts are."""
    scale, y = (canvas.width - 24) / images.MEMORY, canvas.y + 6
    for begins, end, kind, text in one.outline():
        x, width = 8 + begins * scale, max(1, (end - begins) * scale)
        canvas.add(f'<rect class="{kind}" x="{x:.2f}" y="{y}" width="{width:.2f}" height="26">' f"<title>{escape(text)}: {begins} to {end - 1}</title></rect>")
    canvas.room(34)
    for begins, end, kind, text in one.outline():
        if kind == "buffer" and begins > one.limit:
            continue
        canvas.add(f'<rect class="{kind}" x="8" y="{canvas.y + 3}" width="12" height="12"/>')
        if kind == "buffer":
            text, end = f"{one.image.buffers} block buffers", images.MEMORY
        canvas.line(f"{begins} to {end - 1}: {text}, {end - begins} bytes", x=28)


def draw_cells(canvas: Canvas, one: regions.Map) -> None:
    memory = one.image.memory
    canvas.line("System cells", "heading")
    canvas.line(", ".join(f"{name} {memory.cell(address)}" for address, name in images.CELLS.items()))
    found = one.at_link_field()
    canvas.line("Vocabularies, and the newest word of each chain", "heading")
    for name, record, heads in one.image.vocabularies():
        newest = [texts.shown(found[head].name) if head in found else "none" for head in heads]
        canvas.line(f"{name} at {record}: {', '.join(f'{number} {text}' for number, text in enumerate(newest))}")


COLOURS = (
    ("header", "header with its name"),
    ("cell c0", "its link cell, by chain: 0"),
    ("cell c1", "1"),
    ("cell c2", "2"),
    ("cell c3", "3"),
    ("code", "code field"),
    ("thread", "thread"),
    ("data", "data"),
    ("record", "vocabulary"),
    ("other", "bytes of no word"),
)
ADVICE = "The line is the chain of the newest word. Tab and the arrows go from word to word, Enter to the word before in its chain."
ALL, OWN, SYSTEM = "The dictionary, each byte a column", "Your words, each byte a column", "The Forth's own words"


def split_of(one: regions.Map) -> int:
    """Where the user's words begin: at FENCE, or where the dictionary begins if FENCE does not divide it in two."""
    fence = one.image.memory.cell(images.FENCE)
    return fence if images.DICTIONARY < fence < one.here <= one.top else images.DICTIONARY


def draw_key(canvas: Canvas, heading: str) -> None:
    """What the colors are."""
    canvas.line(heading, "heading")
    x: float = 8
    y = canvas.y + 4
    for kind, text in COLOURS:
        width = 20 + (len(text) + 2) * LETTER
        if x + width > canvas.width:
            x, y = 8, y + LINE
        canvas.add(f'<rect class="{kind}" x="{x}" y="{y}" width="12" height="12"/>')
        canvas.add(f'<text class="text" x="{x + 17}" y="{y + 11}">{text}</text>')
        x += width
    canvas.y = y + LINE + 4
    canvas.line(ADVICE)


def title(one: regions.Map) -> str:
    return f"{one.name}: an image of {one.image.size} bytes, begins with {listing.entry(one)}"


def draw_own(canvas: Canvas, grids: List[Grid], split: int) -> None:
    """Room for the rows of the user's words, and what comes on paper."""
    canvas.room(8)
    for grid in grids:
        grid.own = canvas.y
    canvas.room((max(grid.own_rows() for grid in grids) + 1) * ROW)
    if split > images.DICTIONARY:
        canvas.on_paper = canvas.y


def draw_system(canvas: Canvas, grids: List[Grid]) -> None:
    """Room for the rows of the words before the user's."""
    rows = max(grid.system_rows() for grid in grids)
    if rows:
        canvas.line(SYSTEM, "heading")
        canvas.room(8)
    for grid in grids:
        grid.system = canvas.y
    canvas.room(rows * ROW)


def draw_one(one: regions.Map, wide: int) -> Canvas:
    canvas, split = Canvas(GUTTER + wide * BYTE + 24), split_of(one)
    grid = Grid(one, 0, wide, split)
    canvas.line(title(one), "title")
    if split > images.DICTIONARY:
        draw_key(canvas, OWN)
        draw_own(canvas, [grid], split)
    draw_strip(canvas, one)
    draw_cells(canvas, one)
    if split == images.DICTIONARY:
        draw_key(canvas, ALL)
        draw_own(canvas, [grid], split)
    draw_system(canvas, [grid])
    draw_grid(canvas, grid, [])
    canvas.line(f"After the dictionary {one.limit - one.top} bytes are free, up to {one.limit}; they aren't drawn.")
    canvas.room(80)
    return canvas


def draw_changes(canvas: Canvas, changes: regions.Changes) -> None:
    canvas.line("What changed from the first to the second", "heading")
    for text, headers in (("Words that came", changes.came), ("Words that went", changes.went), ("Words with other bytes", [header for _, header in changes.changed])):
        names = " ".join(texts.shown(header.name) for header in headers[:200])
        canvas.line(f"{text}: {len(headers)}. {names}{' ..' if len(headers) > 200 else ''}")
    for name, before, after in changes.cells():
        canvas.line(f"{name}: {before}, then {after}", x=28)
    canvas.line(f"{changes.bytes()} of 65536 bytes differ. What differs in the dictionary has a frame.")


def draw_two(first: regions.Map, second: regions.Map, wide: int) -> Canvas:
    changes, split = regions.Changes(first, second), split_of(second)
    canvas = Canvas(2 * (GUTTER + wide * BYTE + 24))
    grids = [Grid(first, 0, wide, split), Grid(second, canvas.width // 2, wide, split)]
    canvas.line(f"{first.name} and {second.name}", "title")
    draw_changes(canvas, changes)
    draw_key(canvas, OWN if split > images.DICTIONARY else ALL)
    draw_own(canvas, grids, split)
    for one in (first, second):
        canvas.line(title(one), "title")
        draw_strip(canvas, one)
    draw_system(canvas, grids)
    runs = changes.runs(images.DICTIONARY, max(first.top, second.top))
    for grid in grids:
        draw_grid(canvas, grid, [(begins, min(end, grid.one.top)) for begins, end in runs if begins < grid.one.top])
    canvas.room(80)
    return canvas


def drawing(canvas: Canvas, kind: str) -> str:
    """A drawing that is as wide as the window. Its box is printed; what is below the box is shown if the window has room for it."""
    box = f"0 0 {canvas.width} {canvas.on_paper or canvas.y}"
    return f'<svg class="{kind}" viewBox="{box}" preserveAspectRatio="xMinYMin meet" overflow="visible">{"".join(canvas.parts)}<g class="about"></g></svg>'


def height_of(canvas: Canvas, units: int) -> str:
    """The page's height that these units of a drawing have."""
    return f"svg.map {{ height: calc(100vw * {units / canvas.width:.5f}); }}"


def svg(wide: Canvas, narrow: Canvas, text: str) -> str:
    """One file of both drawings."""
    style = (HERE / "map.css").read_text(encoding="utf-8")
    script = (HERE / "map.js").read_text(encoding="utf-8")
    sizes = (
        f".narrow {{ display: none; }} {height_of(wide, wide.y)}\n"
        f"@media screen and (max-width: {wide.width * 3 // 4}px) {{ .wide {{ display: none; }} .narrow {{ display: inline; }} "
        f"{height_of(narrow, narrow.y)} }}\n@media print {{ {height_of(wide, wide.on_paper or wide.y)} }}\n"
    )
    return (
        f'<?xml version="1.0" encoding="UTF-8"?>\n{MARK}\n<svg xmlns="http://www.w3.org/2000/svg" class="map">\n'
        f"<title>{escape(text)}</title>\n<style>\n{style}{sizes}</style>\n"
        f'<rect class="paper" width="100%" height="100%"/>\n{drawing(wide, "wide")}\n{drawing(narrow, "narrow")}\n'
        f"<script><![CDATA[\n{script}]]></script>\n</svg>\n"
    )


def map_of(one: regions.Map) -> str:
    return svg(draw_one(one, 64), draw_one(one, 24), title(one))


def map_of_two(first: regions.Map, second: regions.Map) -> str:
    return svg(draw_two(first, second, 40), draw_two(first, second, 9), f"{first.name} and {second.name}")
