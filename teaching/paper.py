"""Screens as pages of HTML that print well: three a page, with their shadows beside them, an index and a cross reference."""
import base64
import hashlib
import pathlib
from html import escape
from typing import Dict, Iterator, List, Tuple

import screens
from references import References

HERE = pathlib.Path(__file__).resolve().parent
MARK = "<!-- screens of ./forth print -->"
A_PAGE, FEW = 3, 8
WHO = '<p class="who">Name<span></span>Date<span></span></p>'


def figure(read: screens.Screens, number: int) -> str:
    """A screen with its number and its lines."""
    lines = read.lines.get(number, []) + [""] * screens.LINES
    text = "\n".join(f"{at:2} {line}".rstrip() for at, line in enumerate(lines[: screens.LINES]))
    return f"<figure><figcaption>Screen {number}</figcaption><pre>{escape(text)}</pre></figure>"


def row(read: screens.Screens, number: int, shadow: int) -> str:
    """A screen, and beside it its shadow, if there is one that isn't blank."""
    beside = number + shadow
    has_one = shadow != 0 and beside in read.numbers() and not read.is_blank(beside)
    return f'<div class="row">{figure(read, number)}{figure(read, beside) if has_one else ""}</div>'


def pages(read: screens.Screens, numbers: List[int], shadow: int, name: str) -> Iterator[str]:
    count = -(-len(numbers) // A_PAGE)
    for page in range(count):
        some = numbers[page * A_PAGE : (page + 1) * A_PAGE]
        rows = "".join(row(read, number, shadow) for number in some)
        title = f"{escape(name)}: screens {some[0]} to {some[-1]} <small>page {page + 1} of {count}</small>"
        yield f'<section class="page"><h2>{title}</h2>{rows}</section>'


def first_line(read: screens.Screens, number: int) -> str:
    return read.lines[number][0] if read.lines.get(number) else ""


def index(read: screens.Screens, numbers: List[int]) -> str:
    rows = "".join(f"<tr><td>{number}</td><td>{escape(first_line(read, number))}</td></tr>" for number in numbers)
    return f'<section><h2>Index</h2><table class="index"><tbody>{rows}</tbody></table></section>'


def short_places(places: List[Tuple[int, int]]) -> str:
    """Places in short: 21.3 is screen 21, line 3; 21.3.5 is its lines 3 and 5."""
    found: Dict[int, List[str]] = {}
    for number, line in places:
        found.setdefault(number, []).append(str(line))
    return ", ".join(f"{number}.{'.'.join(lines)}" for number, lines in found.items())


def entry(name: str, defined: List[Tuple[int, int]], used: List[Tuple[int, int]]) -> str:
    where = f"<td>{short_places(used)}</td>" if used else '<td class="none">nowhere here</td>'
    return f"<tr><td>{escape(name)}</td><td>{short_places(defined)}</td>{where}</tr>"


def cross_reference(references: References) -> str:
    if not references.defined:
        return "<section><h2>Words: where defined, where used</h2><p>No word is defined in these screens.</p></section>"
    rows = "".join(entry(name, references.defined[name], references.uses(name)) for name in sorted(references.defined))
    note = "<p>21.3 is screen 21, line 3, and 21.3.5 its lines 3 and 5. Names in comments and in texts aren't counted.</p>"
    head = "<thead><tr><th>word</th><th>defined</th><th>used</th></tr></thead>"
    return f"<section><h2>Words: where defined, where used</h2>{note}{columns(head, rows)}</section>"


def columns(head: str, rows: str) -> str:
    """A table in as many columns as the page has room for; a table of few rows gets one column, since a column break would part its head from its rows."""
    kind = "columns" if rows.count("<tr>") > FEW else "column"
    return f'<div class="{kind}"><table>{head}<tbody>{rows}</tbody></table></div>'


def missing(unknown: str) -> str:
    """What a survey says of unknown words, if it does."""
    note = "<p>Neither defined in these screens nor words of this Forth, as <code>./forth survey</code> lists them.</p>"
    return f"<section><h2>Words that aren't known</h2>{note}<pre>{escape(unknown)}</pre></section>" if unknown else ""


def document(name: str, parts: List[str], is_wide: bool) -> str:
    """The whole of it; wide pages have shadows."""
    style = "".join((HERE / file).read_text(encoding="utf-8") for file in ("print.css", "wide.css" if is_wide else "tall.css"))
    allowed = "sha256-" + base64.b64encode(hashlib.sha256(style.encode()).digest()).decode()
    policy = f"default-src 'none'; style-src '{allowed}'"
    head = (
        f'<!DOCTYPE html>\n{MARK}\n<html lang="en"><head><meta charset="utf-8">'
        f'<meta http-equiv="Content-Security-Policy" content="{policy}">'
        f'<meta name="viewport" content="width=device-width, initial-scale=1">'
        f"<title>{escape(name)}</title><style>{style}</style></head>"
    )
    return f"{head}\n<body>\n{WHO}\n" + "\n".join(parts) + "\n</body></html>\n"
