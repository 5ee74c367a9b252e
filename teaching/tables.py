"""The table of a class: as text, as CSV, and as a page."""
import csv
import html
import io
import unicodedata
from typing import List, NamedTuple

from judged import Lesson, Result

RIGHT = "right"
SIGNS = {"right": "✓", "wrong": "✗", "missing": "?", "endless": "∞", "empty": "·"}
PLAIN = {"right": "+", "wrong": "x", "missing": "?", "endless": "@", "empty": "."}
MEANINGS = {"right": "right", "wrong": "wrong", "missing": "a word is missing", "endless": "never ends", "empty": "nothing written"}
MARK = "<!-- Made by ./forth class -->"


class Row(NamedTuple):
    """A pupil, and the result of each lesson; or why the file could not be checked."""

    name: str
    results: List[Result]
    refused: str

    def right(self) -> int:
        """How many lessons are right."""
        return sum(result.mark == RIGHT for result in self.results)


def readable(text: str) -> str:
    """A text without control characters, and not too long."""
    return "".join(letter if letter.isprintable() else "�" for letter in text)[:240]


def width(text: str) -> int:
    """How many columns a terminal needs for a text."""
    return sum(0 if unicodedata.combining(letter) else 2 if unicodedata.east_asian_width(letter) in "WF" else 1 for letter in text)


def padded(text: str, columns: int) -> str:
    """A text with spaces up to so many columns."""
    return text + " " * (columns - width(text))


def as_text(lessons: List[Lesson], rows: List[Row], signs: dict) -> str:
    """The table for a terminal, and below it what is wrong, by pupil."""
    columns = max([width(readable(row.name)) for row in rows] + [len("pupil")])
    heads = [str(lesson.number) for lesson in lessons]
    made = [" ".join([padded("pupil", columns), *heads, "right"])]
    for row in rows:
        cells = [signs[result.mark].rjust(len(head)) for result, head in zip(row.results, heads)]
        end = [f"{row.right()} of {len(lessons)}"] if not row.refused else [f"not checked: {readable(row.refused)}"]
        made.append(" ".join([padded(readable(row.name), columns), *cells, *end]))
    made += ["", ", ".join(f"{signs[mark]} {meaning}" for mark, meaning in MEANINGS.items())]
    for row in rows:
        wrong = [(lesson, result) for lesson, result in zip(lessons, row.results) if result.mark not in (RIGHT, "empty")]
        if wrong:
            made += ["", readable(row.name)]
            made += [f"  {lesson.number:2} {cell(result)}: {readable(result.text)}" for lesson, result in wrong]
    return "\n".join(made) + "\n"


def cell(result: Result) -> str:
    """A result in a word or two."""
    return f"{result.mark} {result.word}" if result.word else result.mark


def harmless(text: str) -> str:
    """A cell that no spreadsheet takes for a formula."""
    return "'" + text if text[:1] in ("=", "+", "-", "@", "\t", "\r") else text


def as_csv(lessons: List[Lesson], rows: List[Row]) -> str:
    """The table for a spreadsheet: `right`, `missing CUBE`, `wrong TWIST`, `endless STEPS`, `empty`."""
    made = io.StringIO()
    writer = csv.writer(made, lineterminator="\r\n")
    writer.writerow(["pupil", *(f"lesson {lesson.number}" for lesson in lessons), "right", "remark"])
    for row in rows:
        cells = [cell(result) for result in row.results] or [""] * len(lessons)
        fields = [row.name, *cells, str(row.right()) if not row.refused else "", row.refused]
        writer.writerow([harmless(readable(field)) for field in fields])
    return made.getvalue()


STYLE = """
:root { color-scheme: light dark; font: 16px/1.4 system-ui, sans-serif; }
body { max-width: 70rem; margin: 1.5rem auto; padding: 0 1rem; }
table { border-collapse: collapse; }
th, td { border: 1px solid #8888; padding: .2rem .5rem; text-align: center; }
th[scope=row] { text-align: left; font-weight: 600; }
.right { background: #2e8b5740; } .wrong, .missing { background: #d2691e40; } .endless { background: #c0392b50; }
dt { font-weight: 600; margin-top: .8rem; } code { font: .95em ui-monospace, monospace; }
@media print { dl { break-inside: avoid; } body { margin: 0; } }
"""


def as_page(lessons: List[Lesson], rows: List[Row], when: str) -> str:
    """The table as a page of its own."""
    heads = "".join(f'<th scope="col" title="{html.escape(lesson.title)}">{lesson.number}</th>' for lesson in lessons)
    legend = ", ".join(f"{SIGNS[mark]} {meaning}" for mark, meaning in MEANINGS.items())
    lines = "".join(page_row(lessons, row) for row in rows)
    notes = "".join(page_notes(lessons, row) for row in rows)
    policy = "default-src 'none'; style-src 'unsafe-inline'"
    return f"""<!DOCTYPE html>
{MARK}
<html lang="en"><head><meta charset="utf-8"><meta name="viewport" content="width=device-width">
<meta http-equiv="Content-Security-Policy" content="{policy}"><title>Class</title><style>{STYLE}</style></head>
<body><h1>Class</h1><p>{html.escape(when)}. {len(rows)} {"file" if len(rows) == 1 else "files"}. {legend}.</p>
<table><thead><tr><th scope="col">pupil</th>{heads}<th scope="col">right</th></tr></thead><tbody>{lines}</tbody></table>
<h2>What CHECK says</h2><dl>{notes}</dl></body></html>
"""


def page_row(lessons: List[Lesson], row: Row) -> str:
    """A pupil's row of the page."""
    name = f'<th scope="row">{html.escape(readable(row.name))}</th>'
    if row.refused:
        return f'<tr>{name}<td colspan="{len(lessons) + 1}">not checked: {html.escape(readable(row.refused))}</td></tr>'
    cells = "".join(f'<td class="{one.mark}" aria-label="{one.mark}" title="{html.escape(readable(one.text))}">{SIGNS[one.mark]}</td>' for one in row.results)
    return f"<tr>{name}{cells}<td>{row.right()}</td></tr>"


def page_notes(lessons: List[Lesson], row: Row) -> str:
    """What CHECK says of the lessons of a pupil that are not right."""
    wrong = [f"<dd>{lesson.number}: <code>{html.escape(readable(one.text))}</code></dd>" for lesson, one in zip(lessons, row.results) if one.mark not in (RIGHT, "empty")]
    return f"<dt>{html.escape(readable(row.name))}</dt>{''.join(wrong)}" if wrong else ""
