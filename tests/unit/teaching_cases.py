"""Cases of the parts of teaching/ that need no program, with results that were worked out by hand."""
import ast
import pathlib
import sys

ROOT = pathlib.Path(__file__).resolve().parents[2]
TEACHING = ROOT / "teaching"
sys.path.insert(0, str(TEACHING))

import references  # noqa: E402
import screens  # noqa: E402
import texts  # noqa: E402
from tally import Tally  # noqa: E402


def check_references(cases: Tally) -> None:
    """Two screens; words in comments and texts are not counted, and TABLE defines the word after it."""
    read = screens.Screens()
    read.lines[1] = ["( ROW isn't used here )", ": TABLE ( n -- ) CREATE ALLOT ;", "10 TABLE ROW", ': HI ." TABLE" ROW ;']
    read.lines[1].append("\\ ROW")
    read.lines[2] = ["hi HI 0FF FOO", " " * 60 + ": A-", "B ROW ;"]
    found = references.References(read, [1, 2])
    cases.same("defined", {"TABLE": [(1, 1)], "ROW": [(1, 2)], "HI": [(1, 3)], "A-B": [(2, 1)]}, found.defined)
    for name, places in (("TABLE", [(1, 2)]), ("ROW", [(1, 3), (2, 2)]), ("HI", [(2, 0)])):
        cases.same(f"where {name} is used", places, found.uses(name))
    read.lines[3] = [': ." ( -- ) 34 WORD HI ; IMMEDIATE', 'VARIABLE X : Y [COMPILE] ." X ;', ': Z ." X" ;']
    found = references.References(read, [3])
    defined = {'."': [(3, 0)], "X": [(3, 1)], "Y": [(3, 1)], "Z": [(3, 2)]}
    cases.same("words that are defined, if the program also redefines a word that takes a text", defined, found.defined)
    cases.same("where X is used", [(3, 1)], found.uses("X"))


def check_texts(cases: Tally) -> None:
    """Names: control bytes are spelled out."""
    cases.same("names", ["A", "<b>&\"'", "\\x07\\x1b", "\\xff\u00e9"], [texts.shown(name) for name in (b"A", b"<b>&\"'", b"\x07\x1b", b"\xff\xc3\xa9")])
    cases.same(
        "names of files", ["SQUARE.html", "_2E_22.html", "_2DX-Y.html", "_2F_2E_2E_2F.html"], [texts.file_name(name, ".html") for name in (b"SQUARE", b'."', b"-X-Y", b"/../")]
    )


def check_language(cases: Tally) -> None:
    """The scripts are Python 3.8's."""
    for path in sorted(TEACHING.iterdir()):
        first = path.read_bytes()[:40] if path.is_file() else b""
        if path.suffix == ".py" or first.startswith(b"#!/usr/bin/env python3"):
            try:
                ast.parse(path.read_text(encoding="utf-8"), feature_version=(3, 8))
            except SyntaxError as error:
                cases.same(str(path), "Python 3.8", str(error))


def check(cases: Tally) -> None:
    for act in (check_references, check_texts, check_language):
        act(cases)
