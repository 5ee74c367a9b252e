"""The files of a crate with what each says of itself in its first comment, as a table of its README; and what the crate does not promise."""
import pathlib
import re
from typing import Dict, List, NamedTuple, Tuple

import unclaused

BEGINS = "<!-- tools/crate-files writes this table -->"
ENDS = "<!-- end of the table -->"
OPEN_BEGINS, OPEN_ENDS = "<!-- tools/crate-files writes what has no clause -->", "<!-- end of what has no clause -->"
ROW = re.compile(r"^\| `([^`]+)` \| (.+) \|$", re.M)


class Source(NamedTuple):
    """A file of a crate: its path within the crate, and its text."""

    path: str
    text: str


def first_sentence(text: str, mark: str) -> str:
    """The first sentence of the comment with which a file begins, empty if it begins with something else."""
    lines: List[str] = []
    for line in text.splitlines():
        if not line.startswith(f"{mark} "):
            break
        lines.append(line[len(mark) :].strip())
    whole = " ".join(lines)
    end = re.search(r"\.(?= [A-Z`])", whole)
    sentence = whole[: end.end()] if end else whole
    return sentence if not sentence or sentence.endswith((".", ";")) else f"{sentence}."


def said(source: Source) -> str:
    """What a file says of itself."""
    return first_sentence(source.text, "--" if source.path.endswith(".antt") else "//!").replace("|", "\\|")


def table(sources: List[Source], earlier: Dict[str, str]) -> Tuple[List[str], List[str]]:
    """The lines of the table, and the files of which nothing is said: a file without a first comment keeps the README's own words."""
    lines, silent = ["| file | what is in it |", "|---|---|"], []
    for source in sources:
        words = said(source) or earlier.get(source.path, "")
        if not words:
            silent.append(source.path)
        lines.append(f"| `{source.path}` | {words} |")
    return lines, silent


def with_table(readme: str, sources: List[Source]) -> Tuple[str, List[str]]:
    """The README with the table between its two marks, and what is wrong."""
    before, begins, rest = readme.partition(BEGINS)
    inside, ends, after = rest.partition(ENDS)
    if not begins or not ends:
        return readme, [f"it lacks the line {ENDS if begins else BEGINS}"]
    lines, silent = table(sources, dict(ROW.findall(inside)))
    made = "\n".join([before + begins, "", *lines, "", ends + after])
    return made, [f"{path} begins with no comment, and the table says nothing of it" for path in silent]


def sources_of(crate: pathlib.Path) -> List[Source]:
    """A crate's definitions, then its sources, the one that names the others first."""
    specs = sorted(path for path in crate.glob("specs/**/*.antt") if path.name != "Lib.antt")
    code = [*crate.glob("src/**/*.rt"), *crate.glob("src/**/*.unproved")]
    code.sort(key=lambda path: (path.stem not in ("lib", "main"), str(path)))
    return [Source(path.relative_to(crate).as_posix(), path.read_text(encoding="utf-8")) for path in specs + code]


def with_unpromised(readme: str, crate: str) -> Tuple[str, List[str]]:
    """The README with what no clause says between its two marks, and what is wrong."""
    before, begins, rest = readme.partition(OPEN_BEGINS)
    _, ends, after = rest.partition(OPEN_ENDS)
    if not begins or not ends:
        return readme, [f"it lacks the line {OPEN_ENDS if begins else OPEN_BEGINS}"]
    return "\n".join([before + begins, "", "\n".join(unclaused.unpromised(crate)), "", ends + after]), []
