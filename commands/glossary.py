"""The words of the Forth and of its tools: what data/words.txt says of each, and of primitives docs/primitives.txt; and those of the dialects, in
data/dialects.txt."""
import pathlib
import re
from typing import Dict, Iterator, List, NamedTuple, Tuple

ROOT = pathlib.Path(__file__).resolve().parent.parent
WORDS, PRIMITIVES, OF_DIALECTS = ROOT / "data/words.txt", ROOT / "docs/primitives.txt", ROOT / "data/dialects.txt"
KERNEL, TOOLS, TEXTS, INNER = "The kernel", "The tools", "Texts that come with the Forth", "Inner words"
DIALECTS = {"fig": "fig-FORTH", "f79": "Forth-79", "f83": "F83", "poly": "polyFORTH"}
UNNAMED = range(1, 5)  # the code fields of defining words, which have no name in the kernel
PRIMITIVE = "primitive"


class Malformed(Exception):
    """A line that is neither a word, a primitive nor a heading."""


class Primitive(NamedTuple):
    """A line of docs/primitives.txt."""

    number: int
    word: str
    is_immediate: bool
    effect: str
    faults: str
    sentence: str


class Word(NamedTuple):
    """A word: in which part and section it is, and what is said of it. An example is the lines that are typed, and what they show."""

    part: str
    section: str
    name: str
    effect: str
    is_immediate: bool
    says: str
    typed: Tuple[str, ...]
    shown: str

    def row(self) -> str:
        """Its row in a table of a page."""
        return f"| `{self.name}` | `{self.effect}` | {'yes' if self.is_immediate else ''} | {self.says}{example_text(self.typed, self.shown)} |"


class DialectWord(NamedTuple):
    """A word of dialects: in which section it is, which texts of screens/dialects define it so, and what is said of it."""

    section: str
    name: str
    effect: str
    is_immediate: bool
    dialects: Tuple[str, ...]
    says: str
    typed: Tuple[str, ...]
    shown: str

    def row(self) -> str:
        """Its row in the table of the page."""
        where = "all" if len(self.dialects) == len(DIALECTS) else " ".join(self.dialects)
        return f"| `{self.name}`{' (i)' * self.is_immediate} | `{self.effect}` | {where} | {self.says}{example_text(self.typed, self.shown)} |"


def example_text(typed: Tuple[str, ...], shown: str) -> str:
    """An example, as a page has it after what a word does."""
    lines = ", ".join(f"`{line}`" for line in typed)
    return f" Example: {lines}{f' shows `{shown}`' if shown else ''}." if lines else ""


def fields_of(line: str) -> List[str]:
    """The fields of a line, between bars that have a blank before them."""
    return [field.strip() for field in re.split(r" \|(?: |$)", line)]


def named(field: str) -> Tuple[str, bool]:
    """A name, and whether the word is immediate."""
    found = re.fullmatch(r"(\S+)( \(i\))?", field)
    if found is None:
        raise Malformed(field)
    return found[1], bool(found[2])


def primitive_of(line: str) -> Primitive:
    """The primitive of a line `number | word | effect | faults | sentence`."""
    parts = fields_of(line)
    if len(parts) != 5 or not parts[0].isdigit() or not parts[2] or not parts[4].endswith("."):
        raise Malformed(line)
    return Primitive(int(parts[0]), *named(parts[1]), parts[2], parts[3], parts[4])


def primitives(text: str = "") -> List[Primitive]:
    """The primitives, in the order of their numbers; a line that begins with `#` is a remark."""
    return [primitive_of(line) for line in (text or PRIMITIVES.read_text(encoding="utf-8")).splitlines() if line and not line.startswith("#")]


def says_of(it: Primitive) -> str:
    """What is said of a primitive, with its faults."""
    raised = ", ".join(fault for fault in it.faults.split(", ") if fault not in ("", "asks"))
    return f"{it.sentence} Faults: {raised}." if raised else it.sentence


def word_of(part: str, section: str, line: str, known: Dict[str, Primitive]) -> Word:
    """The word of a line."""
    fields = fields_of(line)
    if len(fields) != (3 if part == INNER else 4 if fields[1:2] == [PRIMITIVE] else 5):
        raise Malformed(line)
    name, is_immediate = named(fields[0])
    typed, shown = fields[-2:] if part != INNER else ("", "")
    if fields[1] != PRIMITIVE:
        return Word(part, section, name, fields[1], is_immediate, fields[2], example_of(typed), shown)
    if name not in known:
        raise Malformed(line)
    it = known[name]
    return Word(part, section, name, it.effect, it.is_immediate, says_of(it), example_of(typed), shown)


def example_of(typed: str) -> Tuple[str, ...]:
    """The lines that are typed."""
    return tuple(typed.split(r" \n ")) if typed else ()


def lines_of(text: str) -> Iterator[str]:
    """The lines of a list that are no remarks: these begin with `--`."""
    return (line for line in text.splitlines() if line and line != "--" and not line.startswith("-- "))


def dialect_word(section: str, line: str) -> DialectWord:
    """The word of a line of data/dialects.txt."""
    fields = fields_of(line)
    texts = tuple(DIALECTS) if fields[2:3] == ["all"] else tuple(fields[2].split()) if len(fields) > 2 else ()
    if len(fields) not in (4, 6) or not texts or not set(texts) <= DIALECTS.keys() or fields[2] != "all" and len(texts) == len(DIALECTS):
        raise Malformed(line)
    typed, shown = fields[4:] or ("", "")
    return DialectWord(section, *named(fields[0])[:1], fields[1], named(fields[0])[1], texts, fields[3], example_of(typed), shown)


def dialect_words(text: str = "") -> Iterator[DialectWord]:
    """All words of the dialects, in the order of the list."""
    section = ""
    for line in lines_of(text or OF_DIALECTS.read_text(encoding="utf-8")):
        if line.startswith("## "):
            section = line[3:]
        else:
            yield dialect_word(section, line)


def read(text: str = "", listed: str = "") -> Iterator[Word]:
    """All words, in the order of the list."""
    known = {it.word: it for it in primitives(listed) if it.number not in UNNAMED}
    part = section = ""
    for line in lines_of(text or WORDS.read_text(encoding="utf-8")):
        if line.startswith("## "):
            part = line[3:]
        elif line.startswith("### "):
            section = line[4:]
        else:
            yield word_of(part, section, line, known)
