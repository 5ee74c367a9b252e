"""The enums, structs and constants of the code that definitions name, as their sources declare them, for the page of definitions."""
import pathlib
import re
from typing import Dict, Iterable, List, NamedTuple, Tuple

CRATES = pathlib.Path(__file__).resolve().parent.parent / "crates"
ITEM = re.compile(r"((?:^ *///[^\n]*\n)*)(?:^ *#\[[^\n]*\]\n)*^pub (enum|struct) (\w+)(?:<[^>{]*>)? \{\n(.*?)^\}", re.M | re.S)
CONSTANT = re.compile(r"^pub const (\w+): [\w&' ]+ = ([^;]+);", re.M)


class Item(NamedTuple):
    """An enum or a struct: its crate, its name, the first sentence of its comment, and its variants or fields."""

    crate: str
    name: str
    says: str
    parts: Tuple[str, ...]


def first_sentence(comment: str) -> str:
    """The first sentence of a comment's lines."""
    text = " ".join(line.strip()[3:].strip() for line in comment.splitlines())
    end = re.search(r"\.(?= |$)", text)
    return text[: end.end()] if end else text


def parts_of(kind: str, body: str) -> Tuple[str, ...]:
    """The variants of an enum, each with what it has, or the public fields of a struct with their types."""
    text = re.sub(r"^ *(?://|#\[)[^\n]*\n", "", body, flags=re.M)
    if kind == "enum":
        return tuple(" ".join(it.split()).rstrip(",").replace(", }", " }") for it in re.findall(r"^    \w+(?:\([^)]*\)| \{.*?\}|)(?: = \d+)?,", text, re.M | re.S))
    return tuple(" ".join(it.split()) for it in re.findall(r"^    pub (\w+: [^\n]*?),$", text, re.M))


def items_in(crate: str, text: str) -> List[Item]:
    """The public enums and structs of a source."""
    return [Item(crate, name, first_sentence(comment), parts_of(kind, body)) for comment, kind, name, body in ITEM.findall(text)]


def item_of(path: List[str]) -> str:
    """The item that a path below a crate's declared names leads to: an enum for its variants, or a constant."""
    return path[path.index("TheVariants") - 1] if "TheVariants" in path else path[-1]


def cited(names: Iterable[str]) -> List[Tuple[str, str]]:
    """The crates and names of the items and constants among what definitions name."""
    paths = (name.split(".") for name in names)
    return sorted({(path[0], item_of(path[3:])) for path in paths if path[1:3] == ["specs", "declared"] and path[0] != "std"})


def found(names: Iterable[str]) -> Tuple[List[Item], List[Tuple[str, str, str]]]:
    """The enums and the structs with public fields among what definitions name; and the constants, each with its crate and its number."""
    wanted = cited(names)
    sources = {crate: [it.read_text(encoding="utf-8") for it in sorted((CRATES / crate / "src").rglob("*.rt"))] for crate, _ in wanted}
    items: Dict[Tuple[str, str], Item] = {(it.crate, it.name): it for crate, texts in sources.items() for text in texts for it in items_in(crate, text)}
    numbers = {(crate, name): value for crate, texts in sources.items() for text in texts for name, value in CONSTANT.findall(text)}
    return [items[it] for it in wanted if it in items and items[it].parts], [(*it, numbers[it]) for it in wanted if it in numbers]
