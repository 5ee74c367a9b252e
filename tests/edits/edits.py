"""The must-fail edits, crates/NAME/must-fail/*.edit: lines `file: PATH`, `old: TEXT` and `new: TEXT`, which `rt` applies to a copy of the
crate. Each `old` is in its file exactly once, after the pairs before it."""
import pathlib
from typing import Dict, Iterable, List, NamedTuple


class Misfit(Exception):
    """Why an edit cannot be applied."""


class Pair(NamedTuple):
    """A change of one line: the path of its file in the crate, the text, and what replaces it."""

    path: str
    old: str
    new: str

    @property
    def text(self) -> str:
        """The pair as lines of an edit."""
        return f"file: {self.path}\nold: {self.old}\nnew: {self.new}\n"


def pairs_of(text: str) -> List[Pair]:
    """The pairs of an edit, in order."""
    pairs: List[Pair] = []
    path = old = ""
    for line in text.splitlines():
        field, _, rest = line.partition(":")
        rest = rest[1:] if rest.startswith(" ") else rest
        if field == "file":
            path = rest
        elif field == "old":
            old = rest
        elif field == "new" and path and old:
            pairs.append(Pair(path, old, rest))
            old = ""
        else:
            raise Misfit(f"not a field: {line}")
    if old or not pairs:
        raise Misfit("an `old` has no `new`" if old else "it has no pair of `old` and `new`")
    return pairs


def applied(crate: pathlib.Path, pairs: Iterable[Pair]) -> Dict[str, str]:
    """The texts of the files that an edit changes, by their paths in the crate."""
    texts: Dict[str, str] = {}
    for pair in pairs:
        if pair.path not in texts:
            file = crate / pair.path
            if not file.is_file():
                raise Misfit(f"there is no file {pair.path}")
            texts[pair.path] = file.read_text(encoding="utf-8")
        count = texts[pair.path].count(pair.old)
        if count != 1:
            raise Misfit(f"found {count} times in {file_name(pair.path)}: {pair.old.strip()}")
        texts[pair.path] = texts[pair.path].replace(pair.old, pair.new)
    return texts


def file_name(path: str) -> str:
    """The last part of a path."""
    return path.rpartition("/")[2]


def edits_of(tree: pathlib.Path) -> List[pathlib.Path]:
    """All edits of a tree, in order."""
    return sorted(tree.glob("crates/*/must-fail/*.edit"))
