"""The functions of the program that one has to read, because no clause says all that they do.

There are two kinds, of all crates that the program is built of: those that are proved safe and no more, since they have no clause of what they
answer or do; and those whose clause says less than what they do, since they call the system, of which no clause can speak, directly or by
functions of their crate, or since it says nothing of a good answer. Functions of a trait's implementation have the trait's clauses, unless the
trait is one of std's that has none (`Display`, `Debug`, `From`, `Write`).
"""
import pathlib
import re
from typing import Dict, Iterator, List, NamedTuple

ROOT = pathlib.Path(__file__).resolve().parent.parent
MOST_NAMED = 8  # functions of a file that a README names
HEAD = re.compile(r"^( *)(?:#\[[^\n]*\]\n *)*(?:pub(?:\(crate\))? )?(?:const )?(?:extern \"C\" )?fn (\w+)", re.M)
OWNER = re.compile(r"^(?:impl(?:<[^{\n]*?>)? (?:(\w+)(?:<[^{\n]*>)? for )?(\w+)|(trait) (\w+)|pub (trait) (\w+))", re.M)
BARE_TRAITS = ("Display", "Debug", "Write", "Read")
SYSTEM = re.compile(r"\b(?:fs|io)::\w+|\bFile::|\bOpenOptions\b|\bstd(?:in|out|err)\(|\be?print(?:ln)?!\(|\benv::args|\.(?:read|write|flush|seek|metadata|set_len)\(")
USES_SYSTEM = re.compile(r"^use std::(?:io|fs|env|\{)", re.M)
GOOD = re.compile(r"\b(?:IfOk|OnOk|IsOkAnd|MatchResult|Ok)\b|result (?:≡|new)|\bresult\b(?! \(λ status)")


class Function(NamedTuple):
    crate: str
    file: str
    name: str
    head: str
    body: str
    trait: str
    calls_system: bool

    @property
    def lines(self) -> int:
        return (self.head + self.body).count("\n")

    @property
    def is_bare(self) -> bool:
        return "ensures" not in self.head and (not self.trait or self.trait in BARE_TRAITS)

    @property
    def takes_memory(self) -> bool:
        """Whether others call it, it is given an allocator, and it may answer an error or an end that is not a writer's."""
        signature = re.split(r"\n *(?:ensures|requires)\b", self.head)[0]
        is_public = re.search(r"^ *pub (?:extern \"C\" )?fn", signature, re.M) is not None
        return is_public and "alloc: Global" in signature and re.search(r"-> (?:Result<(?!.*EndFault)|Ended)", signature) is not None

    @property
    def is_silent(self) -> bool:
        """Whether it answers a value or an error, and its clauses speak of the error alone."""
        signature, _, clauses = self.head.partition("ensures")
        is_result = re.search(r"-> Result<(?!\(\))", signature) is not None
        return is_result and bool(clauses) and not GOOD.search(re.sub(r"\b(?:IfErr|OnErr) result", "", clauses))


def crates() -> List[str]:
    """The crates of the program, in the order of crates.txt."""
    lines = (ROOT / "crates.txt").read_text(encoding="utf-8").splitlines()
    return [line.split(":")[0].split()[0] for line in lines if ":" in line and not line.startswith("#")]


def owner_at(text: str, at: int) -> str:
    """The trait that a method at this place is an implementation of; an empty text if there is none."""
    owners = [it for it in OWNER.finditer(text) if it.start() < at]
    return (owners[-1][1] or "") if owners else ""


def head_and_body(rest: str, indent: str) -> List[str]:
    """The head of a function, which is its signature and its clauses, and its body, from the text that begins with it. A method that a
    trait only declares has no body."""
    lines = rest.splitlines(keepends=True)
    head = next((n for n, line in enumerate(lines) if ends_head(line, indent)), len(lines) - 1)
    if lines[head].rstrip().endswith(";"):
        return ["".join(lines[: head + 1]), ""]
    body = next((n for n in range(head, len(lines)) if lines[n].rstrip() in (f"{indent}}}", f"{indent}{{}}")), head)
    return ["".join(lines[: head + 1]), "".join(lines[head + 1 : body + 1])]


def ends_head(line: str, indent: str) -> bool:
    """Whether a function's head ends with this line."""
    text = line.rstrip()
    is_clause = re.match(r" *(requires|ensures)\b", text) is not None
    return text in (f"{indent}{{", f"{indent}{{}}") or text.endswith("};") or (not is_clause and text.endswith(("{", "{}", ";")))


def functions_in(crate: str, file: str, text: str) -> Iterator[Function]:
    """The functions of a file's text, without its tests."""
    for it in HEAD.finditer(text):
        if "#[test]" in it[0] or "#[cfg(test)]" in text[: it.start()].rsplit("\n\n", 1)[-1]:
            continue
        head, body = head_and_body(text[it.start() :], it[1])
        trait = owner_at(text, it.start()) if it[1] else ""
        yield Function(crate, file, it[2], head, body, trait, bool(USES_SYSTEM.search(text) and SYSTEM.search(body)))


def functions_of(crate: str) -> List[Function]:
    """The functions of a crate."""
    files = sorted((ROOT / "crates" / crate / "src").rglob("*.rt"))
    return [it for file in files for it in functions_in(crate, file.name, file.read_text(encoding="utf-8"))]


def calling(functions: List[Function]) -> List[Function]:
    """Those of a crate's functions that call the system, directly or by others."""
    found = [it for it in functions if it.calls_system]
    while True:
        names = "|".join({it.name for it in found if not it.trait})
        more = [it for it in functions if names and it not in found and re.search(rf"(?<![.\w])(?:self\.|Self::|\w+::)?(?:{names})\(", it.body)]
        if not more:
            return found
        found += more


class Unclaused(NamedTuple):
    """The functions of a crate without a clause, those whose clause says less than what they do, and the public ones that take memory, of
    which no clause says when there is none."""

    bare: List[Function]
    less: List[Function]
    memory: List[Function]


def unclaused_of(crate: str) -> Unclaused:
    """Those of a crate."""
    functions = functions_of(crate)
    calls = calling(functions)
    bare = [it for it in functions if it.is_bare]
    less = [it for it in functions if not it.is_bare and it.body and (it.is_silent or it in calls)]
    return Unclaused(bare, less, [it for it in functions if it not in bare and it.takes_memory])


def named(functions: List[Function]) -> str:
    """The functions' names by file; of a file that has more than eight, how many there are."""
    files: Dict[str, List[str]] = {}
    for it in functions:
        files.setdefault(it.file, []).append(f"`{it.name}`")
    return "; ".join(f"`{file}` {', '.join(dict.fromkeys(names)) if len(names) <= MOST_NAMED else f'({len(names)})'}" for file, names in files.items())


def unpromised(crate: str) -> List[str]:
    """What a README says of them, a sentence each."""
    found = unclaused_of(crate)
    lines = [f"No clause says what these functions answer or do, only that they are safe and return: {named(found.bare)}."] if found.bare else []
    lines += [f"A clause says less than what these do, since they call the system or may refuse: {named(found.less)}."] if found.less else []
    lines += [f"These take memory, and no clause says when there is none, so they may always answer so: {named(found.memory)}."] if found.memory else []
    return lines or ["Each function has clauses of what it answers and does."]
