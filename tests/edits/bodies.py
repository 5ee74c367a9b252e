"""Where the bodies of functions are in a Rattle source that `rt fmt` laid out, and which of them an edit changes.

What is not certain is no body: functions in inline modules, in macros and of a `#[cycle(..)]`, bodies on one line, and methods that a trait
only declares are left out. An edit of such lines is then tried by itself."""
import pathlib
import re
from typing import Dict, FrozenSet, Iterator, List, NamedTuple, Optional

HEAD = re.compile(r"^( {4})?(?:pub(?:\([a-z]+\))? )?(?:const )?(?:unsafe )?(?:extern \"C\" )?fn (\w+)")
OWNER = re.compile(r"^(?:pub(?:\([a-z]+\))? )?(?:impl(?:<.*?>)? (?:(\w+)(?:<.*>)? for )?(\w+)(?:<.*>)?|trait (\w+).*) \{$")
CLAUSE = re.compile(r"^ *(requires|ensures|ghost|where)\b")
# What is no code: comments, texts, raw texts, and bytes and characters (a lifetime has no quote at its end).
QUIET = re.compile(r"//[^\n]*|/\*.*?\*/|\bb?r(#*)\".*?\"\1|b?\"(?:\\.|[^\"\\])*\"|b?'(?:\\[^\n]*?|[^'\\\n])'", re.S)
ITEM = re.compile(r"\b(fn|mod|impl|trait|struct|enum|use|macro_rules|ghost|ensures|requires|invariant)\b")


class Body(NamedTuple):
    """A function with a body: its name, as the prover prints it if a method's type is of the same module, and the numbers, from 0, of the line at which it begins, of the line
    that ends with the body's first brace, and of the line that is its last brace."""

    function: str
    begins: int
    first: int
    last: int


class Place(NamedTuple):
    """A function's body, with the path of its file in the crate."""

    path: str
    body: Body


def module_of(crate: str, path: str) -> str:
    """The path of a file's module, as `cells` for src/lib.rt or `machine::machine::answers` for src/machine/answers.rt."""
    inside = path[len("src/") : -len(".rt")].split("/")
    return "::".join([crate, *([] if inside in (["lib"], ["main"]) else inside)])


def owner_of(lines: List[str], at: int) -> Optional[str]:
    """What the prover prints before the name of a method on this line, as `Stack` or, in an implementation of a trait, `StackDrop`."""
    above = next((lines[n] for n in range(at, -1, -1) if lines[n][:1] not in ("", " ", "#", "/", ")")), "")
    found = OWNER.match(above)
    return (found[3] or found[2] + (found[1] or "")) if found else None


def first_brace(lines: List[str], at: int, last: int, indent: str) -> Optional[int]:
    """The line that ends with the body's first brace: that brace alone, if the function has clauses."""
    alone = next((n for n in range(at, last) if lines[n] == indent + "{"), None)
    if alone is not None:
        return alone
    found = next((n for n in range(at, last) if lines[n].endswith("{")), None)
    return None if found is None or any(CLAUSE.match(line) for line in lines[at : found + 1]) else found


def begin_of(lines: List[str], at: int) -> int:
    """The line at which a function begins with its comments and attributes."""
    while at and lines[at - 1].lstrip().startswith(("//", "#[")):
        at -= 1
    return at


def bodies_in(crate: str, path: str, text: str) -> Iterator[Body]:
    """The bodies of a source's functions."""
    lines, module = text.split("\n"), module_of(crate, path)
    heads = [(n, found) for n, found in enumerate(map(HEAD.match, lines)) if found]
    ends = [begin_of(lines, n) for n, _ in heads[1:]] + [len(lines)]
    for (at, head), end in zip(heads, ends):
        indent, begins = head[1] or "", begin_of(lines, at)
        goes_on = tuple(indent + sign for sign in (" ", ")", "where", "{"))
        inner = next((n for n in range(at + 1, end) if lines[n] and not lines[n].startswith(goes_on)), end)
        owner = owner_of(lines, at) if indent else ""
        first = first_brace(lines, at, inner, indent)
        is_cycle = any("cycle" in line for line in lines[begins:at])
        if inner < end and lines[inner] == indent + "}" and first is not None and owner is not None and not is_cycle:
            yield Body("::".join(filter(None, [module, owner, head[2]])), begins, first, inner)


def is_whole(body: str) -> bool:
    """Whether each brace, bracket and parenthesis of a text closes one that is open, and no comment and no text in it is open at its end,
    so that it cannot end what it is in."""
    closing = {")": "(", "]": "[", "}": "{"}
    code = QUIET.sub(" ", body)
    if "/*" in code or '"' in code:
        return False
    wanted: List[str] = []
    for sign in re.findall(r"[][(){}]", code):
        if sign in closing and (not wanted or wanted.pop() != closing[sign]):
            return False
        if sign not in closing:
            wanted.append(sign)
    return not wanted


def function_at(bodies: List[Body], at: int, before: str, after: str) -> Optional[str]:
    """The function whose body is all that changes of this line, if there is one. (What begins an item stays out of bodies.)"""
    if set(ITEM.findall(QUIET.sub(" ", after))) - set(ITEM.findall(QUIET.sub(" ", before))):
        return None
    inside = (it for it in bodies if it.first < at < it.last or (it.first == at and after.startswith(before)))
    return next((it.function for it in inside), None)


def text_within(lines: List[str], body: Body, head: str) -> str:
    """What is between the braces of a body, if the line of its first brace was `head`."""
    return "\n".join([lines[body.first][len(head) :], *lines[body.first + 1 : body.last]])


def changed_in(crate: str, path: str, before: str, after: str) -> FrozenSet[Place]:
    """The functions of a file whose bodies are all that differs in the second text; none if something else differs."""
    old, new = before.split("\n"), after.split("\n")
    bodies = list(bodies_in(crate, path, before))
    if len(old) != len(new):
        return frozenset()
    found = {function_at(bodies, n, *pair) for n, pair in enumerate(zip(old, new)) if pair[0] != pair[1]}
    changed = [it for it in bodies if it.function in found]
    whole = all(is_whole(text_within(new, it, old[it.first])) for it in changed)
    return frozenset(Place(path, it) for it in changed) if whole and len(changed) == len(found) else frozenset()


def places_of(crate: pathlib.Path, texts: Dict[str, str]) -> FrozenSet[Place]:
    """The functions whose bodies are all that an edit changes of a crate; none if it changes something else."""
    if not all(path.startswith("src/") and path.endswith(".rt") for path in texts):
        return frozenset()
    found = [changed_in(crate.name, path, (crate / path).read_text(encoding="utf-8"), text) for path, text in texts.items()]
    return frozenset().union(*found) if all(found) else frozenset()
