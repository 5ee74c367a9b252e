"""The definitions that contracts are made of: read from the crates' `specs/`, and followed from the clauses of functions."""
import pathlib
import re
from typing import Dict, Iterable, Iterator, List, NamedTuple, Optional, Set, Tuple

import promises

CRATES = pathlib.Path(__file__).resolve().parent.parent / "crates"
HEAD = re.compile(r"^(?:(?:abbrev|unfoldable) )?(?:pub )?(?:record |data )?([^\s:(){]+) ?.*:")
CONSTRUCTOR = re.compile(r"^  (?:pub )?([A-Z][\w'-]*) :")
IMPORT = re.compile(r"^ *(?:pub |ghost )*use Rattle\.([\w.]+?)(?:\.\{([^}]*)\}| as ([\w'-]+))?;?$", re.M)
NAME = re.compile(r"[A-Za-z_][\w'-]*(?:\.[A-Za-z_][\w'-]*)*")

Where = Tuple[str, str]  # a module's path below its crate's `specs`, as ("machine", "Tick"), and a name in it


class Definition(NamedTuple):
    """A definition with its text, without comments."""

    crate: str
    module: str
    name: str
    text: str
    constructors: Tuple[str, ...]

    @property
    def lines(self) -> int:
        """How many lines one has to read; none of a table of rows, which is made of their headings."""
        is_made = self.module == "Table" and self.name.endswith("_rows")
        return 0 if is_made else sum(1 for line in self.text.splitlines() if line.strip())

    @property
    def file(self) -> str:
        """The file that has it, below crates/; a trait's is a source."""
        return f"{self.crate}/{self.module if self.module.endswith('.rt') else f'specs/{self.module}.antt'}"


class Module(NamedTuple):
    """A file of definitions: what it defines, and what it imports, by the name that it has here."""

    definitions: List[Definition]
    imports: Dict[str, Tuple[str, str]]


def imports_of(text: str) -> Dict[str, Tuple[str, str]]:
    """What a text imports: each name here, with the module and the name there; the name is empty for a whole module."""
    found: Dict[str, Tuple[str, str]] = {}
    for path, names, alias in IMPORT.findall(text):
        if alias:
            found[alias] = (path, "")
        for name in (part.strip() for part in names.split(",") if part.strip()):
            there, _, here = name.partition(" as ")
            found[here or there] = (path, there)
    return found


def begins(line: str) -> Optional[str]:
    """The name that a line begins to define, if it begins a definition."""
    if line.startswith(("abbrev ", "unfoldable ", "pub record ", "pub data ", "record ", "data ")):
        found = HEAD.match(line)
        return found[1] if found else None
    return None


def module_of(crate: str, name: str, text: str) -> Module:
    """Reads a file of definitions."""
    pieces: List[Tuple[str, List[str]]] = []
    for line in text.splitlines():
        if line.startswith(("--", "use ", "pub use ", "pub mod ", "mod ")) or not line.strip():
            continue
        started = begins(line)
        if started:
            pieces.append((started, []))
        if pieces:
            pieces[-1][1].append(line)
    made = [Definition(crate, name, title, "\n".join(lines), tuple(filter(None, (constructor(line) for line in lines)))) for title, lines in pieces]
    return Module(made, imports_of(text))


def constructor(line: str) -> Optional[str]:
    """The constructor that a line of a data type names."""
    found = CONSTRUCTOR.match(line)
    return found[1] if found else None


class Library:
    """The definitions of all crates, and how names lead to them."""

    def __init__(self) -> None:
        self.modules: Dict[str, Module] = {}
        self.places: Dict[Where, Definition] = {}
        for path in sorted(CRATES.glob("*/specs/**/*.antt")):
            crate = path.relative_to(CRATES).parts[0]
            name = ".".join(path.relative_to(CRATES / crate / "specs").with_suffix("").parts)
            self.add(crate, name, path.read_text(encoding="utf-8"))

    def add(self, crate: str, name: str, text: str) -> None:
        module = module_of(crate, name, text)
        key = f"{crate}.specs.{name}"
        self.modules[key] = module
        for definition in module.definitions:
            for title in (definition.name, *definition.constructors):
                self.places[key, title] = definition

    def find(self, path: str, name: str) -> Optional[Definition]:
        """The definition of this name in a module, or in one that it passes names on from."""
        found = self.places.get((path, name))
        module = self.modules.get(path)
        if found is None and module is not None and name in module.imports:
            return self.find(*module.imports[name])
        return found

    def cited(self, text: str, imports: Dict[str, Tuple[str, str]], home: str) -> Iterator[Tuple[Optional[Definition], str]]:
        """What a text cites: definitions, and names of the toolchain's libraries or declared in the code, as `path.name`."""
        for word in NAME.findall(text):
            head, _, rest = word.partition(".")
            path, name = imports.get(head, (home, head))
            if not name:
                path, name = path, rest.partition(".")[0]
            definition = self.find(path, name)
            if definition is not None:
                yield definition, ""
            elif head in imports:
                yield None, f"{path}.{name}".rstrip(".")

    def followed(self, roots: Iterable[Tuple[str, Dict[str, Tuple[str, str]]]]) -> Tuple[List[Definition], Set[str]]:
        """All definitions that these texts need, each after those that it cites, and the names of libraries and of the code."""
        order: List[Definition] = []
        seen: Set[Definition] = set()
        names: Set[str] = set()

        def visit(text: str, imports: Dict[str, Tuple[str, str]], home: str) -> None:
            for definition, name in self.cited(text, imports, home):
                if definition is None:
                    names.add(name)
                elif definition not in seen:
                    seen.add(definition)
                    key = f"{definition.crate}.specs.{definition.module}"
                    visit(definition.text, self.modules[key].imports, key)
                    order.append(definition)

        for text, imports in roots:
            visit(text, imports, "")
        return order, names

    def of_promise(self, promise: promises.Promise) -> Tuple[List[Definition], Set[str]]:
        """What a promise needs: the clauses of traits that it speaks of, each after the definitions that it cites; and names."""
        needed, names = self.followed(clauses_of(*function) for function in promise.functions)
        for crate, file, trait in promise.traits:
            text, imports = trait_of(crate, file, trait)
            more, others = self.followed([(text, imports)])
            needed += [one for one in [*more, Definition(crate, f"src/{file}", f"trait {trait}", text, ())] if one not in needed]
            names |= others
        return needed, names


def trait_of(crate: str, file: str, trait: str) -> Tuple[str, Dict[str, Tuple[str, str]]]:
    """The clauses of a trait and what its logs are, without comments and imports; and what its file imports."""
    text = (CRATES / crate / "src" / file).read_text(encoding="utf-8")
    found = re.search(rf"^pub trait {trait}\b.*?^\}}$", text, re.M | re.S)
    if found is None:
        raise ValueError(f"{crate}/src/{file} has no trait {trait}")
    lines = (line for line in found[0].splitlines() if line.strip() and not re.match(r" *(//|ghost use|#\[)", line))
    return "\n".join(lines), imports_of(text)


def clauses_of(crate: str, file: str, function: str, *names: str) -> Tuple[str, Dict[str, Tuple[str, str]]]:
    """The clauses of a function, or those of these names, without comments, and what its file imports."""
    text = (CRATES / crate / "src" / file).read_text(encoding="utf-8")
    head = re.search(rf"^ *(?:pub )?(?:extern \"C\" )?fn {function}\b", text, re.M)
    if head is None:
        raise ValueError(f"{crate}/src/{file} has no function {function}")
    rest = text[head.start() :]
    body = re.search(r"^ *\{$", rest, re.M)
    lines = (line for line in (rest[: body.start()] if body else rest).splitlines() if not line.strip().startswith("//"))
    clauses = re.split(r"^ *(?=requires\b|ensures\b)", "\n".join(lines), flags=re.M)[1:]
    kept = [clause for clause in clauses if not names or clause.split(maxsplit=2)[1] in names]
    if len(kept) < len(names):
        raise ValueError(f"{crate}/src/{file}, {function}: one of these clauses is missing: {', '.join(names)}")
    return "".join(kept), imports_of(text)
