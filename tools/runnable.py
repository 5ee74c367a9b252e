"""Definitions of specs/ as Python functions, made one by one as they are needed; what the translator does not know it refuses.

A list is bytes or a tuple (std_words), a value of a data type or an enum is a tuple of its constructor's name and its parts, a record
a named tuple. A statement is a test; it must say which witnesses there are by equations, and which numbers it goes over by bounds.
"""
import itertools
import re
from collections import namedtuple
from typing import Any, Callable, Dict, FrozenSet, Iterable, List, Optional, Tuple

import antt
import declared
import definitions
import std_words
from antt import Node, Unknown

CRATES = definitions.CRATES
Names = Dict[str, str]  # what each name is in Python; `name()` where it is computed when it is asked for first
RECORDS: Dict[str, Any] = {}


def once(make: Callable[[], Any]) -> Callable[[], Any]:
    """What `make` answers, computed when it is asked for first."""
    kept: List[Any] = []

    def value() -> Any:
        if not kept:
            kept.append(make())
        return kept[0]

    return value


def remembered(does: Callable[[Any], Any], is_late: bool) -> Callable[[Any], Any]:
    """A function that remembers what it answered last of memories, and of values that constructors made: screens have hundreds in one another."""
    kept: Dict[int, Tuple[Any, Any]] = {}

    def value(passed: Any) -> Any:
        given = passed() if is_late else passed
        most = 8 if type(given) is bytes and len(given) > 60000 else 10000 if type(given) is tuple and type(given[0]) is str else 0
        if not most:
            return does(passed)
        if id(given) not in kept:
            if len(kept) >= most:
                kept.clear()
            kept[id(given)] = (given, does(passed))
        return kept[id(given)][1]

    return value


def record_class(fields: Iterable[str]) -> str:
    """The name of the class of records that have these fields."""
    kept = sorted(fields)
    name = "record_" + "_".join(kept)
    if name not in RECORDS:
        RECORDS[name] = namedtuple(name, ["f_" + field for field in kept])
    return name


def record(**values: Any) -> Any:
    """A record of these values."""
    return RECORDS[record_class(values)](*(values[field] for field in sorted(values)))


def place_of(definition: definitions.Definition) -> str:
    """The file and the line of a definition."""
    path = CRATES / definition.crate / "specs" / (definition.module.replace(".", "/") + ".antt")
    lines = path.read_text(encoding="utf-8").splitlines() if path.exists() else []
    first = definition.text.split("\n")[0]
    return f"crates/{path.relative_to(CRATES)}:{lines.index(first) + 1 if first in lines else 1}"


def names_in(node: Node) -> FrozenSet[str]:
    """The names in a pattern; also those of constructors."""
    own = frozenset([node.value]) if node.kind == "name" else frozenset()
    return own.union(*(names_in(one) for one in node.parts))


def is_name(node: Node, *values: str) -> bool:
    return node.kind == "name" and (not values or node.value in values)


def is_equation(test: Node) -> bool:
    """Whether a function is a test `λ x. x == y`, which is done fast."""
    said = test.parts[0]
    return said.kind == "operator" and said.value == "==" and is_name(said.parts[0], *test.names) and not names_in(said.parts[1]) & set(test.names)


class Lines:
    """Lines of Python that are being written."""

    def __init__(self, depth: int = 0) -> None:
        self.lines: List[str] = []
        self.depth = depth

    def add(self, line: str, deeper: int = 0) -> None:
        self.lines.append("    " * self.depth + line)
        self.depth += deeper


class Runnable:
    """The definitions that were translated, and those that may be."""

    def __init__(self, library: Optional[definitions.Library] = None) -> None:
        self.library = library or definitions.Library()
        self.read: Dict[definitions.Definition, antt.Read] = {}
        self.late: Dict[definitions.Definition, Tuple[bool, ...]] = {}
        self.made: Dict[definitions.Definition, str] = {}
        self.crates = {path.partition(".")[0] for path in self.library.modules}
        self.numbers = itertools.count()
        self.constants: Dict[str, Dict[str, int]] = {}
        words = {f"word_{place}": word.does for place, word in enumerate(std_words.WORDS.values())}
        self.space: Dict[str, Any] = {"once": once, "Unknown": Unknown, "RECORDS": RECORDS, **vars(std_words), **words}

    def function(self, path: str, name: str) -> Any:
        """The Python function of a definition, as `function("machine.specs.Tick", "ticked")`."""
        found = self.library.find(path, name)
        if found is None:
            raise Unknown(f"{path} has no {name}")
        made, lates = self.space[self.translated(found)], self.lates(found)
        if not any(lates):
            return made
        return lambda *given: made(*((lambda value=one: value) if late else one for one, late in zip(given, lates)))

    def translated(self, definition: definitions.Definition) -> str:
        """The name of a definition's Python function; it is translated where it has not been yet."""
        if definition not in self.made:
            name = re.sub(r"\W", "_", f"{definition.crate}_{definition.module}_{definition.name}_{len(self.made)}")
            self.made[definition] = name
            try:
                text = Translation(self, definition).text(name)
            except Unknown as unknown:
                said = str(unknown)
                raise Unknown(said if said.startswith("crates/") else f"{place_of(definition)}: {definition.name}: {said}") from None
            exec(compile(text, place_of(definition), "exec"), self.space)
            if not self.lates(definition):
                self.space[name] = once(self.space[name])
            elif len(self.lates(definition)) == 1:
                self.space[name] = remembered(self.space[name], self.lates(definition)[0])
        return self.made[definition]

    def reading(self, definition: definitions.Definition) -> antt.Read:
        if definition not in self.read:
            self.read[definition] = antt.read_definition(definition.text)
        return self.read[definition]

    def lates(self, definition: definitions.Definition) -> Tuple[bool, ...]:
        """Which arguments of a function may stay uncomputed: those that are a name in each clause, and not needed in one of them."""
        if definition not in self.late:
            read = self.reading(definition)
            count = len(read.clauses[0].patterns) if read.clauses else 0
            self.late[definition] = (False,) * count  # while it is read itself
            it = Translation(self, definition)
            if not read.fields and not antt.is_statement(read) and not it.repeats(read):
                self.late[definition] = tuple(it.is_late(read, place) for place in range(count))
        return self.late[definition]

    def constant(self, crate: str, name: str) -> int:
        """A constant of a crate's code."""
        if crate not in self.constants:
            sources = sorted((CRATES / crate / "src").rglob("*.rt"))
            found = [pair for it in sources for pair in declared.CONSTANT.findall(it.read_text(encoding="utf-8"))]
            self.constants[crate] = {title: int(value) for title, value in found if re.match(r"\d[\d_]*$", value)}
        if name not in self.constants[crate]:
            raise Unknown(f"no number is known for the constant {name} of {crate}")
        return self.constants[crate][name]


class Translation:
    """The translation of one definition."""

    def __init__(self, runnable: Runnable, definition: definitions.Definition) -> None:
        self.runnable = runnable
        self.definition = definition
        self.home = f"{definition.crate}.specs.{definition.module}"
        self.imports = runnable.library.modules[self.home].imports

    def fresh(self, name: str) -> str:
        return f"{re.sub(chr(92) + 'W', '_', name)}_{next(self.runnable.numbers)}"

    # What names are.

    def path(self, node: Node, names: Iterable[str]) -> Tuple[str, str]:
        """The module and the name of a global name, as `cell` or `request.Key`; empty where it is none."""
        if is_name(node) and node.value not in names:
            path, name = self.imports.get(node.value, (self.home, node.value))
            return (path, name) if name else (self.home, node.value)
        if node.kind == "field" and is_name(node.parts[0]) and node.parts[0].value not in names:
            module, name = self.imports.get(node.parts[0].value, ("", "?"))
            return (module, node.value) if not name else ("", "")
        return ("", "")

    def constructor(self, node: Node, names: Iterable[str]) -> Optional[str]:
        """The constructor that a name is, by its own name; none where it is something else."""
        path, name = self.path(node, names)
        if path.endswith(".TheVariants") or (path.startswith("std.") and name in ("Some", "None", "Ok", "Err")):
            return name
        found = self.runnable.library.find(path, name)
        return name if found is not None and name in found.constructors else None

    def callee(self, node: Node, names: Iterable[str]) -> Optional[definitions.Definition]:
        path, name = self.path(node, names)
        return self.runnable.library.find(path, name) if path else None

    # Which arguments may stay uncomputed.

    def repeats(self, read: antt.Read) -> bool:
        """Whether a function is written as a loop: it calls itself last, or to make the rest of a list, and has no function in it."""
        return "λ" not in self.definition.text and any(self.calls_last(clause.result, len(clause.patterns)) for clause in read.clauses)

    def calls_last(self, node: Node, count: int) -> bool:
        if node.kind == "apply":
            return is_name(node.parts[0], self.definition.name) and len(node.parts) == count + 1
        if node.kind in ("let", "if"):
            return any(self.calls_last(one, count) for one in node.parts[1:])
        return node.kind == "operator" and node.value in ("∷", "++") and self.calls_last(node.parts[1], count)

    def is_late(self, read: antt.Read, place: int) -> bool:
        patterns = [clause.patterns[place] for clause in read.clauses]
        if not all(is_name(one, "_") or (is_name(one) and not self.is_made(one)) for one in patterns):
            return False
        return any(one.value not in self.needed(clause.result, names_in(one)) for one, clause in zip(patterns, read.clauses))

    def is_made(self, pattern: Node) -> bool:
        return pattern.value in ("[]", "zero", "true", "false") or self.constructor(pattern, ()) is not None

    def needed(self, node: Node, names: FrozenSet[str]) -> FrozenSet[str]:
        """Which names are surely computed where a tree is."""
        parts = node.parts
        if node.kind == "name":
            return frozenset([node.value])
        if node.kind == "lambda":
            return frozenset()
        if node.kind == "let":
            body = self.needed(parts[1], names)
            return (body - {node.value}) | (self.needed(parts[0], names) if node.value in body else frozenset())
        if node.kind == "if":
            return self.needed(parts[0], names) | (self.needed(parts[1], names) & self.needed(parts[2], names))
        if node.kind == "elim":
            ends = [self.needed(end, names) - names_in(pattern) for pattern, end in zip(parts[1::2], parts[2::2])]
            return self.needed(parts[0], names) | frozenset.intersection(*ends)
        if node.kind == "operator" and node.value in ("&&", "||"):
            return self.needed(parts[0], names)
        late: Tuple[bool, ...] = ()
        if node.kind == "apply":
            called = self.callee(parts[0], names)
            late = (False, *self.runnable.lates(called)) if called and not self.constructor(parts[0], names) else ()
        sure = (one for place, one in enumerate(parts) if late[place : place + 1] != (True,))
        return frozenset().union(*(self.needed(one, names) for one in sure))

    # A definition.

    def text(self, name: str) -> str:
        """The Python function of this name."""
        read = self.runnable.reading(self.definition)
        if not read.clauses:
            raise Unknown("it has no clause")
        if read.fields:
            return self.record_text(name, read)
        lates = self.runnable.lates(self.definition)
        arguments = [self.fresh("given") for _ in lates]
        out = Lines()
        out.add(f"def {name}({', '.join(arguments)}):", 1)
        loop = (arguments, self.fresh("front")) if self.repeats(read) else None
        if loop:
            out.add(f"{loop[1]} = []")
            out.add("while True:", 1)
        for clause in read.clauses:
            depth, names = out.depth, {}
            for pattern, argument, late in zip(clause.patterns, arguments, lates):
                if late:
                    names[pattern.value] = f"{argument}()"
                else:
                    self.match(pattern, argument, names, out)
            self.finish(clause.result, names, out, loop)
            out.depth = depth
        out.add(f"raise Unknown('{self.definition.name}: no clause fits')")
        return "\n".join(out.lines)

    def record_text(self, name: str, read: antt.Read) -> str:
        """A record of facts: whether they hold of its parameters."""
        names = {pattern.value: self.fresh(pattern.value) for pattern in read.clauses[0].patterns}
        out = Lines()
        out.add(f"def {name}({', '.join(names.values())}):", 1)
        unknown = [field for field, said in read.fields if not self.is_fact(said)]
        self.search([said for _, said in read.fields if self.is_fact(said)], unknown, names, out)
        out.depth = 1
        out.add("return False")
        return "\n".join(out.lines)

    def is_fact(self, said: Node) -> bool:
        """Whether a field's type is a statement, and not the type of a value."""
        if said.kind == "bind" or (said.kind == "operator" and said.value in ("→", "×")):
            return self.is_fact(said.parts[1])
        head = said.parts[0] if said.kind == "apply" else said
        if said.kind == "operator" or is_name(head, "Unit", "⊥", "IsTrue", "IsFalse", "All", "IsSome"):
            return True
        called = self.callee(head, ())
        if called is None or not antt.is_statement(self.runnable.reading(called)):
            return False
        return not called.text.startswith("pub data") and bool(self.runnable.reading(called).clauses[0].patterns)

    # Patterns: what is written after them is done where they fit.

    def match(self, pattern: Node, value: str, names: Names, out: Lines) -> None:
        """Writes the tests of a pattern, and the names that it gives."""
        made = self.constructor(pattern.parts[0] if pattern.kind == "apply" else pattern, ())
        if made is not None:
            out.add(f"if {value}[0] == {made!r}:", 1)
            for place, part in enumerate(pattern.parts[1:] if pattern.kind == "apply" else ()):
                self.match(part, f"{value}[{place + 1}]", names, out)
        elif pattern.kind == "tuple":
            for place, part in enumerate(pattern.parts):
                self.match(part, f"{value}[{place}]", names, out)
        elif pattern.kind == "operator" and pattern.value == "∷":
            out.add(f"if {value}:", 1)
            self.match(pattern.parts[0], f"{value}[0]", names, out)
            self.match(pattern.parts[1], f"tail({value})", names, out)
        elif is_name(pattern, "[]", "zero", "true", "false"):
            out.add(f"if {value}:" if pattern.value == "true" else f"if not {value}:", 1)
        elif pattern.kind == "apply" and is_name(pattern.parts[0], "suc", "pos", "negsuc"):
            test, less = {"suc": ("{} > 0", "{} - 1"), "pos": ("{} >= 0", "{}"), "negsuc": ("{} < 0", "-{} - 1")}[pattern.parts[0].value]
            out.add(f"if {test.format(value)}:", 1)
            self.match(pattern.parts[1], less.format(value), names, out)
        elif is_name(pattern):
            self.give(pattern.value, value, names, out)
        else:
            raise Unknown(f"a pattern of the kind {pattern.kind}")

    def give(self, name: str, value: str, names: Names, out: Lines) -> None:
        if name != "_":
            names[name] = self.fresh(name)
            out.add(f"{names[name]} = {value}")

    # What a function comes to.

    def finish(self, node: Node, names: Names, out: Lines, loop: Optional[Tuple[List[str], str]] = None) -> None:
        """Writes the lines that return a tree's value."""
        if node.kind == "let":
            inner = self.let(node, names, out)
            self.finish(node.parts[1], inner, out, loop)
        elif node.kind == "if":
            out.add(f"if {self.value(node.parts[0], names, out)}:", 1)
            self.finish(node.parts[1], names, out, loop)
            out.depth -= 1
            self.finish(node.parts[2], names, out, loop)
        elif node.kind == "elim":
            value = self.fresh("cases")
            out.add(f"{value} = {self.value(node.parts[0], names, out)}")
            for pattern, end in zip(node.parts[1::2], node.parts[2::2]):
                depth, inner = out.depth, dict(names)
                self.match(pattern, value, inner, out)
                self.finish(end, inner, out)
                out.depth = depth
        elif loop and self.calls_last(node, len(loop[0])):
            self.repeat(node, names, out, loop)
        elif loop:
            value = self.value(node, names, out)
            out.add(f"return append(listed({loop[1]}), {value}) if {loop[1]} else {value}")
        else:
            out.add(f"return {self.value(node, names, out)}")

    def repeat(self, node: Node, names: Names, out: Lines, loop: Tuple[List[str], str]) -> None:
        """The loop goes on, after what comes before the rest of a list."""
        if node.kind == "operator":
            act = "append" if node.value == "∷" else "extend"
            out.add(f"{loop[1]}.{act}({self.value(node.parts[0], names, out)})")
            self.repeat(node.parts[1], names, out, loop)
        else:
            out.add(f"{', '.join(loop[0])}, = {', '.join(self.value(one, names, out) for one in node.parts[1:])},")
            out.add("continue")

    def let(self, node: Node, names: Names, out: Lines) -> Names:
        """Gives a `let`'s name, which is computed at once where it is needed."""
        value, inner = self.value(node.parts[0], names, out), dict(names)
        name = self.fresh(node.value)
        is_needed = node.value in self.needed(node.parts[1], frozenset(names))
        out.add(f"{name} = {value}" if is_needed else f"{name} = once(lambda: {value})")
        inner[node.value] = name if is_needed else f"{name}()"
        return inner

    def value(self, node: Node, names: Names, out: Lines) -> str:
        """A tree as a Python expression; what it needs before is written."""
        kinds: Dict[str, Callable[[Node, Names, Lines], str]] = {
            "name": self.name,
            "apply": self.apply,
            "lambda": self.function,
            "record": self.record,
            "field": self.field,
            "let": self.apart,
            "elim": self.apart,
            "bind": self.statement,
            "operator": self.operator,
        }
        if node.kind in kinds:
            return kinds[node.kind](node, names, out)
        parts = [self.value(one, names, out) for one in node.parts]
        if node.kind == "if":
            return f"({parts[1]} if {parts[0]} else {parts[2]})"
        if node.kind == "not":
            return f"(not {parts[0]})"
        if node.kind == "tuple":
            return f"({', '.join(parts)},)"
        return node.value.replace("_", "") if node.kind == "number" else repr(node.value)

    def apart(self, node: Node, names: Names, out: Lines) -> str:
        """A function of its own, which is called at once."""
        name = self.fresh("apart")
        out.add(f"def {name}():", 1)
        self.finish(node, names, out)
        out.depth -= 1
        return f"{name}()"

    def name(self, node: Node, names: Names, out: Lines) -> str:
        if node.value in names:
            return names[node.value]
        simple = {"[]": "b''", "true": "True", "false": "False", "zero": "0", "⊥": "False", "Unit": "True"}
        return simple[node.value] if node.value in simple else self.call(node, [], names, out)

    def field(self, node: Node, names: Names, out: Lines) -> str:
        if self.path(node, names)[0]:
            return self.call(node, [], names, out)
        value = self.value(node.parts[0], names, out)
        return f"{value}[{node.value}]" if node.value.isdigit() else f"{value}.f_{node.value}"

    def record(self, node: Node, names: Names, out: Lines) -> str:
        parts = {name: self.value(one, names, out) for name, one in zip(node.names, node.parts[1:])}
        if node.parts[0].kind == "none":
            return f"RECORDS[{record_class(parts)!r}]({', '.join(parts[name] for name in sorted(parts))})"
        given = ", ".join(f"f_{name}={value}" for name, value in parts.items())
        return f"{self.value(node.parts[0], names, out)}._replace({given})"

    def function(self, node: Node, names: Names, out: Lines) -> str:
        """A function of names that are given one after another."""
        inner = {**names, **{name: self.fresh(name) for name in node.names}}
        apart = Lines()
        result = self.value(node.parts[0], inner, apart)
        if not apart.lines:
            return "(" + "".join(f"lambda {inner[name]}: " for name in node.names) + result + ")"
        made = self.fresh("function")
        for place, name in enumerate(node.names):
            out.add(f"def {made}_{place}({inner[name]}):", 1)
        self.finish(node.parts[0], inner, out)
        for place in reversed(range(len(node.names))):
            out.depth -= 1
            if place:
                out.add(f"return {made}_{place}")
        return f"{made}_0"

    def apply(self, node: Node, names: Names, out: Lines) -> str:
        return self.call(node.parts[0], list(node.parts[1:]), names, out)

    def call(self, head: Node, parts: List[Node], names: Names, out: Lines) -> str:
        """A call of what a name is, with as many arguments as there are."""
        if is_name(head, "suc") and head.value not in names:
            return f"({self.value(parts[0], names, out)} + 1)" if parts else "(lambda n: n + 1)"
        made = self.constructor(head, names)
        if made is not None:
            return self.construct(made, self.arity(head, names), [self.value(one, names, out) for one in parts])
        path, name = self.path(head, names)
        if name == "cond" and path.startswith("std.") and len(parts) == 3:
            return self.value(Node("if", "", tuple(parts)), names, out)
        if name == "list_any" and parts[0].kind == "lambda" and is_equation(parts[0]):
            return f"({self.value(parts[0].parts[0].parts[1], names, out)} in {self.value(parts[1], names, out)})"
        if not path:
            return self.called(self.value(head, names, out), [self.value(one, names, out) for one in parts])
        if path.endswith("TheConstants"):
            return str(self.runnable.constant(path.split(".")[0], name))
        if path.partition(".")[0] not in self.runnable.crates:
            if name not in std_words.WORDS:
                raise Unknown(f"{path}.{name} is not in tools/std_words.py")
            does, late = f"word_{list(std_words.WORDS).index(name)}", (False,) * std_words.WORDS[name].takes
        else:
            called = self.callee(head, names)
            if called is None:
                raise Unknown(f"{name} is not known")
            does, late = self.runnable.translated(called), self.runnable.lates(called)
        return self.given(does, late, parts, names, out)

    def arity(self, head: Node, names: Names) -> int:
        """How many parts a constructor has; 0 where only the code says it."""
        name, found = self.constructor(head, names), self.callee(head, names)
        if found is None:
            return int(name in ("Some", "Ok", "Err"))
        said = next(said for title, said in self.runnable.reading(found).fields if title == name)
        return len(facts_of(said)[0]) + len(facts_of(said)[1]) - 1 if said.value == "→" else 0

    def construct(self, made: str, arity: int, values: List[str]) -> str:
        """The value that a constructor makes, or a function of the parts that it lacks."""
        others = [self.fresh("part") for _ in range(arity - len(values))]
        return "(" + "".join(f"lambda {other}: " for other in others) + f"({', '.join([repr(made), *values, *others])},))"

    def given(self, does: str, late: Tuple[bool, ...], parts: List[Node], names: Names, out: Lines) -> str:
        """A function with the arguments that are given; it is a function of the others, or what it answers gets the rest."""
        values = [self.late(one, names, out) if is_late else self.value(one, names, out) for one, is_late in zip(parts, [*late, *(False for _ in parts)])]
        if len(values) >= len(late):
            return self.called(f"{does}({', '.join(values[:len(late)])})", values[len(late) :])
        kept = [self.fresh("kept") for _ in values]
        others = [self.fresh("other") for _ in late[len(values) :]]
        passed = [f"lambda: {other}" if is_late else other for other, is_late in zip(others, late[len(values) :])]
        partial = "".join(f"lambda {other}: " for other in others) + f"{does}({', '.join(kept + passed)})"
        return f"(lambda {', '.join(kept)}: {partial})({', '.join(values)})" if kept else f"({partial})"

    def late(self, node: Node, names: Names, out: Lines) -> str:
        """An argument that is computed when it is asked for first."""
        value = self.value(node, names, out)
        if is_name(node) and value.endswith("()"):
            return value[:-2]
        return f"once(lambda: {value})" if node.kind == "apply" else f"(lambda: {value})"

    @staticmethod
    def called(function: str, values: List[str]) -> str:
        return function + "".join(f"({value})" for value in values)

    # Statements.

    def operator(self, node: Node, names: Names, out: Lines) -> str:
        if node.value in ("×", "→"):
            return self.statement(node, names, out)
        items = items_of(node)
        if items:
            return f"listed(({', '.join(self.value(one, names, out) for one in items)},))"
        parts = [self.value(one, names, out) for one in node.parts]
        if node.value in std_words.OPERATORS:
            return std_words.OPERATORS[node.value].format(*parts)
        path, name = self.imports.get(f"◌{node.value}◌", (self.home, f"◌{node.value}◌"))
        called = self.runnable.library.find(path, name)
        if called is None:
            raise Unknown(f"the operator {node.value}")
        return self.given(self.runnable.translated(called), self.runnable.lates(called), list(node.parts), names, out)

    def statement(self, node: Node, names: Names, out: Lines) -> str:
        """Statements that all hold, of values that exist; or one that follows from others, which fails where they hold and it does not."""
        facts, unknown = facts_of(node)
        if not unknown and node.value == "×":
            return "(" + " and ".join(self.value(fact, names, out) for fact in facts) + ")"
        if node.value == "→":
            facts[-1] = Node("not", "", (facts[-1],))
        name = self.fresh("exists")
        out.add(f"def {name}():", 1)
        depth = out.depth
        self.search(facts, unknown, dict(names), out)
        out.depth = depth
        out.add("return False")
        out.depth -= 1
        return f"{'not ' if node.value == '→' else ''}{name}()"

    def search(self, facts: List[Node], unknown: List[str], names: Names, out: Lines) -> None:
        """Writes a search for values of unknown names for which facts hold; where there are some, it returns True."""
        facts, unknown = list(facts), [name for name in unknown if name != "_"]
        while facts:
            fact = next((one for one in facts if not names_in(one) & set(unknown)), None)
            if fact is not None:
                facts.remove(fact)
                out.add(f"if {self.value(fact, names, out)}:", 1)
            elif not self.solve_one(facts, unknown, names, out):
                self.count_one(facts, unknown, names, out)
        out.add("return True")

    def solve_one(self, facts: List[Node], unknown: List[str], names: Names, out: Lines) -> bool:
        """Takes the first fact which says by an equation what unknown names are."""
        for fact in facts:
            if fact.kind == "operator" and fact.value == "≡":
                for known, pattern in (fact.parts, fact.parts[::-1]):
                    if not names_in(known) & set(unknown) and self.is_solvable(pattern, unknown, names):
                        facts.remove(fact)
                        value = self.fresh("value")
                        out.add(f"{value} = {self.value(known, names, out)}")
                        self.solve(pattern, value, unknown, names, out)
                        return True
        return False

    def is_solvable(self, pattern: Node, unknown: List[str], names: Names) -> bool:
        """Whether a value that a pattern is equal to says what its unknown names are."""
        if (is_name(pattern) and pattern.value in unknown) or not names_in(pattern) & set(unknown):
            return True
        if pattern.kind == "operator" and pattern.value in ("∷", "++"):
            return all(self.is_solvable(one, unknown, names) for one in pattern.parts)
        return pattern.kind == "apply" and self.constructor(pattern.parts[0], names) is not None

    def solve(self, pattern: Node, value: str, unknown: List[str], names: Names, out: Lines) -> None:
        """Writes a loop over all values of unknown names at which a pattern is a value."""
        head = pattern.parts[0] if pattern.kind == "apply" else pattern
        if is_name(pattern) and pattern.value in unknown:
            unknown.remove(pattern.value)
            self.give(pattern.value, value, names, out)
        elif not names_in(pattern) & set(unknown):
            out.add(f"if {value} == {self.value(pattern, names, out)}:", 1)
        elif pattern.kind == "operator" and pattern.value in ("∷", "++"):
            place, halves, is_split = self.fresh("place"), (self.fresh("part"), self.fresh("part")), pattern.value == "++"
            out.add(f"for {place} in range(len({value}) + 1):" if is_split else f"if {value}:", 1)
            out.add(f"{halves[0]} = {f'take({place}, {value})' if is_split else f'{value}[0]'}")
            out.add(f"{halves[1]} = {f'drop({place}, {value})' if is_split else f'tail({value})'}")
            for part, half in zip(pattern.parts, halves):
                self.solve(part, half, unknown, names, out)
        elif self.constructor(head, names):
            out.add(f"if {value}[0] == {self.constructor(head, names)!r}:", 1)
            for number, part in enumerate(pattern.parts[1:], 1):
                self.solve(part, f"{value}[{number}]", unknown, names, out)
        else:
            raise Unknown(f"no equation says what {', '.join(unknown)} is")

    def count_one(self, facts: List[Node], unknown: List[str], names: Names, out: Lines) -> None:
        """Writes a loop over the numbers below a bound that a fact says."""
        for fact in facts:
            if fact.kind == "operator" and fact.value in ("<", "≤") and is_name(fact.parts[0]) and fact.parts[0].value in unknown:
                if not names_in(fact.parts[1]) & set(unknown):
                    name = fact.parts[0].value
                    unknown.remove(name)
                    names[name] = self.fresh(name)
                    out.add(f"for {names[name]} in range({self.value(fact.parts[1], names, out)} + 1):", 1)
                    return
        raise Unknown(f"no equation and no bound says what {', '.join(unknown)} may be")


def items_of(node: Node) -> List[Node]:
    """The items of a list that is written out; none where it is not."""
    items = []
    while node.kind == "operator" and node.value == "∷":
        items.append(node.parts[0])
        node = node.parts[1]
    return items if is_name(node, "[]") else []


def facts_of(node: Node) -> Tuple[List[Node], List[str]]:
    """The statements that a statement joins by its sign, and the names that it gives values of."""
    sign, facts = node.value, []
    unknown: List[str] = []
    while True:
        if node.kind == "bind" and node.value == sign:
            unknown += node.names
            node = node.parts[1]
        elif node.kind == "operator" and node.value == sign:
            facts.append(node.parts[0])
            node = node.parts[1]
        else:
            return [*facts, node], unknown
