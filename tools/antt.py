"""Reads definitions of the prover's language, as `specs/*.antt` has them: their signatures and clauses, as trees."""
import re
from typing import Dict, List, NamedTuple, Optional, Tuple

TOKEN = re.compile(r'\s+|(?P<token>"(?:[^"\\]|\\.)*"|\[\]|[()\[\]{},;]|λ|\.(?=\S)|\.|[^\s()\[\]{},;."λ]+)')
NUMBER = re.compile(r"\d[\d_]*$")

# How tightly the operators bind, and whether they group to the right. Those of a line are read in turn.
LEVELS: Tuple[Tuple[str, int, bool], ...] = (
    ("→", 1, True),
    ("↔", 2, False),
    ("⊎", 3, True),
    ("×", 4, True),
    ("≡ ≢ < ≤ <ℤ ≤ℤ", 10, False),
    ("||", 20, True),
    ("&&", 30, True),
    ("==", 40, False),
    ("∷ ++", 50, True),
    ("▸ ▸▸", 60, False),
    ("+ - +ℤ -ℤ", 65, False),
    ("* / % *ℤ", 70, False),
    ("^", 75, True),
)
BINDS: Dict[str, Tuple[int, bool]] = {sign: (power, to_right) for signs, power, to_right in LEVELS for sign in signs.split()}
CLOSES = {")", "]", "}", ",", ";", "=", "↦", "|", "then", "else", "in", ":", "where", "as"}


class Unknown(Exception):
    """What the reader or the translator does not know."""


class Node(NamedTuple):
    """A tree: its kind, a name or a number, and its parts.

    The kinds: name, number, text; apply (the function first); lambda, let, if, elim (the value, then patterns and results in turn);
    record (its base or none, then values; the fields are `names`); tuple, field, operator; bind (the type and what it is said of)."""

    kind: str
    value: str = ""
    parts: Tuple["Node", ...] = ()
    names: Tuple[str, ...] = ()


class Clause(NamedTuple):
    """The patterns of a function's arguments, and what it comes to at them."""

    patterns: Tuple[Node, ...]
    result: Node


def tokens_of(text: str) -> List[str]:
    """The tokens of a text; a dot before a blank, which ends a lambda's names, is `. `."""
    found, at = [], 0
    while at < len(text):
        token = TOKEN.match(text, at)
        if token is None:
            raise Unknown(f"cannot read {text[at:at + 20]!r}")
        at = token.end()
        if token["token"]:
            found.append(". " if token["token"] == "." and (at == len(text) or text[at].isspace()) else token["token"])
    return found


class Reader:
    """Reads trees off a list of tokens."""

    def __init__(self, tokens: List[str]) -> None:
        self.tokens = tokens
        self.at = 0

    def peek(self) -> str:
        return self.tokens[self.at] if self.at < len(self.tokens) else ""

    def take(self, wanted: str = "") -> str:
        token = self.peek()
        if not token or (wanted and token != wanted):
            raise Unknown(f"{wanted or 'more'} was expected in place of {token or 'the end'}")
        self.at += 1
        return token

    def names_until(self, end: str) -> Tuple[str, ...]:
        names = []
        while self.peek() != end:
            names.append(self.take())
        self.take()
        return tuple(names)

    def tree(self) -> Node:
        return self.operation(0)

    def operation(self, least: int) -> Node:
        left = self.operand()
        while self.peek() in BINDS and BINDS[self.peek()][0] >= least:
            name = self.take()
            power, to_right = BINDS[name]
            left = Node("operator", name, (left, self.operation(power if to_right else power + 1)))
        return left

    def operand(self) -> Node:
        opened = {"λ": self.function, "let": self.let, "if": self.choice}.get(self.peek())
        if opened:
            self.take()
            return opened()
        if self.is_binder():
            return self.binder()
        parts = [self.atom()]
        while self.peek() and self.peek() not in CLOSES and self.peek() not in BINDS and self.peek() != ". ":
            if self.peek() == "{":
                self.skip_implicit()
            elif self.peek() == "λ":
                parts.append(self.operand())
            else:
                parts.append(self.atom())
        return parts[0] if len(parts) == 1 else Node("apply", "", tuple(parts))

    def function(self) -> Node:
        names = self.names_until(". ")
        return Node("lambda", "", (self.tree(),), names)

    def let(self) -> Node:
        name = self.take()
        if self.peek() == ":":
            self.take()
            self.tree()
        self.take("=")
        value = self.tree()
        self.take("in")
        return Node("let", name, (value, self.tree()))

    def choice(self) -> Node:
        test = self.tree()
        self.take("then")
        good = self.tree()
        self.take("else")
        return Node("if", "", (test, good, self.tree()))

    def is_binder(self) -> bool:
        """Whether `(x y : ..)` or `{A : ..}` comes, which names what is said after it."""
        place = self.at + 1
        while place < len(self.tokens) and re.match(r"[^\W\d][\w'-]*$", self.tokens[place]):
            place += 1
        return self.peek() in ("(", "{") and place > self.at + 1 and self.tokens[place : place + 1] == [":"]

    def binder(self) -> Node:
        closes = {"(": ")", "{": "}"}[self.take()]
        names = self.names_until(":")
        of = self.tree()
        self.take(closes)
        if self.peek() in ("(", "{"):
            rest = self.operand()
            return Node("bind", rest.value, (of, rest), names)
        name = self.take() if self.peek() in ("→", "×") else ""
        return Node("bind", name if closes == ")" else "{", (of, self.operation(BINDS[name][0]) if name else of), names)

    def skip_implicit(self) -> None:
        depth = 0
        while True:
            depth += {"{": 1, "}": -1}.get(self.take(), 0)
            if not depth:
                return

    def atom(self) -> Node:
        token = self.take()
        if token == "(":
            found = self.tuple()
        elif token == "elim":
            return self.cases()
        elif token == "record":
            found = self.record()
        elif token.startswith('"'):
            found = Node("text", re.sub(r"\\(.)", r"\1", token[1:-1]))
        elif NUMBER.match(token):
            found = Node("number", token)
        elif token in CLOSES or token in BINDS:
            raise Unknown(f"{token} is not expected")
        else:
            found = Node("name", token)
        while self.peek() == ".":
            self.take()
            found = Node("field", self.take(), (found,))
        return found

    def tuple(self) -> Node:
        parts = []
        while self.peek() != ")":
            parts.append(self.tree())
            if self.peek() == ",":
                self.take()
        self.take()
        return parts[0] if len(parts) == 1 else Node("tuple", "", tuple(parts))

    def cases(self) -> Node:
        parts = [self.atom()]
        self.take("[")
        while self.peek() != "]":
            if self.peek() == "|":
                self.take()
            parts.append(self.tree())
            self.take("↦")
            parts.append(self.tree())
        self.take()
        return Node("elim", "", tuple(parts))

    def record(self) -> Node:
        base = Node("none") if self.peek() == "{" else self.atom()
        self.take("{")
        names, parts = [], [base]
        while self.peek() != "}":
            names.append(self.take())
            self.take("=")
            parts.append(self.tree())
            if self.peek() == ";":
                self.take()
        self.take()
        return Node("record", "", tuple(parts), tuple(names))


def tree_of(text: str) -> Node:
    reader = Reader(tokens_of(text))
    made = reader.tree()
    if reader.peek():
        raise Unknown(f"{reader.peek()} is not expected")
    return made


class Read(NamedTuple):
    """A definition that was read: its type, and its clauses; or what a record says of its names, which are patterns then."""

    signature: Node
    clauses: Tuple[Clause, ...]
    fields: Tuple[Tuple[str, Node], ...] = ()


def clause_of(text: str) -> Clause:
    tokens, depth = tokens_of(text), 0
    for place, token in enumerate(tokens):
        depth += (token in "({[") - (token in ")}]")
        if token == "=" and not depth:
            break
    left = Reader(tokens[:place]).tree()
    right = Reader(tokens[place + 1 :])
    made = right.tree()
    if right.peek():
        raise Unknown(f"{right.peek()} is not expected")
    return Clause(left.parts if left.kind == "operator" else left.parts[1:], made)


def pieces_of(lines: List[str], begins: str) -> List[str]:
    """The lines joined, each of which that matches begins a new text."""
    pieces: List[str] = []
    for line in lines:
        if re.match(begins, line) or not pieces:
            pieces.append(line)
        else:
            pieces[-1] += "\n" + line
    return pieces


def read_definition(text: str) -> Read:
    """Reads a definition's text. A record's names are its parameters."""
    lines = [line for line in text.splitlines() if not line.startswith("infix")]
    head = re.sub(r"^(?:(?:abbrev|unfoldable) )?(?:pub )?(record |data )?\S+ ?", "", lines[0])
    if re.match(r"(?:pub )?(?:record|data) ", lines[0]):
        names = [name for binder in re.findall(r"\(([^:()]+) :", head) for name in binder.split()]
        fields = [re.match(r"  (?:pub )?(\S+) :\s(.*)", piece, re.S) for piece in pieces_of(lines[1:], r"  (?:pub )?\S+ :")]
        said = tuple((field[1], tree_of(field[2])) for field in fields if field)
        return Read(Node("name", "Type"), (Clause(tuple(Node("name", name) for name in names), Node("none")),), said)
    pieces = pieces_of(lines[1:], r"[^\s})\]]")
    while pieces and pieces[0].startswith(" "):
        head += "\n" + pieces.pop(0)
    return Read(tree_of(re.sub(r"^(?:\{[^}]*\})? ?: ?", "", head)), tuple(clause_of(piece) for piece in pieces))


def result_of(signature: Node) -> Node:
    """What a function of this type answers."""
    while (signature.kind == "operator" and signature.value == "→") or (signature.kind == "bind" and signature.value in ("→", "{")):
        signature = signature.parts[1]
    return signature


def is_statement(read: Read) -> bool:
    """Whether a definition is a statement, or a function that answers one."""
    return bool(read.fields) or head_of(result_of(read.signature)) == "Type"


def head_of(node: Node) -> Optional[str]:
    """The name that a tree begins with."""
    while node.kind == "apply":
        node = node.parts[0]
    return node.value if node.kind == "name" else None
