"""Writes the machine's library as one file of C99, from the LLVM text that the toolchain lowers it to: for processors that its LLVM does not have.

A function becomes a function, a value a variable, a block a label. All memory is read and written by memcpy; pointers in memory have 8 bytes,
as in the text, and numbers of 128 bits are pairs. What has a form that is not known here is refused, as retarget.py does.
"""
import re
from typing import Dict, List, NoReturn, Optional, TextIO, Tuple

from retarget import POINTING, Unknown, VALUE

NAME = r'[%@](?:"[^"]*"|[\w.$+-]+)'
TYPE = r"(?:ptr|i\d+|void|\{[^{}]*\}|\[\d+ x i\d+\])"
MARKS = r"(?:noundef|zeroext|signext|nonnull|noalias|readonly|writeonly|nocapture|returned|align \d+|dereferenceable\(\d+\)|captures\(\w+\))"
FLAGS = r"(?:nuw |nsw |exact |disjoint |nneg |inbounds |nusw |samesign )*"
OPERATORS = {"add": "+", "sub": "-", "mul": "*", "udiv": "/", "urem": "%", "and": "&", "or": "|", "xor": "^", "shl": "<<", "lshr": ">>", "sdiv": "/", "srem": "%", "ashr": ">>"}
GROUPS = {**dict.fromkeys(OPERATORS, "binary"), **dict.fromkeys(("zext", "sext", "trunc"), "widen"), **dict.fromkeys(("ptrtoint", "ptrtoaddr", "inttoptr"), "pointer")}
# What follows the name of an instruction, or of its group; Body has a function for each, which gets the parts in brackets.
FORMS = {
    "phi": rf"({TYPE}).*",
    "alloca": rf"({TYPE}), align \d+",
    "load": rf"({TYPE}), ptr ({NAME})(?:, align \d+)?",
    "store": rf"({TYPE}) (.*), ptr ({NAME})(?:, align \d+)?",
    "icmp": rf"{FLAGS}([us]?)(eq|ne|gt|ge|lt|le) ({TYPE}) ([^,]+), ([^,]+)",
    "binary": rf"{FLAGS}({TYPE}) ([^,]+), ([^,]+)",
    "widen": rf"{FLAGS}({TYPE}) ([^,]+) to ({TYPE})",
    "pointer": r"(?:ptr|i64) (\S+) to (?:ptr|i64)",
    "getelementptr": rf"{FLAGS}i8, ptr ({NAME}), i64 (\S+)",
    "extractvalue": rf"({TYPE}) ({NAME}), (\d)",
    "insertvalue": rf"(\{{[^{{}}]*\}}) (\S+), ({TYPE}) (\S+), (\d)",
    "select": rf"i1 ([^,]+), ({TYPE}) ([^,]+), {TYPE} ([^,]+)",
    "freeze": r"(\S+) (.*)",
    "call": rf"(?:{MARKS} )*({TYPE}) (@(?:\"[^\"]*\"|[\w.$+-]+))\((.*)\)(?: #\d+)?",
    "br": r"(?:i1 ([^,]+), label %([^,]+), )?label %(\S+)",
    "switch": rf"({TYPE}) ([^,]+), label %(\S+) \[(.*)\]",
    "ret": r"void|(.*) (\S+)",
    "unreachable": "",
}
COMPARED = {"eq": "==", "ne": "!=", "gt": ">", "ge": ">=", "lt": "<", "le": "<="}
# The start of the file. Pairs are numbers of 128 bits, of which the text only adds, subtracts and multiplies those that fitted into 64 bits.
HEAD = r"""/* The Forth-83 machine as one file of C99. It was written by a program from the library's lowered text; include/forth83.h has its calls.
 * It needs memcpy, memmove, memset, malloc, realloc, free and abort, numbers in pairs of complements, and bytes with the low one first. */
#include <stddef.h>
#include <stdint.h>
#include <stdlib.h>
#include <string.h>
typedef struct { uint64_t low, high; } wide;
static wide wide_of(uint64_t low, uint64_t high) { wide w; w.low = low; w.high = high; return w; }
static wide wide_add(wide a, wide b) { uint64_t low = a.low + b.low; return wide_of(low, a.high + b.high + (low < a.low)); }
static wide wide_sub(wide a, wide b) { return wide_of(a.low - b.low, a.high - b.high - (a.low < b.low)); }
static wide wide_mul(wide a, wide b)
{
    uint64_t a0 = a.low & 0xffffffffu, a1 = a.low >> 32, b0 = b.low & 0xffffffffu, b1 = b.low >> 32;
    uint64_t low = a0 * b0, middle = a1 * b0 + (low >> 32), other = a0 * b1 + (middle & 0xffffffffu);
    return wide_of(a.low * b.low, a1 * b1 + (middle >> 32) + (other >> 32) + a.low * b.high + a.high * b.low);
}
typedef struct { uint64_t m0, m1; } pair_of_64;
static pair_of_64 rattle_alloc(uint64_t size, uint64_t align)
{
    void *at = size > (size_t)-1 ? NULL : malloc(size ? (size_t)size : 1);
    pair_of_64 made = {at != NULL, (uintptr_t)at};
    (void)align;
    return made;
}
static pair_of_64 rattle_realloc(char *old, uint64_t before, uint64_t size, uint64_t align)
{
    void *at = size > (size_t)-1 ? NULL : realloc(old, size ? (size_t)size : 1);
    pair_of_64 made = {at != NULL, (uintptr_t)at};
    (void)before, (void)align;
    return made;
}
static void rattle_dealloc(char *at) { free(at); }
typedef union { unsigned char bytes[8]; const void *at; } unit;
static uint64_t count_zeros(uint64_t x) { uint64_t n = 0; for (; n < 64 && !(x >> n & 1); n++) ; return n; }
static uint64_t count_first_zeros(uint64_t x) { uint64_t n = 0; for (; n < 64 && !(x << n >> 63); n++) ; return n; }
"""


def split(text: str) -> List[str]:
    """What commas part, but those in brackets and quotes."""
    found = re.findall(r'(?:"[^"]*"|\{[^{}]*\}|\[[^\]]*\]|\([^()]*\)|[^,"{\[(])+', text)
    return [it.strip() for it in found if it.strip()]


def size_of(kind: str) -> int:
    """How many bytes a type has in memory."""
    if found := re.fullmatch(r"\[(\d+) x (i\d+)\]", kind):
        return int(found[1]) * size_of(found[2])
    if kind.startswith("{"):
        return places(kind)[-1]
    return 8 if kind == "ptr" else max(1, int(kind[1:]) // 8)


def places(kind: str) -> List[int]:
    """Where the parts of a structure are, and its size."""
    at, most, found = 0, 1, []
    for part in split(kind[1:-1]):
        size = size_of(part)
        most, at = max(most, size), (at + size - 1) // size * size
        found.append(at)
        at += size
    return [*found, (at + most - 1) // most * most]


class Names:
    """The types, functions and constants of a module in C."""

    def __init__(self, prefix: str) -> None:
        self.prefix, self.structures, self._names = prefix, {"{ i64, i64 }": "pair_of_64"}, {}  # type: str, Dict[str, str], Dict[str, str]

    def kind(self, kind: str) -> str:
        """A type."""
        if kind.startswith("{"):
            return self.structures.setdefault(kind, f"pair_{len(self.structures)}")
        known = {"ptr": "char *", "void": "void", "i1": "uint8_t", "i128": "wide"}
        return known.get(kind) or f"uint{int(kind[1:])}_t"

    def name(self, name: str) -> str:
        """A value, a function or a constant."""
        if name.startswith("%"):
            return "v_" + re.sub(r"\W", "_", name[1:])
        plain = name[1:].strip('"')
        if re.fullmatch(rf"(?:rattle|{self.prefix}forth83)_\w+", plain):
            return plain[len(self.prefix) if plain.startswith(self.prefix) else 0 :]
        return self._names.setdefault(name, f"f{len(self._names)}")

    def value(self, value: str, kind: str) -> str:
        """A value of a type, which may be a number."""
        if value[0] in "%@":
            return self.name(value) if value[0] == "%" else f"(char *){self.name(value)}.bytes"
        if kind.startswith("{"):
            return f"({self.kind(kind)}){{0}}"
        number = {"true": 1, "false": 0, "null": 0, "undef": 0, "poison": 0, "zeroinitializer": 0}.get(value)
        number = int(value) if number is None else number
        low = f"{number % (1 << 64)}u" if number % (1 << 64) < 1 << 32 else f"UINT64_C({number % (1 << 64)})"
        return f"wide_of({low}, {f'UINT64_C({number >> 64 & (1 << 64) - 1})'})" if kind == "i128" else f"({self.kind(kind)}){low}"


class Body:
    """The body of a function: its variables, and its statements."""

    def __init__(self, names: Names) -> None:
        self.names, self.variables, self.statements = names, [], []  # type: Names, List[str], List[str]
        self.block, self.copies = "start", {}  # type: str, Dict[Tuple[str, str], List[Tuple[str, str, str]]]
        self.line = ""  # the one that is read

    def read(self, lines: List[str]) -> None:
        """All lines: first what comes into each block, then what is done."""
        self.block = "start"
        for line in lines:
            if found := re.match(r'([\w.$-]+|"[^"]*"):', line):
                self.block = found[1]
            elif found := re.fullmatch(rf" *({NAME}) = phi ({TYPE}) (.*)", line):
                for value, source in re.findall(r"\[ ([^,]+), %([^ ]+) \]", found[3]):
                    self.copies.setdefault((source, self.block), []).append((found[2], self.names.name(found[1]), value))
        self.block = "start"
        for line in lines:
            self.read_line(re.sub(r"(?:, ![\w.]+ !\d+)+$", "", line.strip()))

    def read_line(self, line: str) -> None:
        self.line = line
        if not line or line.startswith(";"):
            return
        if found := re.match(r'([\w.$-]+|"[^"]*"):', line):
            self.block = found[1]
            self.statements.append(f"{self.label(found[1])}:;")
            return
        found = re.fullmatch(rf"(?:({NAME}) = )?(?:tail |musttail |notail )?(\w+) ?(.*)", line)
        group = GROUPS.get(found[2], found[2]) if found else ""
        parts = re.fullmatch(FORMS[group], found[3]) if found and group in FORMS else None
        if not found or not parts:
            self.refuse()
        getattr(self, f"do_{group}")(found[1] or "", found[2], *parts.groups())

    def refuse(self) -> NoReturn:
        """The line has a form that is not known."""
        raise Unknown(f"the line {self.line}")

    @staticmethod
    def label(name: str) -> str:
        return "L_" + re.sub(r"\W", "_", name)

    def jump(self, target: str) -> str:
        """To another block, with what comes into it from this one."""
        copies = self.copies.get((self.block, target), [])
        taken = "".join(f"{self.names.kind(kind)} t_{to} = {self.names.value(value, kind)}; " for kind, to, value in copies)
        return f"{{ {taken}{''.join(f'{to} = t_{to}; ' for _, to, _ in copies)}goto {self.label(target)}; }}"

    def put(self, to: str, kind: str, value: str) -> None:
        """A variable that gets this value; one of one bit has 0 or 1."""
        self.variables.append(f"{self.names.kind(kind)} {self.names.name(to)};")
        self.statements.append(f"{self.names.name(to)} = {f'({value}) & 1' if kind == 'i1' else value};")

    def signed(self, value: str, kind: str) -> str:
        """A value as one with a sign."""
        return f"(-(int){self.names.value(value, kind)})" if kind == "i1" else f"(int{kind[1:]}_t){self.names.value(value, kind)}"

    def do_phi(self, to: str, _word: str, kind: str) -> None:
        self.variables.append(f"{self.names.kind(kind)} {self.names.name(to)};")

    def do_alloca(self, to: str, _word: str, kind: str) -> None:
        self.variables.append(f"uint64_t m_{self.names.name(to)}[{size_of(kind) // 8 + 1}]; char *{self.names.name(to)};")
        self.statements.append(f"{self.names.name(to)} = (char *)m_{self.names.name(to)};")

    def moved(self, kind: str, variable: str, at: str, is_load: bool) -> None:
        """Loads or stores a variable; pointers have 8 bytes in memory, and the parts of a structure are moved one by one."""
        if kind.startswith("{"):
            for number, (part, place) in enumerate(zip(split(kind[1:-1]), places(kind))):
                self.moved(part, f"{variable}.m{number}", f"{at} + {place}", is_load)
        elif kind == "ptr":
            self.statements.append(
                f"{{ uint64_t t; memcpy(&t, {at}, 8); {variable} = (char *)(uintptr_t)t; }}" if is_load else f"{{ uint64_t t = (uintptr_t)({variable}); memcpy({at}, &t, 8); }}"
            )
        else:
            self.statements.append(f"memcpy(&{variable}, {at}, {size_of(kind)});" if is_load else f"memcpy({at}, &{variable}, {size_of(kind)});")

    def do_load(self, to: str, _word: str, kind: str, place: str) -> None:
        self.variables.append(f"{self.names.kind(kind)} {self.names.name(to)};")
        self.moved(kind, self.names.name(to), self.names.value(place, "ptr"), True)

    def do_store(self, _to: str, _word: str, kind: str, value: str, place: str) -> None:
        self.statements.append(f"{{ {self.names.kind(kind)} s = {self.names.value(value, kind)};")
        self.moved(kind, "s", self.names.value(place, "ptr"), False)
        self.statements.append("}")

    def do_icmp(self, to: str, _word: str, sign: str, how: str, kind: str, *both: str) -> None:
        if kind == "i128":
            one, other = (self.names.value(it, kind) for it in both)
            if how not in ("eq", "ne") or not all(it[0] == "%" for it in both):
                self.refuse()
            equal = f"({one}.low == {other}.low && {one}.high == {other}.high)"
            self.put(to, "i1", equal if how == "eq" else f"!{equal}")
        else:
            one, other = (self.signed(it, kind) if sign == "s" else self.names.value(it, kind) for it in both)
            self.put(to, "i1", f"{one} {COMPARED[how]} {other}")

    def do_binary(self, to: str, word: str, kind: str, *both: str) -> None:
        one, other = (self.signed(it, kind) if word in ("sdiv", "srem", "ashr") else self.names.value(it, kind) for it in both)
        promoted = f"(uint64_t){one}" if word in ("mul", "shl") else one  # a product of numbers of 16 bits does not fit into an int
        if kind != "i128":
            fails = "div" in word and both[1] == "0"  # a run-time check
            self.put(to, kind, f"(abort(), {one})" if fails else f"({self.names.kind(kind)})({promoted} {OPERATORS[word]} {other})")
        elif word in ("add", "sub", "mul"):
            self.put(to, kind, f"wide_{word}({one}, {other})")
        else:
            self.refuse()

    def do_widen(self, to: str, word: str, kind: str, value: str, wanted: str) -> None:
        given = self.signed(value, kind) if word == "sext" else self.names.value(value, kind)
        if wanted == "i128":
            self.put(to, wanted, f"wide_of((uint64_t){given}, {f'{given} < 0 ? UINT64_MAX : 0' if word == 'sext' else '0'})")
        else:
            self.put(to, wanted, f"({self.names.kind(wanted)}){given}{'.low' if kind == 'i128' else ''}")

    def do_pointer(self, to: str, word: str, value: str) -> None:
        if word == "inttoptr":
            self.put(to, "ptr", f"(char *)(uintptr_t){self.names.value(value, 'i64')}")
        else:
            self.put(to, "i64", f"(uintptr_t){self.names.value(value, 'ptr')}")

    def do_getelementptr(self, to: str, _word: str, begins: str, number: str) -> None:
        self.put(to, "ptr", f"{self.names.value(begins, 'ptr')} + (ptrdiff_t)(int64_t){self.names.value(number, 'i64')}")

    def do_extractvalue(self, to: str, _word: str, kind: str, value: str, part: str) -> None:
        self.put(to, split(kind[1:-1])[int(part)], f"{self.names.name(value)}.m{part}")

    def do_insertvalue(self, to: str, _word: str, kind: str, value: str, kind_of_part: str, inserted: str, part: str) -> None:
        self.put(to, kind, self.names.value(value, kind))
        self.statements.append(f"{self.names.name(to)}.m{part} = {self.names.value(inserted, kind_of_part)};")

    def do_select(self, to: str, _word: str, condition: str, kind: str, *both: str) -> None:
        one, other = (self.names.value(it, kind) for it in both)
        self.put(to, kind, f"{self.names.value(condition, 'i1')} ? {one} : {other}")

    def do_freeze(self, to: str, _word: str, kind: str, value: str) -> None:
        self.put(to, kind, self.names.value(value, kind))

    def do_call(self, to: str, _word: str, kind: str, name: str, words: str) -> None:
        given = [re.fullmatch(rf"({TYPE}) (?:{MARKS} )*(.*)", it) for it in split(words)]
        values = [self.names.value(it[2], it[1]) for it in given if it]
        known = re.match(r"@llvm\.(memset|memcpy|memmove|trap|cttz\.i64|ctlz\.i64)\b", name)
        if len(values) != len(given) or name.startswith("@llvm.") and not known:
            self.refuse()
        calls = {"trap": "abort()", "cttz.i64": f"count_zeros({values[0] if values else ''})", "ctlz.i64": f"count_first_zeros({values[0] if values else ''})"}
        called = f"{self.names.name(name)}({', '.join(values)})"
        if known:
            called = calls.get(known[1]) or f"{known[1]}({values[0]}, {values[1]}, (size_t){values[2]})"
        if to:
            self.put(to, kind, called)
        else:
            self.statements.append(f"{called};")

    def do_br(self, _to: str, _word: str, condition: Optional[str], first: str, other: str) -> None:
        chosen = f"if ({self.names.value(condition, 'i1')}) {self.jump(first)} else " if condition else ""
        self.statements.append(chosen + self.jump(other))

    def do_switch(self, _to: str, _word: str, kind: str, value: str, otherwise: str, rows: str) -> None:
        cases = re.findall(r"i\d+ (\S+), label %(\S+)", rows)
        listed = " ".join(f"case {self.names.value(number, kind)}: {self.jump(label)}" for number, label in cases)
        self.statements.append(f"switch ({self.names.value(value, kind)}) {{ {listed} default: {self.jump(otherwise)} }}")

    def do_ret(self, _to: str, _word: str, kind: str, value: Optional[str]) -> None:
        self.statements.append(f"return {self.names.value(value, kind)};" if value else "return;")

    def do_unreachable(self, _to: str, _word: str) -> None:
        self.statements.append("abort();")


def constant(names: Names, line: str) -> str:
    """A constant: its bytes."""
    found = re.fullmatch(rf"({NAME}) = (?:private |internal )?(?:unnamed_addr )?constant (\[\d+ x i\d+\]) (?:c\"(.*)\"|zeroinitializer), align \d+", line)
    if not found:
        raise Unknown(f"the line {line[:200]}")
    content = bytes_of(found[2], found[3] or "")
    return f"static const union {{ unsigned char bytes[{len(content)}]; uint64_t whole; }} {names.name(found[1])} = {{{{{','.join(map(str, content))}}}}};\n"


def bytes_of(kind: str, text: str) -> bytes:
    """The bytes of a constant of this type, whose text is empty if all of them are 0."""
    content = re.sub(rb"\\(\\|[0-9A-Fa-f]{2})", lambda it: b"\\" if it[1] == b"\\" else bytes([int(it[1], 16)]), text.encode("latin-1"))
    return content.ljust(max(1, size_of(kind)), b"\0")


def pointing(names: Names, line: str) -> Optional[Tuple[str, List[str], str]]:
    """Of a constant with addresses of others: its name, theirs, and its units of 8 bytes, each of which is bytes or an address; None of other lines."""
    found = POINTING.fullmatch(line)
    if not found:
        return None
    units: List[str] = []
    others: List[str] = []
    for item in re.findall(VALUE, found[3]):
        place = re.fullmatch(rf"ptr (?:getelementptr \(i8, ptr ({NAME}), i64 (\d+)\)|({NAME}))", item)
        if place:
            others.append(names.name(place[1] or place[3]))
            units.append(f"{{.at = (const char *){others[-1]}.bytes + {place[2] or 0}}}")
            continue
        kind, _, text = item.partition(' c"')
        content = bytes_of(kind.replace(" zeroinitializer", ""), text[:-1])
        if len(content) % 8:
            raise Unknown(f"the line {line[:200]}")
        units += [f"{{{{{','.join(map(str, content[at:at + 8]))}}}}}" for at in range(0, len(content), 8)]
    name = names.name(found[1].split(" ")[0])
    return name, others, f"static const struct {{ unit bytes[{len(units)}]; }} {name} = {{{{{','.join(units)}}}}};\n"


def in_order(found: Dict[str, Tuple[List[str], str]]) -> List[str]:
    """Constants with addresses, each after those that it has the addresses of."""
    texts: List[str] = []
    done: List[str] = []

    def put(name: str) -> None:
        if name in found and name not in done:
            done.append(name)
            for other in found[name][0]:
                put(other)
            texts.append(found[name][1])

    for name in found:
        put(name)
    return texts


def function(names: Names, head: str, lines: List[str]) -> Tuple[str, str]:
    """The declaration of a function, and what it does."""
    found = re.fullmatch(rf"define (?:internal |hidden |dso_local )*(?:{MARKS} )*({TYPE}) (@(?:\"[^\"]*\"|[\w.$+-]+))\((.*)\)[^()]*\{{", head)
    given = [re.fullmatch(rf"({TYPE}) (?:{MARKS} )*(%\S+)", it) for it in split(found[3])] if found else []
    if not found or not all(given):
        raise Unknown(f"the line {head}")
    body, name = Body(names), names.name(found[2])
    body.read(lines)
    parameters = ", ".join(f"{names.kind(it[1])} {names.name(it[2])}" for it in given if it) or "void"
    declared = f"{'' if name.startswith('forth83_') else 'static '}{names.kind(found[1])} {name}({parameters})"
    return f"{declared};\n", declared + "\n{\n" + "\n".join([*body.variables, *body.statements]) + "\n}\n"


def write(text: str, out: TextIO, prefix: Optional[str]) -> None:
    """Writes a module in C. The calls are named PREFIX and forth83_.. in it; a program's own main is left out."""
    names, constants, functions = Names(prefix or ""), [], []  # type: Names, List[str], List[Tuple[str, str]]
    addresses: Dict[str, Tuple[List[str], str]] = {}
    joined = re.sub(r"\[\n((?: *i\d+ \S+, label \S+\n)*) *\]", lambda it: "[" + it[1].replace("\n", " ") + "]", text)
    for part in re.findall(r"^(?:define [^\n]*\{\n.*?^\}|@[^\n]*)$", joined, re.M | re.S):
        found = pointing(names, part)
        if found:
            addresses[found[0]] = found[1:]
        elif part.startswith("@"):
            constants.append(constant(names, part))
        else:
            head, *lines = part.split("\n")[:-1]
            if "@main(" not in head:
                functions.append(function(names, head, lines))
    out.write(HEAD)
    for kind, name in list(names.structures.items())[1:]:
        out.write(f"typedef struct {{ {' '.join(f'{names.kind(it)} m{number};' for number, it in enumerate(split(kind[1:-1])))} }} {name};\n")
    for piece in [*(it for it, _ in functions), *constants, *in_order(addresses), *(it for _, it in functions)]:
        out.write(piece)
