"""What the sources of the C library say: its calls, and how its records are laid out by the rules of C."""
import pathlib
import re
from typing import Dict, List, NamedTuple, Tuple

ROOT = pathlib.Path(__file__).resolve().parents[2]
LIBRARY = ROOT / "crates/forth83_c"
MEMORY = "memory"
SIZES = {"u8": 1, "u16": 2, "u32": 4, "u64": 8, "usize": 8}


class Field(NamedTuple):
    """A field of a record: its name, the type of its element, how many there are (0 for no array), and its place."""

    name: str
    element: str
    many: int
    place: int


class Record(NamedTuple):
    """A record with its size in bytes."""

    fields: List[Field]
    size: int


class Call(NamedTuple):
    """A call of the library, with the types of its parameters."""

    name: str
    types: List[str]


def records(library: pathlib.Path = LIBRARY) -> Dict[str, Record]:
    """The records of record.rt by name, laid out as C does, and that of memory, which is in the crate of this name."""
    text = (library.parent / MEMORY / "src/lib.rt").read_text(encoding="utf-8") + (library / "src/record.rt").read_text(encoding="utf-8")
    sizes: Dict[str, Tuple[int, int]] = {name: (size, size) for name, size in SIZES.items()}
    found = {}
    for name, body in re.findall(r"pub struct (\w+) \{\n(.*?)\n\}", text, re.S):
        found[name] = record(body, sizes)
        sizes[name] = (found[name].size, max(sizes[field.element][1] for field in found[name].fields))
    return found


def record(body: str, sizes: Dict[str, Tuple[int, int]]) -> Record:
    """The record with these fields."""
    place, widest, fields = 0, 1, []
    for name, element, count in re.findall(r"pub (\w+): \[?(\w+)(?:; (\d+))?\]?,", body):
        size, align = sizes[element]
        place += -place % align
        fields.append(Field(name, element, int(count or 0), place))
        place += size * int(count or 1)
        widest = max(widest, align)
    return Record(fields, place + -place % widest)


def layout(library: pathlib.Path = LIBRARY) -> Dict[str, object]:
    """Where the fields of the records are, as the page's script wants it: those of the machine, and of an end and a buffer."""
    known = records(library)
    places = {name: {field.name: field.place for field in it.fields} for name, it in known.items()}
    machine: Dict[str, object] = {**places["Forth83"], "size": known["Forth83"].size}
    machine["end"] = {**places["Forth83End"], "size": known["Forth83End"].size}
    machine["buffer"] = {**places["Forth83Buffer"], "size": known["Forth83Buffer"].size}
    return machine


def calls(library: pathlib.Path = LIBRARY) -> List[Call]:
    """The calls that C can make."""
    text = (library / "src/lib.rt").read_text(encoding="utf-8")
    found = re.findall(r'pub extern "C" fn (\w+)\((.*?)\)\s*->', text, re.S)
    return [Call(name, re.findall(r"\w+: ([^,]+?)\s*(?:,|$)", parameters)) for name, parameters in found]


def zero(element: str, known: Dict[str, Record]) -> str:
    """The value of a type that has only zeros, as Rattle's source has it."""
    if element not in known:
        return "0"
    fields = (f"{it.name}: {array_of(zero(it.element, known), it.many)}" for it in known[element].fields)
    return f"{MEMORY if element == 'Memory' else 'record'}::{element} {{ {', '.join(fields)} }}"


def array_of(value: str, count: int) -> str:
    return f"[{value}; {count}]" if count else value


def main_that_calls_all(library: pathlib.Path = LIBRARY) -> str:
    """A function `main` that reaches each call of the library. It is never run: what it reaches is lowered."""
    known, needs = records(library), {"Global": "alloc", "&[u8]": 'b""', "&mut [u8]": "&mut bytes", "&mut [u16]": "&mut cells"}
    lines = [
        "let alloc = rt.alloc();",
        "let mut bytes = [0u8; 8];",
        "let mut cells = [0u16; 8];",
        "let mut size = 0usize;",
        "let mut word = 0u16;",
        "let mut other_bytes = [0u8; 8];",
        "let mut other_word = 0u16;",
        "let mut other_size = 0usize;",
    ]
    needs.update({"u8": "0", "u16": "0", "u32": "0", "u64": "0", "usize": "0", "&mut u16": "&mut word", "&mut usize": "&mut size"})
    for name in ("Forth83", "Forth83End"):
        lines.append(f"let mut {name.lower()} = {zero(name, known)};")
        needs.update({f"&{name}": f"&{name.lower()}", f"&mut {name}": f"&mut {name.lower()}"})
    for call in calls(library):
        words = [needs[kind] for kind in call.types]
        words = [word.replace("&mut ", "&mut other_") if word in words[:at] and word.startswith("&mut") else word for at, word in enumerate(words)]
        lines.append(f"let _ = {call.name}({', '.join(words)});")
    return "\nfn main(rt: HostRuntime) {\n" + "".join(f"    {line}\n" for line in lines) + "}\n"
