"""Rewrites the LLVM text of the machine's library for another target.

The Rattle toolchain lowers the library to LLVM text for 64-bit x86. Records are read and written byte by byte there, and only
pointers depend on the processor. For another target of 64 bits, the triple, the layout and the attributes change. On a target of
32 bits each pointer in memory keeps its 8 bytes: it is stored and loaded as a number of 64 bits. Every line must have a form that is
listed below; any other line is refused, since a form that a later toolchain writes might count on something that only x86 has. So is
a target whose layout isn't known to fit: the library's bytes are little-endian, and numbers of 64 bits are aligned to 8 bytes.

The heap's three calls become calls of C's malloc, realloc and free, because C returns a pair of numbers in other ways on other
processors. If a PREFIX is given, the functions whose name is PREFIX and `forth83_..` get that name without PREFIX, and the program's own
`main` is left out: so a program without proofs, which calls each function of the library once, serves as the library.
"""
import re
from typing import Iterable, Iterator, List, Optional, Sequence, TextIO, Union

NAME = r'[%@](?:"[^"]*"|[\w.$+-]+)'
INTEGER = r"i\d+"
# A type whose bytes are the same for both targets: integers, and arrays and structures of them.
PLAIN = rf"(?:{INTEGER}|\[\d+ x {INTEGER}\]|<?\{{ (?:(?:{INTEGER}|\[\d+ x {INTEGER}\])(?:, )?)+ \}}>?)"
MARKS = r"(?:, !\w+ !\d+)*"

# Instructions that neither read nor write memory, and mean the same whatever the size of a pointer.
COMPUTES = "add sub mul udiv sdiv urem srem and or xor shl lshr ashr icmp zext sext trunc select phi freeze extractvalue insertvalue".split()
ENDS = "br switch ret unreachable".split()
KNOWN = [
    re.compile(rf" *{NAME} = (?:{'|'.join(COMPUTES)}) .*"),
    re.compile(rf" *(?:{'|'.join(ENDS)})\b.*"),
    re.compile(r" *i\d+ -?\d+, label %.*| *\]"),
    re.compile(rf" *{NAME} = (?:ptrtoint ptr {NAME} to i64|inttoptr i64 (?:{NAME}|-?\d+) to ptr)"),
    re.compile(rf" *{NAME} = alloca {PLAIN}, align \d+"),
    re.compile(rf" *{NAME} = load {PLAIN}, ptr {NAME}, align \d+{MARKS}"),
    re.compile(rf" *store {PLAIN} .*, ptr {NAME}(?:, align \d+)?"),
    re.compile(rf" *{NAME} = getelementptr (?:inbounds |nuw |nusw )*i8, ptr {NAME}, i64 (?:{NAME}|-?\d+)"),
]
# What keeps a pointer in memory, which has its 8 bytes where pointers have 64 bits; Narrowing replaces it on a target of 32 bits.
POINTERS = [
    re.compile(rf" *store ptr (?:{NAME}|null), ptr {NAME}, align \d+"),
    re.compile(rf" *{NAME} = load (?:ptr|\{{ (?:ptr|{INTEGER}), (?:ptr|{INTEGER}) \}}), ptr {NAME}, align \d+{MARKS}"),
    re.compile(rf" *{NAME} = alloca ptr, align \d+"),
]
# A constant that has addresses of constants among its bytes: its beginning, its types, its values, and its end.
VALUE = rf'(?:\[\d+ x i8\] (?:zeroinitializer|c"[^"]*")|ptr (?:getelementptr \(i8, ptr {NAME}, i64 \d+\)|{NAME}))'
POINTING = re.compile(rf"({NAME} = (?:private |internal )?(?:unnamed_addr )?constant) <\{{ ((?:(?:\[\d+ x i8\]|ptr)(?:, )?)+) \}}> <\{{ ({VALUE}(?:, {VALUE})*) \}}>(, align \d+)")
CALL = re.compile(rf" *(?:{NAME} = )?(?:tail |musttail |notail )?call (?:noundef |zeroext |signext )*[^@]*(@(?:\"[^\"]*\"|[\w.$+-]+))\(.*")
INTRINSIC = re.compile(
    r"@llvm\.(?:mem(?:set\.p0|cpy\.p0\.p0|move\.p0\.p0)\.i64|trap|[su](?:add|sub|mul)\.with\.overflow\.i\d+|(?:ctpop|ctlz|cttz|umin|umax|smin|smax|abs|bswap|fshl|fshr)\.i\d+)"
)
OUTSIDE = [
    re.compile(r"(?:;.*|\}|source_filename = .*|!.*|)"),
    re.compile(rf"{NAME} = (?:private |internal )?(?:unnamed_addr )?constant {PLAIN} .*"),
    POINTING,
    re.compile(r"declare (?:i\d+|void|\{ i64, i64 \}) @[\w.]+\(.*"),
    re.compile(r"define .*\{"),
    re.compile(r"[\w.\"-]+:.*"),
]

HEAP = """
define { i64, i64 } @rattle_alloc(i64 noundef %size, i64 noundef %align) nounwind {
  %none = icmp eq i64 %size, 0
  %wanted = select i1 %none, i64 1, i64 %size
  %count = COUNT
  %at = call ptr @malloc(SIZE %count)
  ANSWER
}
define { i64, i64 } @rattle_realloc(ptr noundef %old, i64 noundef %before, i64 noundef %size, i64 noundef %align) nounwind {
  %none = icmp eq i64 %size, 0
  %wanted = select i1 %none, i64 1, i64 %size
  %count = COUNT
  %at = call ptr @realloc(ptr %old, SIZE %count)
  ANSWER
}
define void @rattle_dealloc(ptr noundef %at) nounwind {
  call void @free(ptr %at)
  ret void
}
declare ptr @malloc(SIZE) nounwind
declare ptr @realloc(ptr, SIZE) nounwind
declare void @free(ptr) nounwind
""".replace(
    "ANSWER",
    """%got = icmp ne ptr %at, null
  %flag = zext i1 %got to i64
  %number = ptrtoint ptr %at to i64
  %one = insertvalue { i64, i64 } poison, i64 %flag, 0
  %both = insertvalue { i64, i64 } %one, i64 %number, 1
  ret { i64, i64 } %both""",
)


class Unknown(Exception):
    """A line whose form isn't known."""


class Narrowing:
    """Turns the lines that keep a pointer in memory into lines that keep a number of 64 bits there."""

    def __init__(self) -> None:
        self.count = 0

    def lines_of(self, line: str) -> List[str]:
        """The lines that stand for this one."""
        self.count += 1
        if found := re.fullmatch(rf"( *)store ptr ({NAME}|null), ptr ({NAME}), align (\d+)", line):
            return self.stored(*found.groups())
        if found := re.fullmatch(rf"( *)({NAME}) = load ptr, ptr ({NAME}), align (\d+){MARKS}", line):
            return self.loaded(*found.groups())
        if found := POINTING.fullmatch(line):
            return [self.constant(*found.groups())]
        pair = re.fullmatch(rf"( *)({NAME}) = load \{{ (ptr|{INTEGER}), (ptr|{INTEGER}) \}}, ptr ({NAME}), align (\d+)", line)
        if pair and "ptr" in pair.groups()[2:4]:
            return self.loaded_pair(*pair.groups())
        line = re.sub(rf"= ptrtoaddr ptr ({NAME}) to i64", r"= ptrtoint ptr \1 to i64", line)
        return [re.sub(r"= alloca ptr, align \d+", "= alloca i64, align 8", line)]

    def constant(self, begins: str, types: str, values: str, ends: str) -> str:
        """A constant with addresses: after each come the four bytes that it lacks."""
        items = [f"{item}, [4 x i8] zeroinitializer" if item.startswith("ptr") else item for item in re.findall(VALUE, values)]
        return f"{begins} <{{ {types.replace('ptr', 'ptr, [4 x i8]')} }}> <{{ {', '.join(items)} }}>{ends}"

    def stored(self, indent: str, value: str, place: str, align: str) -> List[str]:
        number = f"%narrow.{self.count}"
        return [f"{indent}{number} = ptrtoint ptr {value} to i64", f"{indent}store i64 {number}, ptr {place}, align {align}"]

    def loaded(self, indent: str, name: str, place: str, align: str, stem: str = "") -> List[str]:
        number = f"{stem or f'%narrow.{self.count}'}.number"
        return [f"{indent}{number} = load i64, ptr {place}, align {align}", f"{indent}{name} = inttoptr i64 {number} to ptr"]

    def part(self, indent: str, name: str, kind: str, place: str, align: str) -> List[str]:
        """A part of a pair."""
        if kind == "ptr":
            return self.loaded(indent, name, place, align, name)
        return [f"{indent}{name} = load {kind}, ptr {place}, align {align}"]

    def loaded_pair(self, indent: str, name: str, first: str, second: str, place: str, align: str) -> List[str]:
        """A pair that is loaded at once: part by part, the second one 8 bytes after the first."""
        stem, both = f"%narrow.{self.count}", f"{{ {first}, {second} }}"
        return [
            f"{indent}{stem}.at = getelementptr i8, ptr {place}, i64 8",
            *self.part(indent, f"{stem}.a", first, place, align),
            *self.part(indent, f"{stem}.b", second, f"{stem}.at", "8"),
            f"{indent}{stem}.one = insertvalue {both} poison, {first} {stem}.a, 0",
            f"{indent}{name} = insertvalue {both} {stem}.one, {second} {stem}.b, 1",
        ]


class Widening:
    """Leaves pointers in memory as they are, for a target on which they have 64 bits, too."""

    @staticmethod
    def lines_of(line: str) -> List[str]:
        """The line; an address as a number is written as older versions of LLVM have it, too."""
        return [re.sub(rf"= ptrtoaddr ptr ({NAME}) to i64", r"= ptrtoint ptr \1 to i64", line)]


def width_of(layout: str) -> int:
    """How many bits a pointer of the target has; refuses a layout in which the library's bytes would mean something else."""
    parts = layout.split("-")
    pointers = [part for part in parts if re.match(r"p0?:", part)]
    if parts[0] != "e":
        raise Unknown(f"the layout {layout} is not little-endian")
    if not any(re.fullmatch(r"i64:64(:64)?", part) for part in parts):
        raise Unknown(f"the layout {layout} does not align numbers of 64 bits to 8 bytes")
    if pointers not in ([], ["p:32:32"], ["p:64:64"]):
        raise Unknown(f"the layout {layout} has pointers of an unknown size")
    return 32 if pointers == ["p:32:32"] else 64


def is_known(line: str, width: int) -> bool:
    """Whether a line's form, after narrowing, is one of those that mean the same on both targets."""
    call = CALL.fullmatch(line)
    if call:
        return not call.group(1).startswith("@llvm.") or bool(INTRINSIC.fullmatch(call.group(1)))
    inside = KNOWN if width == 32 else KNOWN + POINTERS
    return any(form.fullmatch(line) for form in (inside if line.startswith(" ") else OUTSIDE))


def heap(width: int) -> str:
    """The heap's calls, for a C library whose sizes have that many bits."""
    return HEAP.replace("SIZE", f"i{width}").replace("COUNT", "trunc i64 %wanted to i32" if width == 32 else "add i64 %wanted, 0")


def returned(line: str, triple: str) -> str:
    """The first line of a function; on RISC-V a call of C counts on numbers of 32 bits that fill their register."""
    return re.sub(r"^(define (?:noundef )?)(i32 @forth83_)", r"\1signext \2", line) if triple.startswith("riscv64") else line


def shortened(line: str, fast: Sequence[str]) -> str:
    """The first line of a function; one of a crate that is not among FAST is compiled to as few bytes as possible."""
    found = re.fullmatch(r'(define .*@"?(\w+).*\)) (#\d+ \{)', line)
    return f"{found[1]} minsize optsize {found[3]}" if found and found[2] not in fast else line


def attributes_for(line: str) -> str:
    """A group of attributes without what only x86 or a sanitizer has."""
    words = re.sub(r' "[\w-]+"="[^"]*"| sanitize_\w+', "", line)
    return words if re.search(r"\{ \w", words) else words.replace("{ ", "{ nounwind ")


def rename(line: str, prefix: str) -> str:
    """The line with the library's functions under their own names."""
    line = re.sub(rf'@"{re.escape(prefix)}(forth83_\w+)"', r"@\1", line)
    return re.sub(r"^define internal (.*@forth83_\w+\()", r"define \1", line)


def without_main(lines: Iterable[str], prefix: str) -> Iterator[str]:
    """The lines without the functions that begin the program."""
    is_left_out = False
    for line in lines:
        if re.match(rf'define .*@(main|"{re.escape(prefix)}main(\+start)?")\(', line):
            is_left_out = True
        if not is_left_out:
            yield line
        if line == "}":
            is_left_out = False


def rewritten(lines: Iterable[str], layout: str, triple: str, fast: Optional[Sequence[str]] = None) -> Iterator[str]:
    """The module's lines for the target. Where FAST names crates, others are compiled to few bytes."""
    width = width_of(layout)
    pointers: Union[Narrowing, Widening] = Narrowing() if width == 32 else Widening()
    for number, line in enumerate(lines, 1):
        if line.startswith("target datalayout"):
            yield f'target datalayout = "{layout}"'
        elif line.startswith("target triple"):
            yield f'target triple = "{triple}"'
        elif line.startswith("attributes"):
            yield attributes_for(line)
        elif not re.match(r"declare .*@rattle_(alloc|realloc|dealloc)\(", line):
            for made in pointers.lines_of(line):
                if not is_known(made, width):
                    raise Unknown(f"line {number} has a form that isn't known: {line.strip()}")
                yield returned(made, triple) if fast is None else shortened(made, fast)


def retarget(source: Iterable[str], target: TextIO, layout: str, triple: str, prefix: Optional[str], fast: Optional[Sequence[str]] = None) -> None:
    """Writes the module of SOURCE for the target. Where FAST names crates, those are compiled for speed, and others to few bytes."""
    lines: Iterable[str] = (line.rstrip("\n") for line in source)
    if prefix is not None:
        lines = (rename(line, prefix) for line in without_main(lines, prefix))
    for line in rewritten(lines, layout, triple, fast):
        target.write(line + "\n")
    target.write(heap(width_of(layout)))
