"""The worked cases of tests/cases/conformance/data, done by the definitions; tests/cases/conformance/data/words.txt says how a case is written."""
import itertools
import pathlib
import re
from typing import Any, Dict, Iterator, List, NamedTuple, Optional, Tuple

import definition_machine as machines
import runnable
from definition_machine import NONE, Machine, defined

DATA = pathlib.Path(__file__).resolve().parent.parent / "tests/cases/conformance/data"
Line = Tuple[int, bool, str]


def unescaped(text: str) -> bytes:
    """The bytes of the text between the first quote and the last one."""
    inner = text[text.index('"') + 1 : text.rindex('"')]
    plain = {"r": b"\r", "n": b"\n", "0": b"\0"}

    def byte(found: "re.Match[str]") -> bytes:
        return bytes([int(found[2], 16)]) if found[2] else plain.get(found[3], found[3].encode()) if found[3] else found[0].encode()

    return b"".join(byte(it) for it in re.finditer(r"(\\x([0-9A-F]{2})|\\(.)|.)", inner, re.S))


class State:
    """A state that a case is given, or is to come to, and what is said of it beside its parts."""

    def __init__(self) -> None:
        self.memory = bytearray(65536)
        self.parts: Dict[str, Any] = {"values": b"", "returns": b"", "ip": 0, "pending": NONE, "block_count": 0, "buffers": self.buffers(4)}
        self.order: Optional[str] = None
        self.numbers = {"entry": 0, "size": 0, "token": 0}
        self.beside: Optional[Tuple[int, int]] = None
        self.behind = 0
        self.blocks: List[Tuple[int, int, int, int]] = []
        self.fails: List[int] = []
        self.breaks = False
        self.room: Optional[int] = None
        self.single: Optional[Machine] = None  # the machine of single ticks, which is then wanted in place of this state

    @staticmethod
    def buffers(count: int) -> Any:
        return defined("block_buffers.Entries.start")(count)

    def whole(self) -> Any:
        return machines.whole(memory=bytes(self.memory), **self.parts)

    def put(self, at: int, some: bytes) -> int:
        for place, byte in enumerate(some):
            self.memory[(at + place) % 65536] = byte
        return (at + len(some)) % 65536

    def cell(self, at: int, value: int) -> int:
        return self.put(at, bytes([value % 256, value // 256]))

    def apply(self, names: Dict[str, int], line: str) -> None:
        """Changes the state as a line says."""
        what, _, rest = line.partition(" ")
        act = getattr(self, f"say_{what}", None)
        if act:
            act(names, rest)
        elif what in self.numbers:
            self.numbers[what] = number(names, rest)
        else:
            raise ValueError(f"no such line: {what}")

    def say_set(self, names: Dict[str, int], rest: str) -> None:
        values = [number(names, word) for word in rest.split()]
        if len(values) % 2:
            raise ValueError(f"set {rest}: an address has no cell")
        for at, value in zip(values[::2], values[1::2]):
            self.cell(at, value)

    def say_cells(self, names: Dict[str, int], rest: str) -> None:
        at, _, cells = rest.partition(" ")
        self.behind = number(names, at)
        for value in several(names, cells):
            self.behind = self.cell(self.behind, value)

    def say_more(self, names: Dict[str, int], rest: str) -> None:
        count, _, cells = rest.partition(" ")
        for value in several(names, cells) * number(names, count):
            self.behind = self.cell(self.behind, value)

    def say_bytes(self, names: Dict[str, int], rest: str) -> None:
        at, *some = rest.split()
        self.put(number(names, at), bytes(int(byte, 16) for byte in some))

    def say_text(self, names: Dict[str, int], rest: str) -> None:
        self.put(number(names, rest.split()[0]), unescaped(rest))

    def say_fill(self, names: Dict[str, int], rest: str) -> None:
        at, count, byte = rest.split()
        self.put(number(names, at), bytes([int(byte, 16)]) * number(names, count))

    def say_lines(self, names: Dict[str, int], rest: str) -> None:
        self.put(number(names, rest.split()[0]), bytes(byte for byte in unescaped(rest) for _ in range(64)))

    def say_data(self, names: Dict[str, int], rest: str) -> None:
        self.parts["values"] = machines.stack(several(names, rest))

    def say_returns(self, names: Dict[str, int], rest: str) -> None:
        self.parts["returns"] = machines.stack(several(names, rest))

    def say_buffers(self, _names: Dict[str, int], rest: str) -> None:
        self.order = rest

    def say_device(self, _names: Dict[str, int], rest: str) -> None:
        self.parts["block_count"] = int(rest)

    def say_ip(self, names: Dict[str, int], rest: str) -> None:
        self.parts["ip"] = number(names, rest)

    def say_next(self, names: Dict[str, int], rest: str) -> None:
        self.parts["pending"] = NONE if rest == "-" else ("Some", number(names, rest))

    def say_beside(self, names: Dict[str, int], rest: str) -> None:
        at, value = (number(names, word) for word in rest.split())
        self.beside = (at, value)

    def say_block(self, names: Dict[str, int], rest: str) -> None:
        block, first, count, byte = rest.split()
        self.blocks.append((number(names, block), number(names, first), number(names, count), int(byte, 16)))

    def say_fails(self, names: Dict[str, int], rest: str) -> None:
        self.fails += several(names, rest)

    def say_breaks(self, _names: Dict[str, int], _rest: str) -> None:
        self.breaks = True

    def say_room(self, names: Dict[str, int], rest: str) -> None:
        self.room = number(names, rest)

    def say_count(self, names: Dict[str, int], rest: str) -> None:
        self.parts["buffers"] = self.buffers(number(names, rest))

    def say_stamps(self, _names: Dict[str, int], _rest: str) -> None:
        self.parts["buffers"] = self.buffers(len(self.parts["buffers"]))

    def say_assign(self, names: Dict[str, int], rest: str) -> None:
        self.parts["buffers"] = defined("block_buffers.Entries.assigned")(number(names, rest), self.parts["buffers"])

    def say_updated(self, names: Dict[str, int], rest: str) -> None:
        self.say_assign(names, rest)
        self.parts["buffers"] = defined("block_buffers.Entries.front_marked")(self.parts["buffers"])

    def pages(self) -> Tuple[bytes, ...]:
        """The blocks of the device."""
        pages = [bytearray(1024) for _ in range(self.parts["block_count"])]
        for block, first, count, byte in self.blocks:
            if block < len(pages):
                pages[block][first : first + count] = bytes([byte]) * len(pages[block][first : first + count])
        return tuple(map(bytes, pages))

    def machine(self) -> Machine:
        """The machine of the image that memory's front is."""
        pages = self.pages()
        disk = runnable.record(blocks=pages or b"", coming=tuple(call in self.fails for call in range(64)))
        return Machine(bytes(self.memory[: self.numbers["size"]]), self.numbers["entry"], len(self.parts["buffers"]), disk)


def number(names: Dict[str, int], word: str) -> int:
    """A number, a name, or the sum of two."""
    if word in names:
        return names[word]
    if "+" in word:
        return sum(number(names, part) for part in word.split("+", 1)) % 65536
    try:
        return int(word[1:], 16) if word.startswith("$") else int(word) % 65536
    except ValueError:
        raise ValueError(f"{word} is no number, and no name of one") from None


def several(names: Dict[str, int], text: str) -> List[int]:
    """Numbers, ranges of them, and numbers that are repeated."""
    found: List[int] = []
    for word in text.split():
        count, _, cells = word.rpartition("*")
        first, _, last = cells.partition("..")
        found += list(range(number(names, first), number(names, last or first) + 1)) * number(names, count or "1")
    return found


def limit(names: Dict[str, int], word: str) -> int:
    return names[word] if word in names else int(word)


class Case(NamedTuple):
    """A case that was done: where it is, what it came to and was to come to, as text, and memories and blocks."""

    place: str
    came: Tuple[Any, ...]
    wanted: Tuple[Any, ...]


class Text:
    """A text of cases, which are done as they are read."""

    def __init__(self, name: str) -> None:
        self.name = name
        self.names: Dict[str, int] = {}
        self.chosen: Dict[str, int] = {}
        self.worlds: Dict[str, List[str]] = {}
        self.world: Optional[str] = None
        self.given: List[str] = []

    def cases(self) -> Iterator[Case]:
        """Does all cases of the text."""
        lines: List[Line] = []
        for place, line in enumerate((DATA / self.name).read_text(encoding="utf-8").split("\n"), 1):
            said = line.split(" \\ ")[0].strip()
            if not said:
                yield from self.paragraph(lines)
                lines = []
            elif not said.startswith("\\"):
                lines.append((place, line.startswith(" ") or said.startswith("then "), said))

    def paragraph(self, lines: List[Line]) -> Iterator[Case]:
        loops = [line.split(" ", 2)[1:] for _, _, line in lines if line.startswith("each ")]
        for values in itertools.product(*(several(self.names, said) for _, said in loops)):
            self.chosen = dict(zip((name for name, _ in loops), values))
            yield from self.taken(lines)
            self.world, self.given = None, []
        self.chosen = {}

    def known(self) -> Dict[str, int]:
        return {**self.chosen, **self.names}

    def taken(self, lines: List[Line]) -> Iterator[Case]:
        at = 0
        while at < len(lines):
            end = next((place for place in range(at + 1, len(lines)) if not lines[place][1]), len(lines))
            line = lines[at][2]
            if self.world is None and (is_row(line) or line.startswith("stretches ") or "->" in line):
                yield from self.done(lines[at:end])
            else:
                self.give(line)
            at = end

    def give(self, line: str) -> None:
        """Takes a line that no case begins with."""
        first, _, rest = line.partition(" ")
        if first == "name":
            title, _, value = rest.partition(" ")
            self.names.setdefault(title, number(self.known(), value))
        elif first == "world":
            self.world = rest
        elif first == "from":
            (self.given if self.world is None else self.worlds.setdefault(self.world, [])).extend(self.worlds[rest])
        elif first != "each":
            (self.given if self.world is None else self.worlds.setdefault(self.world, [])).append(line)

    def state(self) -> State:
        made = State()
        for line in self.given:
            made.apply(self.known(), line)
        return made

    def done(self, lines: List[Line]) -> Iterator[Case]:
        """Does a case, and the lines that continue it."""
        want, got = self.state(), self.state()
        machine = None if is_row(lines[0][2]) else got.machine()
        doing: Optional[Tuple[int, str]] = None
        for place, _, line in lines:
            rest = line[5:] if line.startswith("then ") else line
            begins = line is lines[0][2] or line.startswith("then ")
            if begins and doing:
                yield self.case(doing, got, want, machine)
                doing = None
            if begins and (is_row(rest) or "->" in rest or rest.startswith("stretches ")):
                doing = (place, self.do(rest, got, want, machine))
            else:
                for state in (want, got) if begins else (want,):
                    state.apply(self.known(), rest)
        if doing:
            yield self.case(doing, got, want, machine)

    def do(self, line: str, got: State, want: State, machine: Optional[Machine]) -> str:
        """Does a row or something with a machine: what it comes to, and what it is to come to."""
        if machine is None:
            return self.do_row(line, got, want)
        if line.startswith("stretches "):
            return self.do_stretches(limit(self.known(), line.split()[1]), machine, want)
        done, _, wanted = line.partition("->")
        return f"{self.act(done.strip(), machine, want)}\n{wanted.strip()}"

    def do_row(self, line: str, got: State, want: State) -> str:
        given, left, wanted = row_line(line)
        got.parts["values"] = machines.stack(several(self.known(), given))
        want.parts["values"] = machines.stack(several(self.known(), left))
        after, came = machines.row(int(line.split()[0]), got.numbers["token"], got.whole())
        got.memory = bytearray(after.f_memory)
        got.parts = {name: getattr(after, "f_" + name) for name in got.parts}
        return f"{came}\n{wanted}"

    def do_stretches(self, most: int, machine: Machine, want: State) -> str:
        """The ticks in stretches, as one function, leave what single ones leave."""
        single = want.machine()
        if want.beside:
            memory = defined("memory.Bytes.put_cell")(single.state.f_parts.f_memory, *want.beside)
            single.state = single.state._replace(f_parts=single.state.f_parts._replace(f_memory=memory))
        done = 0
        while done < most and not machine.refusal():
            done += int(machine.ticks(most - done).split()[0])
        made = sum(1 for _ in range(done) if single.tick() not in ("Halted", "Waiting"))
        want.single = single
        return f"{done} ticks, {machine.standing()}\n{made} ticks, {single.standing()}"

    def act(self, done: str, machine: Machine, want: State) -> str:
        what, _, rest = done.partition(" ")
        if what == "ticks":
            return machine.ticks(limit(self.known(), rest))
        if what == "run":
            typed = unescaped(rest) if '"' in rest else b""
            return machine.run(limit(self.known(), rest.split()[0]), machines.Ends(typed, want.breaks, want.room))
        if what == "answer":
            return machine.answer(reply(rest))
        if what not in ("tick", "page"):
            raise ValueError(f"no such move: {done}")
        return machine.tick() if what == "tick" else machine.page()

    def case(self, doing: Tuple[int, str], got: State, want: State, machine: Optional[Machine]) -> Case:
        place, said = doing
        came, wanted = said.split("\n")
        single = want.single
        parts = machine.state.f_parts if machine else got.whole()
        aim = single.state.f_parts if single else want.whole()
        blocks = (machine.disk.f_blocks, want.pages() or b"") if machine else (b"", b"")
        title = f"{self.name}:{place}" + "".join(f" {name} {value}" for name, value in self.chosen.items())
        return Case(
            title, (came, machines.parts_text(parts), parts.f_memory, blocks[0]), (wanted, machines.parts_text(aim, None if single else want.order), aim.f_memory, blocks[1])
        )


def row_line(line: str) -> Tuple[str, str, str]:
    """The data stacks that a row's line has, before it and after it, and what it is to come to."""
    before, _, after = line.partition("--")
    given, (left, _, wanted) = before.rpartition("(")[2], after.partition(")")
    return given, given if left.strip() == "same" else left, wanted.strip()


def is_row(line: str) -> bool:
    return line.split(" ", 1)[0].isdigit()


def reply(said: str) -> Any:
    what, _, rest = said.partition(" ")
    if what == "key":
        return ("Key", int(rest))
    if what == "line":
        return ("Line", unescaped(rest), rest.endswith(" returned"))
    if what == "read" and rest != "fault":
        return ("ReadOk", bytes([int(rest, 16)]) * 1024)
    return (machines.REPLIES[said],)
