"""The worked states of rows in tests/cases/conformance/data/examples.txt, with what is given and left as the fields of records."""
import functools
import re
from typing import Dict, Iterator, List, NamedTuple, Set

import declared
import definition_cases
import definition_machine as machines

MEMORY = {"set", "bytes", "text", "cells", "fill", "lines"}


class State(NamedTuple):
    """A worked state: the row, its line, and what is given and left, as a record's fields."""

    number: int
    line: str
    shown: str
    token: str
    before: str
    after: str
    outcome: str


def stack(cells: List[int]) -> str:
    return " ▸ ".join(["[]", *map(str, cells)])


def items(data: bytes) -> str:
    return " ∷ ".join([*map(str, data), "[]"])


class Reader(definition_cases.Text):
    """Reads the worked states without doing them."""

    def examples(self) -> Iterator[State]:
        for _ in self.cases():
            yield self.found.pop()

    def done(self, lines: List[definition_cases.Line]) -> Iterator[definition_cases.Case]:
        self.found: List[State] = []
        line, before, after = lines[0][2], self.state(), self.state()
        *stacks, came = definition_cases.row_line(line)
        cells = [definition_cases.several(self.known(), said) for said in stacks]
        for _, _, more in lines[1:]:
            after.apply(self.known(), more)
        said = {one.split()[0] for one in [*self.given, *(more for _, _, more in lines[1:])]}
        size = max(len(state.memory.rstrip(b"\0")) for state in (before, after)) if said & MEMORY else 0
        token = str(before.numbers["token"]) if "token" in said else "w"
        fields = [self.fields(said, state, values, size) for state, values in ((before, cells[0]), (after, cells[1]))]
        self.found.append(State(int(line.split()[0]), line, shown(line, said, before, after), token, fields[0], fields[1], outcome(came)))
        yield definition_cases.Case("", (), ())

    @staticmethod
    def fields(said: Set[str], state: definition_cases.State, values: List[int], size: int) -> str:
        parts = [f"values = {stack(values)}"]
        if "returns" in said:
            parts.append(f"returns = {stack(list(reversed(state.parts['returns'])))}")
        if said & MEMORY:
            parts.append(f"memory = {items(bytes(state.memory[:size]))}")
        if "ip" in said:
            parts.append(f"ip = {state.parts['ip']}")
        if "next" in said:
            parts.append(f"pending = {' '.join(map(str, state.parts['pending']))}")
        if said & {"count", "assign", "updated", "buffers"}:
            parts.append(f"buffers = {buffers(state)}")
        if "device" in said:
            parts.append(f"block_count = {state.parts['block_count']}")
        return "; ".join(parts)


def buffers(state: definition_cases.State) -> str:
    """Buffers that nothing was assigned to, or each with its slot, its block and whether it is updated."""
    count = len(state.parts["buffers"])
    order = (state.order or machines.parts_text(state.whole()).rpartition("buffers ")[2]).split()
    if order == [f"{slot}:-" for slot in reversed(range(count))]:
        return f"start {count}"
    entries = (re.match(r"(\d+):(\d+|-)(\*?)$", one) for one in order)
    return " ∷ ".join(
        [*(f"record {{ slot = {it[1]}; block = {'None' if it[2] == '-' else f'Some {it[2]}'}; updated = {'true' if it[3] else 'false'} }}" for it in entries if it), "[]"]
    )


def outcome(said: str) -> str:
    """What a row comes to, as the definitions have it."""
    kind, *of = said.split() or ["done"]
    spans = {"shows": "Show", "aborts": "Abort"}
    if kind == "asks":
        asked = f"request.{of[0].capitalize()}"
        return f"Ask ({asked} {of[1]})" if of[1:] else f"Ask {asked}"
    if of[:1] == ["byte"]:
        return f"Byte {of[1]}"
    if kind in spans:
        return f"{spans[kind]} (record {{ at = {of[0]}; len = {of[1]} }})"
    return {"done": "Done", "halts": "Halt", "fault": f"Fault {''.join(of)}"}[kind]


@functools.lru_cache(maxsize=None)
def system_cells() -> Dict[int, str]:
    """The names of the system's cells, as words have them, by their addresses."""
    text = (declared.CRATES / "memory" / "src" / "system.rt").read_text(encoding="utf-8")
    spelled = {"TO_IN": ">IN", "NUMBER_TIB": "#TIB"}
    return {int(at): spelled.get(name, name.replace("_", "-")) for name, at in declared.CONSTANT.findall(text) if at.isdigit() and int(at) < 64}


def memory_texts(memory: bytearray, places: List[int]) -> List[str]:
    """What memory has at places: a cell of the system by its name, and bytes in a row, in base 16 or as text."""
    named, texts, left = system_cells(), [], sorted(set(places))
    while left:
        at = left[0]
        cell = at - at % 2
        if cell in named:
            texts.append(f"{named[cell]} {memory[cell] + 256 * memory[cell + 1]}")
            left = [place for place in left if place not in (cell, cell + 1)]
            continue
        end = next(place for place in range(at, len(memory) + 1) if place not in left or (place - place % 2) in named)
        data, left = memory[at:end], [place for place in left if place >= end]
        is_text = len(data) > 1 and all(32 <= byte < 127 for byte in data)
        texts.append(f'{at} "{data.decode()}"' if is_text else f"{at}: {data.hex(' ', 1).upper()}")
    return texts


def shown(line: str, said: Set[str], before: definition_cases.State, after: definition_cases.State) -> str:
    """A worked state in a line: what is given beside the data stack, the row, and what else it leaves."""
    given = [f"token {before.numbers['token']}"] if "token" in said else []
    left: List[str] = []
    for name in ("returns", "ip", "next"):
        one, other = (values_text(name, state) for state in (before, after))
        given += [one] if name in said and one else []
        left += [other or f"no {name}"] if one != other else []
    orders = ["" if buffers(state).startswith("start") else machines.parts_text(state.whole(), state.order).partition(", buffers")[2] for state in (before, after)]
    given += [f"buffers{orders[0]}"] if orders[0] else []
    left += [f"buffers{orders[1] or ' without blocks'}"] if orders[0] != orders[1] else []
    places = range(max(len(state.memory.rstrip(b"\0")) for state in (before, after)))
    given += memory_texts(before.memory, [place for place in places if before.memory[place]])
    left += memory_texts(after.memory, [place for place in places if before.memory[place] != after.memory[place]])
    return line + (f"   of {', '.join(given)}" if given else "") + (f"   leaves {', '.join(left)}" if left else "")


def values_text(name: str, state: definition_cases.State) -> str:
    """The return stack, its top last, the place in the thread or the next token."""
    if name == "ip":
        return f"ip {state.parts['ip']}"
    values = reversed(state.parts["returns"]) if name == "returns" else state.parts["pending"][1:]
    text = " ".join(map(str, values))
    return f"{name} {text}" if text else ""


def states() -> Iterator[State]:
    return Reader("examples.txt").examples()
