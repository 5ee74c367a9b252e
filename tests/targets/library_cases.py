"""Makes the calls of library_cases.txt over the C library, and compares what each answers."""
import ctypes
import pathlib
import re
import shlex
import sys
from typing import Any, Dict, Iterator, List, NamedTuple, Optional, Tuple

from tally import Must

ROOT = pathlib.Path(__file__).resolve().parents[2]
sys.path.insert(0, str(ROOT / "build/targets/python"))

import forth83  # noqa: E402
from forth83 import Status, Stop  # noqa: E402

CASES = ROOT / "tests/cases/library_cases.txt"
DEFINED = b": SQUARE DUP * ; : BAD 1 0 / ; : ASKS KEY ; \n: ENDLESS BEGIN AGAIN ; : BLOCK-3 3 BLOCK ;\n"
FILLED, FORTH, ABI, TEXT_AT = 0x5A, 42, forth83.ABI, 30000
Answer = Dict[str, object]


class Hosts:
    """The library, loaded into this process, and the bytes of the kernel's image."""

    def __init__(self, library: pathlib.Path, image: bytes) -> None:
        self.library, self.image = str(library), image
        self.calls = ctypes.CDLL(self.library)

    def load(self, image: Optional[bytes] = None, is_null: bool = False) -> Tuple[int, Any]:
        """The status, and the record."""
        bytes_of, machine = self.image if image is None else image, forth83.Record()
        ctypes.memset(ctypes.byref(machine), FILLED, ctypes.sizeof(machine))
        return self.calls.forth83_load_3(None if is_null else bytes_of, ctypes.c_uint64(len(bytes_of)), 16, ctypes.byref(machine)), machine

    def run(self, machine: Any, typed: Optional[bytes], room: Optional[int] = 131072, limit: int = 1000000) -> Tuple[int, Any, bytes]:
        """The status, how it ended, and the bytes of the room, with one more."""
        end, shown, size = forth83.End(7, 7, 7, 7, 7, 7), ctypes.create_string_buffer((room or 0) + 1), ctypes.c_uint64(len(typed or b""))
        status = self.calls.forth83_run(ctypes.byref(machine), typed, size, None if room is None else shown, ctypes.c_uint64(room or 0), ctypes.c_uint64(limit), ctypes.byref(end))
        return status, end, shown.raw


def left_in_memory(machine: Any, end: Any) -> bytes:
    """The bytes that a call left to the host, by its stop."""
    twice = bytes(machine.memory) * 2
    return twice[end.at : end.at + end.len] + b" " * (end.stop == Stop.LINE)


def cell(machine: Any, address: int) -> int:
    return machine.memory[address] + 256 * machine.memory[(address + 1) % 65536]


def walked(machine: Any, vocabulary: int, name: bytes) -> int:
    """The address of the code field of that name in one vocabulary, by a walk through its chain in memory; 0 where it isn't."""
    field = cell(machine, vocabulary + 2 * (name[0] % 4))
    while field != 0:
        count = machine.memory[field + 2]
        code_field = field + 3 + count % 32
        if bytes(machine.memory[field + 3 : code_field]) == name and not count & 32:
            return code_field
        field = cell(machine, field)
    return 0


class Line(NamedTuple):
    """A call with its words and options, and what it must answer; or the title of a case."""

    number: int
    call: str
    words: List[bytes]
    options: Dict[str, bytes]
    wanted: Dict[str, bytes]


def split(text: str) -> Tuple[List[bytes], Dict[str, bytes]]:
    """The words and the options of a half of a line."""
    parts = [it.encode("latin-1").decode("unicode_escape").encode("latin-1") for it in shlex.split(text)]
    options = [re.fullmatch(rb"([a-z]+)=(.*)", it, re.S) for it in parts]
    return [part for part, option in zip(parts, options) if not option], {it[1].decode(): it[2] for it in options if it}


def lines() -> Iterator[Line]:
    """Those of the file."""
    for number, text in enumerate(CASES.read_text(encoding="ascii").splitlines(), 1):
        if text.startswith("== "):
            yield Line(number, "==", [], {}, {})
        elif text and not text.startswith("#"):
            given, _, answer = text.partition(" -> ")
            (call, *words), options = split(given)
            (status,), wanted = split(answer) if answer else ([b"DONE"], {})
            yield Line(number, call.decode(), words, options, {"status": status, **wanted})


class Machine:
    """The machine of a case; each method is a call of the file, and answers its status and what else is compared."""

    def __init__(self, hosts: Hosts) -> None:
        self.hosts, self.calls, self.text = hosts, hosts.calls, b""
        self.saved, self.kept = b"", {}  # type: bytes, Dict[bytes, object]
        self.record = hosts.load()[1]

    def _made(self, name: str, *words: object) -> int:
        """The status of a call whose first argument is the record."""
        return int(getattr(self.calls, f"forth83_{name}")(ctypes.byref(self.record), *words))

    def _field(self, path: bytes) -> Tuple[Any, str]:
        """What a field is of, and its name."""
        owner, (*parts, last) = self.record, path.decode().split(".")
        for part in parts:
            owner = owner[int(part)] if part.isdigit() else getattr(owner, part)
        return owner, last

    def _value(self, path: bytes) -> object:
        owner, name = self._field(path)
        value = getattr(owner, name)
        return value if isinstance(value, int) else bytes(value)

    def _address(self, name: bytes) -> int:
        """The address of a word: by CONTEXT's vocabulary, and then by FORTH."""
        return walked(self.record, cell(self.record, 32), name) or walked(self.record, FORTH, name)

    def _sized(self, text: bytes) -> Tuple[Optional[bytes], ctypes.c_uint64]:
        """Bytes and how many they are."""
        repeated = re.fullmatch(rb"(\w)\*(\d+)", text)
        whole = repeated[1] * int(repeated[2]) if repeated else text
        return (None, ctypes.c_uint64(0)) if whole == b"null" else (whole, ctypes.c_uint64(len(whole)))

    def machine(self, what: bytes = b"") -> Answer:
        status, self.record = self.hosts.load(self.saved if what else None)
        return {"status": status}

    def load(self, change: bytes) -> Answer:
        image, at = self.hosts.image, re.fullmatch(rb"(\d+)=(\d+)", change)
        changed = {b"none": b"", b"null": b"", b"-1": image[:-1], b"+1": image + b"x"}.get(change, image)
        if at:
            changed = image[: int(at[1])] + bytes([int(at[2])]) + image[int(at[1]) + 1 :]
        status, record = self.hosts.load(changed, change == b"null")
        return {"status": status, "spoiled": status != 0 and bytes(record) != bytes([FILLED]) * ctypes.sizeof(record)}

    def run(self, typed: bytes, room: bytes = b"131072", limit: bytes = b"1000000") -> Answer:
        size = None if room == b"null" else int(room)
        status, end, shown = self.hosts.run(self.record, None if typed == b"null" else typed, size, int(limit))
        if status:
            spoiled = shown != bytes(len(shown)) or (end.read, end.shown, end.left, end.stop, end.at, end.len) != (7,) * 6
            return {"status": status, "spoiled": spoiled}
        given = shown[: end.shown]
        return {"status": 0, "shown": given, "has": given, "stop": Stop(end.stop).name, "read": end.read, "spoiled": shown[end.shown :].strip(b"\0") != b""}

    def shows(self, typed: bytes, room: bytes) -> Answer:
        output, stops, spoiled, size = b"", [], False, int(room)  # type: bytes, List[Tuple[int, str]], bool, int
        while True:
            status, end, shown = self.hosts.run(self.record, typed, size)
            spoiled = spoiled or status != 0 or shown[end.shown :].strip(b"\0") != b""
            output, typed = output + shown[: end.shown] + left_in_memory(self.record, end), typed[end.read :]
            if end.stop in (Stop.SPAN, Stop.LINE):
                stops.append((end.len, f"{Stop(end.stop).name} {end.at} {end.len} {end.shown}"))
            elif spoiled or (end.at, end.len) != (0, 0) or end.stop != Stop.ROOM:
                longest = max(stops, default=(0, " "))[1].rpartition(" ")[0]
                ended = spoiled or (end.at, end.len) != (0, 0) or end.stop != Stop.TYPED
                return {"status": status, "shown": output, "stops": ", ".join(it for _, it in stops), "longest": longest, "spoiled": ended}

    def defined(self) -> Answer:
        return {"status": self.hosts.run(self.record, DEFINED)[0]}

    def put(self, what: bytes, at: bytes = b"30000") -> Answer:
        """`text`: puts it into the memory of a machine that waits for a line."""
        ended = self.hosts.run(self.record, b"")[1]
        self.text = bytes(33 + i % 94 for i in range(int(what))) if what.isdigit() else what
        for place, byte in enumerate(self.text):
            self.record.memory[(int(at) + place) % 65536] = byte
        return {"status": 0, "spoiled": ended.stop != Stop.TYPED}

    def memory(self, at: bytes, text: bytes) -> Answer:
        return {"status": 0, "spoiled": bytes(self.record.memory)[int(at) :][: len(text)] != text}

    def set(self, path: bytes, value: bytes) -> Answer:
        owner, name = self._field(path)
        setattr(owner, name, int(value))
        return {"status": 0}

    def wrong(self, path: bytes, *values: bytes) -> Answer:
        found = []
        for value in values:
            self.machine()
            self.set(path, value)
            before, pushed = bytes(self.record), Status.WAITING if self.record.asks else Status.NO_MACHINE
            ran = self.run(b"1 .\n")
            found.append((ran["status"], ran.get("spoiled"), self._made("push", 1), bytes(self.record)) == (Status.NO_MACHINE, False, pushed, before))
        self.machine()
        return {"status": 0, "spoiled": not all(found)}

    def is_(self, path: bytes, value: bytes) -> Answer:
        name, _, more = value.rpartition(b"+")
        wanted = self._address(name) + int(more) if name else int(value)
        return {"status": 0, "spoiled": self._value(path) != wanted}

    def keep(self, *paths: bytes) -> Answer:
        self.kept = {path: self._value(path) for path in paths}
        return {"status": 0}

    def kept_(self) -> Answer:
        return {"status": 0, "spoiled": self.kept != {path: self._value(path) for path in self.kept}}

    def pushes(self, count: bytes) -> Answer:
        return {"status": max(self._made("push", ctypes.c_uint16(value)) for value in range(int(count)))}

    def pops(self, count: bytes) -> Answer:
        return {"status": 0, "spoiled": any(self.pop() != {"status": 0, "value": value} for value in reversed(range(int(count))))}

    def circle(self, name: bytes) -> Answer:
        at = 60000
        for place, byte in enumerate(at.to_bytes(2, "little")):
            self.record.memory[cell(self.record, 32) + 2 * (name[0] % 4) + place] = self.record.memory[at + place] = byte
        self.record.memory[at + 2] = 0
        return {"status": 0}

    def find(self, name: bytes) -> Answer:
        text, size = self._sized(name)
        word = ctypes.c_uint16(7)
        status = self._made("find", text, size, ctypes.byref(word))
        address = 7 if status else self._address(text or b"")
        is_here = status == 0 and walked(self.record, cell(self.record, 32), text or b"") == word.value != walked(self.record, FORTH, text or b"")
        return {"status": status, "spoiled": word.value != address, "vocabulary": "CONTEXT" if is_here else "FORTH"}

    def tick(self, name: bytes) -> Answer:
        text, _ = self._sized(name)
        shown = self.hosts.run(self.record, b"' %s U.\n" % (text or b""))[2]
        return {"status": 0, "spoiled": int(re.findall(rb"(\d+)  ok\n", shown)[0]) != self._address(text or b"") or self.find(name)["spoiled"]}

    def push(self, value: bytes) -> Answer:
        return {"status": self._made("push", ctypes.c_uint16(int(value)))}

    def pop(self) -> Answer:
        top = ctypes.c_uint16(7)
        status = self._made("pop", ctypes.byref(top))
        return {"status": status, "spoiled": True} if status and top.value != 7 else {"status": status, "value": top.value}

    def call(self, name: bytes) -> Answer:
        return {"status": self._made("call", ctypes.c_uint16(self._address(name)))}

    def enter(self, name: bytes) -> Answer:
        return {"status": self._made("enter", ctypes.c_uint16(self._address(name)))}

    def plain(self, name: str) -> Answer:
        """A call without arguments: resume, written, failed, ended."""
        return {"status": self._made(name)}

    def paged(self, name: str, size: bytes) -> Answer:
        """read and page, with a page of so many bytes."""
        page = ctypes.create_string_buffer(1024 + 2)
        count = 0 if size == b"null" else int(size)
        status = self._made(name, None if size == b"null" else page, ctypes.c_uint64(count))
        return {"status": status, "spoiled": status != 0 and page.raw != bytes(1026)}

    def save(self, room: bytes = b"65536") -> Answer:
        size, file = ctypes.c_uint64(7), ctypes.create_string_buffer(65536)
        entry = ctypes.c_uint16(int.from_bytes(self.hosts.image[12:14], "little"))
        status = self._made("save", entry, file, ctypes.c_uint64(int(room)), ctypes.byref(size))
        self.saved = file.raw[: size.value]
        return {"status": status, "spoiled": status != 0 and (size.value, file.raw) != (7, bytes(65536))}

    def serve(self, frame: bytes, room: bytes = b"73830") -> Answer:
        whole = int(room)
        reply, size = ctypes.create_string_buffer(bytes([FILLED]) * (whole + 1), whole + 1), ctypes.c_uint64(7)
        status = self._made("serve", ctypes.c_uint8(frame[0]), frame[1:], ctypes.c_uint64(len(frame) - 1), reply, ctypes.c_uint64(whole), ctypes.byref(size))
        is_obeyed = status in (Status.DONE, Status.LONG_REPLY)
        given = reply.raw[: min(size.value, whole)] if is_obeyed else b""
        spoiled = reply.raw[len(given) :].strip(bytes([FILLED])) != b"" or not is_obeyed and size.value != 7
        return {"status": status, "size": size.value, "reply": given, "front": given, "spoiled": spoiled}


# What looks, and so changes nothing; and what a refusal may change: a request that is obeyed.
LOOKS = ("find", "save", "is", "keep", "kept", "memory")


def act(machine: Machine, line: Line) -> Answer:
    """What a call answers; `changed` if it changed the record and must not."""
    names = {"text": "put", "is": "is_", "kept": "kept_"}
    before = bytes(machine.record)
    words = [it.replace(b"{text}", machine.text) for it in line.words]
    if line.call in ("resume", "written", "failed", "ended"):
        answer = machine.plain(line.call)
    elif line.call in ("read", "page"):
        answer = machine.paged(line.call, *words)
    else:
        answer = getattr(machine, names.get(line.call, line.call))(*words, **line.options)
    is_kept = line.call in LOOKS or answer["status"] not in (Status.DONE, Status.LONG_REPLY)
    return {**answer, "status": Status(answer["status"]).name, "changed": is_kept and bytes(machine.record) != before}  # type: ignore


def agrees(key: str, wanted: bytes, got: object) -> bool:
    """Whether what is answered is what is wanted; of `has` and `front` a part, or the front."""
    given = got if isinstance(got, bytes) else str(got).encode()
    return wanted in given if key == "has" else given.startswith(wanted) if key == "front" else given == wanted


def try_library(hosts: Hosts, must: Must) -> int:
    """All calls of the file; how many they are."""
    machine, count = Machine(hosts), 0
    for line in lines():
        if line.call == "==":
            machine = Machine(hosts)
            continue
        answer, count = act(machine, line), count + 1
        wrong = [key for key, value in line.wanted.items() if not agrees(key, value.replace(b"{text}", machine.text), answer.get(key))]
        wrong += [key for key in ("spoiled", "changed") if answer.get(key)]
        shown = {key: value[:200] if isinstance(value, bytes) else value for key, value in answer.items()}
        must(not wrong, f"{CASES.name}:{line.number}: {line.call} {line.words}: {', '.join(wrong)}: {shown}")
    return count
