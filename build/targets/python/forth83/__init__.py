"""The proved Forth-83 machine in Python, over the shared C library libforth83.

    from forth83 import Forth, MemoryBlocks

    forth = Forth(open("kernel.img", "rb").read(), MemoryBlocks(16))
    forth.type(": SQUARE DUP * ;")
    forth.call("SQUARE", 12)            # [144]

A machine is a record of plain bytes: `snapshot` copies it, also while it waits for a key, and `restore` goes back. The manual of the
library, docs/EMBEDDING.md, says what each call promises. Calls on different machines may run in different threads.
"""
import ctypes
import enum
from typing import Callable, Dict, List, Mapping, NamedTuple, Optional

ABI, PAGE, ROOM, TICKS = 3, 1024, 131072, 10_000_000
# A service's number, its answer, and its results are in cells of the machine; the mark says that the host has services.
SERVICE, RESULT, SECOND_RESULT, HAS_SERVICES, MARK = 56, 58, 60, 62, 83
_CELL, _LONG, _SIZE = ctypes.c_uint16, ctypes.c_uint32, ctypes.c_uint64

Status = enum.IntEnum(
    "Status",
    "DONE NO_MACHINE OUT_OF_MEMORY SHORT_ROOM TRUNCATED TRAILING_BYTES BAD_MAGIC BAD_VERSION BAD_BUFFERS BAD_SIZE HALTED WAITING NOT_ASKED BAD_PAGE STACK "
    "NOT_FOUND CHAIN_TOO_LONG NOT_COLON NOT_STRUCTURED NAMELESS SHADOWED BAD_TEXT LONG_REPLY REFUSED",
    start=0,
)
Stop = enum.IntEnum("Stop", "HALTED LIMIT ROOM TYPED BLOCK SPAN LINE RETURNED", start=0)
Asks = enum.IntEnum("Asks", "NOTHING KEY LINE READ WRITE", start=0)


class Refused(Exception):
    """A call that was refused; it changed nothing."""

    def __init__(self, status: Status) -> None:
        super().__init__(status.name.lower().replace("_", " "))
        self.status = status


class Fault(Exception):
    """What was typed or called met a fault, of this number, at this place; `shown` is what it showed."""

    def __init__(self, number: int, ip: int, shown: bytes) -> None:
        super().__init__(f"fault {number} at {ip}")
        self.number, self.ip, self.shown = number, ip, shown


class Unfinished(Exception):
    """What was typed or called did not come to its end: `stop` says why."""

    def __init__(self, stop: Stop, shown: bytes) -> None:
        super().__init__(stop.name.lower())
        self.stop, self.shown = stop, shown


class Buffer(ctypes.Structure):
    """A block buffer, as forth83_buffer of forth83.h."""

    _fields_ = [(name, _CELL) for name in ("slot", "has_block", "block", "updated")]


class Faults(ctypes.Structure):
    """The faults of a machine, as forth83_faults of forth83.h."""

    _fields_ = [(name, _CELL) for name in ("count", "last", "ip")]


class Aside(ctypes.Structure):
    """Where a machine was when a word was called, as forth83_aside of forth83.h."""

    _fields_ = [(name, _CELL) for name in ("ip", "has_pending", "pending", "asks", "asked", "token")] + [("line", _CELL * 2), ("returns_top", _CELL), ("returns", _CELL * 257)]


class Record(ctypes.Structure):
    """A machine, as forth83 of forth83.h."""

    _fields_ = (
        [("abi", _LONG), ("block_count", _LONG)]
        + [(name, _CELL) for name in ("ip", "has_pending", "pending", "asks", "asked", "token", "halts", "fault")]
        + [(name, _CELL) for name in ("values_top", "returns_top", "buffer_count")]
        + [("buffers", Buffer * 16), ("values", _CELL * 257), ("returns", _CELL * 257)]
        + [("memory", ctypes.c_uint8 * 65536), ("spare", ctypes.c_uint8 * 16)]
        + [("faults", Faults), ("is_called", _CELL), ("aside", Aside)]
    )


class End(ctypes.Structure):
    """How a run ended, as forth83_end of forth83.h."""

    _fields_ = [("read", _SIZE), ("shown", _SIZE), ("left", _SIZE), ("stop", _LONG), ("at", _CELL), ("len", _CELL)]


class Ran(NamedTuple):
    """What a run showed, why it ended, the typed bytes that were not read, and the ticks that are left."""

    shown: bytes
    stop: Stop
    unread: bytes
    left: int


class Blocks:
    """The blocks of a machine: a device with so many blocks, of which a host overrides both calls."""

    count = 65536

    def read(self, block: int) -> Optional[bytes]:
        """The 1,024 bytes of a block, or None if it cannot be read."""
        raise NotImplementedError

    def write(self, block: int, page: bytes) -> bool:
        """Keeps a block; whether that was possible."""
        raise NotImplementedError


class MemoryBlocks(Blocks):
    """So many blank blocks in memory."""

    def __init__(self, count: int) -> None:
        self.count, self.pages = count, [bytes(PAGE) for _ in range(count)]

    def read(self, block: int) -> Optional[bytes]:
        return self.pages[block] if block < self.count else None

    def write(self, block: int, page: bytes) -> bool:
        if block < self.count:
            self.pages[block] = page
        return block < self.count


_RECORD, _BYTES, _WORD = ctypes.POINTER(Record), ctypes.c_char_p, ctypes.POINTER(_CELL)
_CALLS: Dict[str, List[object]] = {
    "load_3": [_BYTES, _SIZE, _LONG, _RECORD],
    "run": [_RECORD, _BYTES, _SIZE, _BYTES, _SIZE, _SIZE, ctypes.POINTER(End)],
    "read": [_RECORD, _BYTES, _SIZE],
    "page": [_RECORD, _BYTES, _SIZE],
    "find": [_RECORD, _BYTES, _SIZE, _WORD],
    "see": [_RECORD, _BYTES, _SIZE, _BYTES, _SIZE, ctypes.POINTER(_SIZE)],
    "save": [_RECORD, _CELL, _BYTES, _SIZE, ctypes.POINTER(_SIZE)],
    "pop": [_RECORD, _WORD],
    **{name: [_RECORD, _CELL] for name in ("enter", "call", "push")},
    **{name: [_RECORD] for name in ("written", "failed", "ended", "resume")},
}


def _library(name: str) -> ctypes.CDLL:
    """The shared library, with the types of its calls."""
    library = ctypes.CDLL(name)
    if library.forth83_abi() != ABI:
        raise OSError(f"{name} has layout {library.forth83_abi()}, and this module is for layout {ABI}")
    for call, types in _CALLS.items():
        function = getattr(library, f"forth83_{call}")
        function.argtypes, function.restype = types, _LONG
    return library


class Forth:
    """A machine that an image was loaded into. A service is a function that an image calls by its number: it has the machine, and
    answers 0 or a fault."""

    def __init__(
        self, image: bytes, blocks: Optional[Blocks] = None, services: Optional[Mapping[int, Callable[["Forth"], int]]] = None, library: str = f"libforth83.so.{ABI}"
    ) -> None:
        self._library, self._services = _library(library), dict(services or {})
        self.record, self.blocks = Record(), blocks or MemoryBlocks(0)
        self._room = ctypes.create_string_buffer(ROOM)
        self._must("load_3", image, len(image), self.blocks.count, self.record)
        if self._services:
            self.set_cell(HAS_SERVICES, MARK)

    def _must(self, call: str, *words: object) -> None:
        """Makes a call of the library."""
        status = getattr(self._library, f"forth83_{call}")(*words)
        if status:
            raise Refused(Status(status))

    def cell(self, address: int) -> int:
        """The cell at an address."""
        return int(self.record.memory[address % 65536]) + 256 * int(self.record.memory[(address + 1) % 65536])

    def set_cell(self, address: int, value: int) -> None:
        """Changes the cell at an address."""
        for place, byte in enumerate((value % 65536).to_bytes(2, "little")):
            self.record.memory[(address + place) % 65536] = byte

    @property
    def stack(self) -> List[int]:
        """The data stack, its top last. While a line is asked, its two cells are on top."""
        return list(self.record.values[self.record.values_top : 256])[::-1]

    def drop_block(self, block: int) -> None:
        """Lets the machine forget a block that is a device and was not updated, so that it is asked for again."""
        for buffer in self.record.buffers[: self.record.buffer_count]:
            if buffer.has_block and buffer.block == block and not buffer.updated:
                buffer.has_block = 0

    def _answer_block(self) -> None:
        """Answers for the block that is asked."""
        page, block = ctypes.create_string_buffer(PAGE), self.record.asked
        if self.record.asks == Asks.READ:
            content = self.blocks.read(block)
            self._must("failed", self.record) if content is None else self._must("read", self.record, bytes(content), len(content))
        else:
            self._must("page", self.record, page, PAGE)
            self._must("written" if self.blocks.write(block, page.raw) else "failed", self.record)

    def _serve(self) -> bytes:
        """Does the service that is asked; the byte that answers. Fault 17 is that of a service that does not exist."""
        number = self.cell(SERVICE)
        answer = self._services[number](self) if number in self._services else 17
        self.set_cell(SERVICE, 0)
        return bytes([answer])

    def _asks_service(self) -> bool:
        return bool(self._services) and self.record.asks == Asks.KEY and self.cell(SERVICE) != 0

    def run(self, typed: bytes = b"", limit: int = TICKS) -> Ran:
        """Goes on with the machine by these typed bytes, for at most so many ticks; blocks and services are answered meanwhile."""
        shown, end, rest = b"", End(), typed.splitlines(True) if self._services else [typed]
        now = rest.pop(0) if rest else b""
        while True:
            self._must("run", self.record, now, len(now), self._room, ROOM, limit, end)
            shown += ctypes.string_at(self._room, end.shown)
            now, limit = now[end.read :], end.left
            if end.stop == Stop.BLOCK:
                self._answer_block()
            elif end.stop == Stop.TYPED and self._asks_service():
                now = self._serve() + now
            elif end.stop == Stop.TYPED and rest:
                now += rest.pop(0)
            elif end.stop != Stop.ROOM:
                return Ran(shown, Stop(end.stop), now + b"".join(rest), limit)

    def _ran(self, typed: bytes, limit: int, wanted: Stop) -> bytes:
        """What a run shows that must end in this way, without a fault."""
        faults = self.record.faults.count
        ran = self.run(typed, limit)
        if self.record.faults.count != faults:
            raise Fault(self.record.faults.last, self.record.faults.ip, ran.shown)
        if ran.stop != wanted:
            raise Unfinished(ran.stop, ran.shown)
        return ran.shown

    def type(self, line: str, limit: int = TICKS) -> str:
        """Types a line; what is shown."""
        return self._ran(line.encode("latin-1") + b"\n", limit, Stop.TYPED).decode("latin-1")

    def end(self) -> None:
        """Says that nothing is typed any more."""
        self._must("ended", self.record)

    def find(self, name: str) -> int:
        """The compilation address of the word of that name."""
        word, spelled = _CELL(), name.encode("latin-1")
        self._must("find", self.record, spelled, len(spelled), word)
        return word.value

    def enter(self, name: str) -> None:
        """Enters a word in place of what was going on."""
        self._must("enter", self.record, self.find(name))

    def call(self, name: str, *arguments: int, limit: int = TICKS) -> List[int]:
        """Calls a word, also while a line or a key is asked; what it leaves on the stack, the top last."""
        self._must("call", self.record, self.find(name))
        try:
            depth = len(self.stack)
            for argument in arguments:
                self._must("push", self.record, argument % 65536)
            self._ran(b"", limit, Stop.RETURNED)
            left = self.stack[depth:]
            for _ in left:
                self._must("pop", self.record, _CELL())
            return left
        finally:
            if not self.record.halts:
                self._must("resume", self.record)

    def see(self, name: str) -> str:
        """The text of a colon word."""
        size, spelled = _SIZE(), name.encode("latin-1")
        self._must("see", self.record, spelled, len(spelled), self._room, ROOM, size)
        return ctypes.string_at(self._room, size.value).decode("latin-1")

    def snapshot(self) -> bytes:
        """The machine as it is now."""
        return bytes(self.record)

    def restore(self, kept: bytes) -> None:
        """Goes back to a snapshot, of this machine or of another one."""
        self.record = Record.from_buffer_copy(kept)

    def save(self, entry: str) -> bytes:
        """The file of an image of what is compiled so far, which starts with this word."""
        size = _SIZE()
        self._must("save", self.record, self.find(entry), self._room, ROOM, size)
        return ctypes.string_at(self._room, size.value)
