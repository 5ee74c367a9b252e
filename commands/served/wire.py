"""The frames of `forth83 serve`, as docs/FORMATS.md has them: a client with a method for each request."""
from __future__ import annotations

import os
import struct
from typing import Callable, Iterable, NamedTuple, Optional, Protocol

LONG = "zhadt"  # replies that may need several frames
MOST = 2048  # bytes in a frame of a reply


class Gone(Exception):
    """The server has ended."""


class Refused(Exception):
    """The server refused a request, for this cause."""

    def __init__(self, body: bytes) -> None:
        super().__init__(body)
        self.cause = body[0]
        self.cell = int.from_bytes(body[1:3], "little")


class Stop(NamedTuple):
    """How a run ended: the ticks that were done, the letter that says what the machine does now, and its number."""

    ticks: int
    how: str
    number: int


class Header(NamedTuple):
    """A word: its compilation address, view cell, code field, whether it is immediate and hidden, and its name."""

    token: int
    view: int
    code: int
    is_immediate: bool
    is_hidden: bool
    name: bytes


class State(NamedTuple):
    """What a look at the machine shows. A buffer is its slot, its block (or None) and whether it is updated."""

    ip: int
    pending: Optional[int]
    stack: list[int]
    returns: list[int]
    buffers: list[tuple[int, Optional[int], bool]]


def cells(body: bytes) -> list[int]:
    return list(struct.unpack(f"<{len(body) // 2}H", body))


def cell_at(memory: bytes, address: int) -> int:
    return int.from_bytes(memory[address : address + 2], "little")


def packed(*numbers: int) -> bytes:
    return struct.pack(f"<{len(numbers)}H", *(number & 0xFFFF for number in numbers))


def started(words: list[str]) -> tuple[int, int, int]:
    """Starts a program in a session of its own: its process, what it reads, and what it writes."""
    from_here, to_server = os.pipe()
    from_server, to_here = os.pipe()
    moves = [(os.POSIX_SPAWN_DUP2, from_here, 0), (os.POSIX_SPAWN_DUP2, to_here, 1)]
    try:
        process = os.posix_spawn(words[0], words, os.environ, file_actions=moves, setsid=True)
    finally:
        os.close(from_here)
        os.close(to_here)
    return process, to_server, from_server


class Server:
    """A server that this process started: what is sent to it, and what it sends."""

    def __init__(self, words: list[str]) -> None:
        self.process, self._to, self._from = started(words)

    def come(self) -> bytes:
        """What comes next; Gone if nothing can."""
        piece = os.read(self._from, 65536)
        if not piece:
            raise Gone
        return piece

    def send(self, frames: bytes) -> None:
        try:
            while frames:
                frames = frames[os.write(self._to, frames) :]
        except BrokenPipeError as error:
            raise Gone from error

    def close(self) -> None:
        """Waits for the server, which ends when nothing more can come."""
        os.close(self._to)
        os.close(self._from)
        os.waitpid(self.process, 0)


class Channel(Protocol):
    """Where a server is: a pipe, or a serial line."""

    def come(self) -> bytes:
        ...

    def send(self, frames: bytes) -> None:
        ...

    def close(self) -> None:
        ...


class Frames:
    """The frames that a server is sent and that it sends."""

    def __init__(self, channel: Channel, shown: Callable[[bytes], None]) -> None:
        self.channel, self.shown = channel, shown
        self._come = bytearray()

    def _take(self, size: int) -> bytes:
        while len(self._come) < size:
            self._come += self.channel.come()
        taken = bytes(self._come[:size])
        del self._come[:size]
        return taken

    def _reply(self) -> bytes:
        whole = b""
        while True:
            head = self._take(3)
            kind, body = chr(head[0]), self._take(head[1] + 256 * head[2])
            if kind == "s":
                self.shown(body)
                continue
            if kind == "!":
                raise Refused(body)
            whole += body
            if kind not in LONG or len(body) < MOST:
                return whole

    def ask(self, kind: str, body: bytes = b"") -> bytes:
        """The reply to a request; Refused if it is refused."""
        self.channel.send(kind.encode() + packed(len(body)) + body)
        return self._reply()

    def ask_all(self, requests: Iterable[tuple[str, bytes]]) -> list[bytes]:
        """The replies to short requests that are sent together."""
        asked = list(requests)
        self.channel.send(b"".join(kind.encode() + packed(len(body)) + body for kind, body in asked))
        return [self._reply() for _ in asked]

    def asked_stop(self, kind: str, body: bytes = b"") -> Stop:
        """The reply to a request after which the machine may do something else."""
        ticks, how, number = struct.unpack("<IcH", self.ask(kind, body))
        return Stop(ticks, how.decode(), number)


class Wire(Frames):
    """The requests of a server that this process starts with these words."""

    board_name = ""  # that of the board which has the machine

    def __init__(self, words: list[str], shown: Callable[[bytes], None]) -> None:
        super().__init__(Server(words), shown)

    # Running, and answers to what the machine asks

    def run(self, ticks: int) -> Stop:
        return self.asked_stop("r", struct.pack("<I", ticks))

    def answer(self, kind: str, body: bytes = b"") -> Stop:
        """Answers what the machine asked: `k` a byte, `l` 1 and a line, `x`, `p` a page, `f`, `w` or `g`."""
        return self.asked_stop(kind, body)

    def enter(self, token: int) -> Stop:
        return self.asked_stop("n", packed(token))

    # Looking, and changing memory

    def state(self) -> State:
        body = cells(self.ask("v"))
        depth, height = body[3], body[4]
        rest = body[5 + depth + height :]
        buffers = [(rest[at], rest[at + 2] if rest[at + 1] else None, bool(rest[at + 3])) for at in range(0, len(rest), 4)]
        return State(body[0], body[2] if body[1] else None, body[5 : 5 + depth], body[5 + depth : 5 + depth + height], buffers)

    def memory(self, address: int, size: int) -> bytes:
        """So many bytes of memory; after address 65,535 comes 0."""
        pieces = ((address + at, min(MOST, size - at)) for at in range(0, size, MOST))
        return b"".join(self.ask_all(("m", packed(*piece)) for piece in pieces))

    def acts(self) -> int:
        """How often the machine has done something outside by itself, by a service of a board: that cannot be done again unseen."""
        return 0

    def cell(self, address: int) -> int:
        return cells(self.ask("m", packed(address, 2)))[0]

    def cells_at(self, address: int, count: int) -> list[int]:
        return cells(self.ask("m", packed(address, 2 * count)))

    def set_cell(self, address: int, number: int) -> None:
        self.asked_stop("c", packed(address, number))

    def set_cells(self, changes: dict[int, int]) -> None:
        self.ask_all(("c", packed(address, number)) for address, number in changes.items())

    def put_memory(self, address: int, content: bytes) -> None:
        """Makes memory these bytes from the address on."""
        pieces = range(0, len(content), MOST - 2)
        self.ask_all(("M", packed(address + at) + content[at : at + MOST - 2]) for at in pieces)

    def registers(self) -> bytes:
        """All of the machine except its memory, for `put_registers`."""
        return self.ask("G")

    def put_registers(self, registers: bytes) -> None:
        self.ask("P", registers)

    # Words

    def token(self, name: bytes) -> int:
        return cells(self.ask("y", name))[0]

    def view(self, name: bytes) -> int:
        return cells(self.ask("i", name))[0]

    def thread(self, name: bytes) -> range:
        """Where the cells of a colon word are."""
        return range(*cells(self.ask("j", name)))

    def see(self, name: bytes) -> bytes:
        return self.ask("z", name)

    def headers(self) -> list[Header]:
        """All words, in the order of their addresses."""
        body, found, at = self.ask("a"), [], 0
        while at < len(body):
            token, view, code, count = struct.unpack_from("<HHHB", body, at)
            size = count & 31
            found.append(Header(token, view, code, bool(count & 64), bool(count & 32), body[at + 7 : at + 7 + size]))
            at += 7 + size
        return found

    def image(self, token: int) -> bytes:
        """The file of an image of the memory up to HERE, which starts with this word."""
        return self.ask("t", packed(token))

    # The end

    def save(self) -> int:
        """Writes the updated buffers; how many could not be written."""
        return cells(self.ask("b"))[0]

    def close(self) -> int:
        """The same, and the server ends."""
        left = cells(self.ask("q"))[0]
        self.channel.close()
        return left
