"""Trials of `serve` for which no other server is needed: lists that end anywhere, and machines that are kept and put back."""
import random
import struct
from pathlib import Path
from typing import Iterator, List, NamedTuple, Optional, Tuple

from serve_lists import Server, frame, made, random_image, request, served

PREFIX_LISTS = 36  # lists of which every prefix is sent
PREFIX_BYTES = 300  # of no more bytes than these
KEPT_LISTS = 60  # machines that are kept and put back
LONG = "zhadt"  # replies that go on while their frames are full
FULL = 2048


class Reply(NamedTuple):
    kind: str
    body: bytes


def replies_of(sent: bytes) -> List[Reply]:
    """The frames of a server's replies. What is no whole frame is one without a kind."""
    found: List[Reply] = []
    while sent:
        size = struct.unpack_from("<H", sent, 1)[0] if len(sent) > 2 else 0
        if len(sent) < 3 + size:
            return [*found, Reply("", sent)]
        found.append(Reply(chr(sent[0]), sent[3 : 3 + size]))
        sent = sent[3 + size :]
    return found


def whole_requests(sent: bytes) -> int:
    """How many whole frames a host sent up to one that ends the list."""
    found, end = [it for it in replies_of(sent) if it.kind], Reply("q", b"")
    return found.index(end) + 1 if end in found else len(found)


def is_last(reply: Reply) -> bool:
    """Whether no more frames come in reply to the same request."""
    return reply.kind != "s" and not (reply.kind in LONG and len(reply.body) == FULL)


def prefix_fault(serve: Server, image: bytes, sent: bytes, top: Path) -> Optional[str]:
    """What is wrong with the replies to some prefix of a list: each whole frame has its replies, which are those to the whole list."""
    wanted = served(serve, image, b"", sent, top)[0]
    for size in range(len(sent) + 1):
        replies, left = served(serve, image, b"", sent[:size], top)
        last = sum(1 for reply in replies_of(replies) if is_last(reply))
        if not wanted.startswith(replies) or last != whole_requests(sent[:size]) or left:
            return f"after {size} of {len(sent)} bytes"
    return None


def prefixes(serve: Server, kernel: bytes, top: Path) -> Iterator[Optional[str]]:
    """Lists of frames, each cut at every byte."""
    tried = 0
    for seed in range(10000, 11000):
        image, _, sent = made(seed, kernel)
        if tried < PREFIX_LISTS and 0 < len(sent) <= PREFIX_BYTES:
            tried += 1
            fault = prefix_fault(serve, image, sent, top)
            yield f"prefixes of list {seed}: {fault}" if fault else None


def memory_requests() -> bytes:
    return b"".join(frame(ord("m"), struct.pack("<HH", at, FULL)) for at in range(0, 65536, FULL))


def written(memory: bytes, chance: random.Random) -> bytes:
    """Requests that write all of memory, in stretches of any size, from any address on."""
    at, left, parts = chance.randrange(65536), 65536, []
    twice = memory + memory
    while left:
        size = min(left, chance.choice((1, 2, 300, 2000, 2046)) if left < 20000 else 2046)
        parts.append(frame(ord("M"), struct.pack("<H", at) + twice[at : at + size]))
        at, left = (at + size) % 65536, left - size
    return b"".join(parts)


class Kept(NamedTuple):
    """A machine: its registers, its memory, what `v` shows, and what it does next (the letter and the number of `e`)."""

    registers: bytes
    memory: bytes
    look: bytes
    standing: bytes


def kept_of(replies: List[Reply]) -> Kept:
    """The machine of the replies to `r` 0, `v`, `G` and all of memory, which come last."""
    end, look, registers = replies[-35:-32]
    return Kept(registers.body, b"".join(reply.body for reply in replies[-32:]), look.body, end.body[4:])


def cells(values: Tuple[int, ...]) -> bytes:
    return struct.pack(f"<{len(values)}H", *values)


def standing_of(registers: Tuple[int, ...]) -> bytes:
    """The letter and the number that belong to registers, unless a fault was just taken."""
    asks, asked, halts, fault = registers[3], registers[4], registers[6], registers[7]
    if halts:
        return b"-bxyh"[halts : halts + 1] + struct.pack("<H", fault)
    return b"-klrw"[asks : asks + 1] + struct.pack("<H", asked)


def agrees(kept: Kept) -> bool:
    """Whether the registers say what `v` and `e` say."""
    registers = struct.unpack(f"<{len(kept.registers) // 2}H", kept.registers)
    return kept.look == cells(registers[:3] + registers[8:10] + registers[11:]) and kept.standing == standing_of(registers)


def altered(registers: bytes) -> Iterator[bytes]:
    """Registers that no machine with as many buffers has, by docs/FORMATS.md."""
    front = list(struct.unpack_from("<11H", registers))
    rest, count = registers[22:], front[10]
    buffers = len(rest) - 8 * count
    yield registers[:-1]
    yield registers + b"\0\0"
    yield registers[:20]
    for place, value in ((1, 2), (3, 5), (6, 5), (8, front[8] + 1), (9, front[9] + 1), (10, count + 1), (8, 257)):
        yield cells(tuple(front[:place] + [value] + front[place + 1 :])) + rest
    if not front[1]:
        yield cells(tuple([front[0], 0, 7] + front[3:])) + rest
    if not front[3]:
        yield cells(tuple(front[:5] + [9] + front[6:])) + rest
    if front[6] != 4:
        yield cells(tuple(front[:7] + [3] + front[8:])) + rest
    yield registers[:-8] + registers[22 + buffers : 24 + buffers] + registers[-6:]
    yield registers[:-2] + b"\2\0"
    yield registers[:-8] + cells((count,)) + registers[-6:]
    yield registers[:-6] + cells((0, 0, 1))
    yield registers[:-6] + cells((0, 5, 0))


def asked_of(serve: Server, image: bytes, sent: bytes, top: Path) -> List[Reply]:
    """The replies to frames that are sent to an image without blocks."""
    return replies_of(served(serve, image, b"", sent, top)[0])


def refusals(kept: Kept) -> bytes:
    """Requests that are refused, and then what the machine is."""
    odd = b"".join(frame(ord("P"), body) for body in altered(kept.registers))
    odd += frame(ord("M"), b"\0\0") + frame(ord("M"), b"\0\0" + bytes(2047)) + frame(ord("M"), b"\0")
    return odd + frame(ord("G")) + memory_requests()


def keeping_fault(serve: Server, seed: int, kernel: bytes, top: Path) -> Optional[str]:
    """What is wrong when a machine is kept, and put back into another: there it goes on as it went on here."""
    chance = random.Random(seed)
    image = kernel if seed % 2 == 0 else random_image(chance)
    before = b"".join(request(chance) for _ in range(chance.randrange(12)))
    after = b"".join(request(chance) for _ in range(chance.randrange(1, 12))) + frame(ord("q"))
    looks = frame(ord("r"), bytes(4)) + frame(ord("v")) + frame(ord("G")) + memory_requests()
    first = asked_of(serve, image, before + looks, top)
    kept = kept_of(first)
    if not agrees(kept):
        return "registers differ from what v and e say"
    went_on = asked_of(serve, image, before + looks + after, top)[len(first) :]
    back = written(kept.memory, chance) + frame(ord("P"), kept.registers)
    again = asked_of(serve, image, b"".join(request(chance) for _ in range(5)) + back + looks + after, top)
    if kept_of(again[: len(again) - len(went_on)]) != kept:
        return "what was put back differs"
    if again[len(again) - len(went_on) :] != went_on:
        return "it goes on in another way"
    refused = asked_of(serve, image, back + refusals(kept), top)[-33 - 3 - len(list(altered(kept.registers))) :]
    causes = [reply.body for reply in refused[:-33]]
    if causes != [b"\14"] * (len(causes) - 3) + [b"\3"] * 3 or b"".join(reply.body for reply in refused[-33:]) != kept.registers + kept.memory:
        return "what no machine has is not refused, or changes it"
    return None


def keeping(serve: Server, kernel: bytes, top: Path) -> Iterator[Optional[str]]:
    """Machines that are kept and put back."""
    for seed in range(20000, 20000 + KEPT_LISTS):
        fault = keeping_fault(serve, seed, kernel, top)
        yield f"list {seed}, kept and put back: {fault}" if fault else None
