"""Random lists of frames, made from their numbers, and servers that they are sent to."""
import random
import struct
import subprocess
from pathlib import Path
from typing import Callable, Dict, List, Tuple

Server = Callable[[Path, Path, bytes], Tuple[bytes, bytes]]

WORDS = ("DUP", "SWAP", "QUIT", "COLD", "LOAD", "THRU", "FORTH", "SQ", "SPACES", ".", "D.R", "NOPE", "", "(LIT)", "x" * 40, "FORTH-83", "INTERPRET")
LINES = (
    ": SQ DUP * ;",
    "7 SQ .",
    "1 2 3 . . .",
    "1 0 /",
    "NOPE",
    ": X 1 ;  : X 2 ; X .",
    "1 LOAD",
    "2 LOAD 3 BLOCK DROP UPDATE",
    "FLUSH",
    "100 0 DO I . LOOP",
    "HERE 2000 TYPE",
    "0 60000 TYPE",
    ": L BEGIN AGAIN ;",
    "L",
    "KEY .",
    "TIB 20 EXPECT",
    "BYE",
    "5 BLOCK 16 TYPE",
    "1 BLOCK DROP UPDATE 2 BLOCK DROP UPDATE 9 BLOCK",
    "40 BLOCK DROP",
    ': T 1 ABORT" bad" ; T',
    "-1 40 !  NOPE",
    "0 40 ! NOPE",
    "VARIABLE V 3 V !",
    "70000. D.",
    "HEX FF . DECIMAL",
    "SAVE-BUFFERS",
    "EMPTY-BUFFERS",
    "3 SCR ! 0 PUT hi",
    "",
    "    ",
    "FORGET SQ",
    "1 BASE ! 5",
)
SCREENS = ("1 . 2 .", ": S1 3 4 + . ; S1", "5 BLOCK DROP UPDATE", "NOPE", "1 0 /", "")


def frame(kind: int, body: bytes = b"") -> bytes:
    return bytes([kind]) + struct.pack("<H", len(body)) + body


def cell(chance: random.Random) -> bytes:
    values = (0, 1, 16, 18, 26, 28, 40, 128, 255, 256, 300, 1000, 61440, 65535, chance.randrange(65536))
    return struct.pack("<H", chance.choice(values))


def line(chance: random.Random) -> bytes:
    text = chance.choice(LINES).encode()
    if chance.random() < 0.1:
        text += bytes(chance.choice((10, 13, 0, 200)) for _ in range(2))
    return bytes([chance.choice((1, 1, 1, 1, 0, 2))]) + text


def limit(chance: random.Random) -> bytes:
    return struct.pack("<I", chance.choice((0, 1, 2, 10, 300, 5000, 60000)))


def page(chance: random.Random) -> bytes:
    return chance.choice(SCREENS).encode().ljust(chance.choice((1024, 1024, 1024, 1023, 1025)))


def name(chance: random.Random) -> bytes:
    return chance.choice(WORDS).encode()


# How the kinds that have a body make one.
REQUESTS: Dict[str, Callable[[random.Random], bytes]] = {
    "r": limit,
    "l": line,
    "k": lambda c: bytes([c.randrange(256)]),
    "p": page,
    "n": cell,
    "c": lambda c: cell(c) + cell(c),
    "m": lambda c: cell(c) + struct.pack("<H", c.choice((0, 1, 100, 2048, 2049, 65535))),
    "y": name,
    "i": name,
    "z": name,
    "t": cell,
}
OFTEN = "rrrrrrrrllllllkp" + "xufwgncvmyizhtb"
UNKNOWN = [kind for kind in range(256) if chr(kind) not in "Vadjoq"]
NEWER = b"GPM"  # kinds that the other server does not know: its reply to them is that to any unknown kind, such as 0


def request(chance: random.Random) -> bytes:
    kind = chance.choice(OFTEN)
    body = REQUESTS[kind](chance) if kind in REQUESTS else b""
    odd = chance.random()
    if odd < 0.02:
        body += bytes(chance.randrange(1, 4))
    elif odd < 0.04:
        body = body[:-1]
    elif odd < 0.05:
        unknown = chance.choice(UNKNOWN)
        return frame(0 if unknown in NEWER else unknown, body)
    return frame(ord(kind), body)


def frames(chance: random.Random) -> bytes:
    """A list of frames: after each run comes what it may wait for."""
    parts: List[bytes] = []
    for _ in range(chance.randrange(1, 40)):
        parts.append(request(chance))
        if chance.random() < 0.5:
            parts.append(frame(ord("l"), b"\1" + chance.choice(LINES).encode()))
            parts.append(frame(ord("r"), limit(chance)))
    if chance.random() < 0.4:
        parts.append(frame(ord("q")))
    sent = b"".join(parts)
    return sent[: chance.randrange(len(sent) + 1)] if chance.random() < 0.3 else sent


def random_image(chance: random.Random) -> bytes:
    """Memory with threads of random rows."""
    size = chance.choice((256, 300, 600, 2000))
    memory = bytearray(size)
    for at in range(256, size - 1, 2):
        value = chance.choice((chance.randrange(205), chance.randrange(256, size + 1), chance.randrange(65536)))
        memory[at : at + 2] = struct.pack("<H", value)
    for at in range(16, 64, 2):
        memory[at : at + 2] = struct.pack("<H", chance.choice((0, 42, 256, chance.randrange(size))))
    entry = chance.randrange(256, size + 2, 2)
    return b"FTH83IMG" + struct.pack("<HHHH", 2, chance.choice((2, 4, 16)), entry, size) + memory


def blocks(chance: random.Random) -> bytes:
    return b"".join(chance.choice(SCREENS).encode().ljust(1024) for _ in range(chance.randrange(0, 8))) + bytes(chance.choice((0, 0, 7)))


def by_program(words: List[str]) -> Server:
    def serve(image: Path, block_file: Path, sent: bytes) -> Tuple[bytes, bytes]:
        done = subprocess.run([*words, str(image), str(block_file)], input=sent, stdout=subprocess.PIPE, stderr=subprocess.PIPE, timeout=60, check=False)
        return done.stdout, block_file.read_bytes()

    return serve


def served(serve: Server, image: bytes, block_bytes: bytes, sent: bytes, top: Path) -> Tuple[bytes, bytes]:
    """What a server replies to these frames, and what becomes of the block file."""
    (top / "image").write_bytes(image)
    (top / "blocks").write_bytes(block_bytes)
    return serve(top / "image", top / "blocks", sent)


def kernel_image(program: str, top: Path) -> bytes:
    source, image = top / "kernel.blk", top / "kernel.img"
    subprocess.run([program, "kernel", str(source)], check=True, stdout=subprocess.DEVNULL)
    subprocess.run([program, "build", str(source), "1", "20", str(image)], check=True, stdout=subprocess.DEVNULL)
    return image.read_bytes()


def made(seed: int, kernel: bytes) -> Tuple[bytes, bytes, bytes]:
    """The image, the blocks and the frames of the list of this number."""
    chance = random.Random(seed)
    image = kernel if seed % 2 == 0 else random_image(chance)
    return image, blocks(chance), frames(chance)
