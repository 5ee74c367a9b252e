"""The canvas of examples/draw.txt: 320 by 200 points of 16 colors, in 32 blocks, as a picture file."""
import struct
import zlib
from typing import List, Tuple

WIDTH, HEIGHT, PAGE, BLOCKS, FIRST = 320, 200, 1024, 32, 96
# Black, the dark colors, and the light ones up to white, as color displays of the eighties had them.
COLORS = "000000 0000aa 00aa00 00aaaa aa0000 aa00aa aa5500 aaaaaa 555555 5555ff 55ff55 55ffff ff5555 ff55ff ffff55 ffffff"
PALETTE: List[Tuple[int, ...]] = [tuple(bytes.fromhex(color)) for color in COLORS.split()]


def chunk(kind: bytes, content: bytes) -> bytes:
    """A part of a PNG file."""
    return struct.pack(">I", len(content)) + kind + content + struct.pack(">I", zlib.crc32(kind + content))


def png(canvas: bytes) -> bytes:
    """The canvas as a PNG file with four bits for each point; a byte before each row says that the row is not filtered."""
    row = WIDTH // 2
    rows = b"".join(b"\0" + canvas[at : at + row] for at in range(0, row * HEIGHT, row))
    head = struct.pack(">IIBBBBB", WIDTH, HEIGHT, 4, 3, 0, 0, 0)
    colors = b"".join(bytes(color) for color in PALETTE)
    return b"\x89PNG\r\n\x1a\n" + chunk(b"IHDR", head) + chunk(b"PLTE", colors) + chunk(b"IDAT", zlib.compress(rows, 9)) + chunk(b"IEND", b"")


def canvas_of(blocks: bytes, first: int) -> bytes:
    """The canvas that begins at a block, or no bytes if the file ends too soon."""
    content = blocks[first * PAGE : (first + BLOCKS) * PAGE]
    return content if len(content) == BLOCKS * PAGE else b""
