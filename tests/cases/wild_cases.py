"""Makes disks of other systems by their own tables, and other containers, for tests/cases/commands/disks.t:

    python3 tests/cases/wild_cases.py FOLDER
"""
import argparse
import pathlib
import random
import struct
from typing import Dict, List, Tuple

ROOT = pathlib.Path(__file__).resolve().parents[2]
TEXT = b": KILN 5 ;\rKILN ." + b" " * 300 + b"\r"

KILN = b"".join(line.ljust(64) for line in (b"( Kiln )", b": KILN ( -- n ) 5 ;", b"KILN .")).ljust(1024) * 3


def cpm_disk(name: bytes, content: bytes) -> bytes:
    """An 8-inch disk of CP/M 2.2: two tracks of the system, each sixth sector next, blocks of 1,024 bytes, 64 names."""
    blocks = len(content) // 1024
    entry = b"\0" + name + bytes((0, 0, 0, len(content) // 128)) + bytes(range(2, 2 + blocks)).ljust(16, b"\0")
    logical = entry.ljust(2048, b"\xe5") + content
    order = [0, 6, 12, 18, 24, 4, 10, 16, 22, 2, 8, 14, 20, 1, 7, 13, 19, 25, 5, 11, 17, 23, 3, 9, 15, 21]
    disk = bytearray(b"\xe5" * 256256)
    for number in range(0, len(logical), 128):
        track, sector = divmod(number // 128, 26)
        at = ((track + 2) * 26 + order[sector]) * 128
        disk[at : at + 128] = logical[number : number + 128]
    return bytes(disk)


def fat_disk(name: bytes, content: bytes) -> bytes:
    """A disk of 360 KB of DOS: two FATs of two sectors, seven sectors of names, two sectors a cluster."""
    boot = b"\xeb\x3c\x90MSDOS3.3" + struct.pack("<HBHBHHBHHHL", 512, 2, 1, 2, 112, 720, 0xFD, 2, 9, 2, 0)
    clusters = (len(content) + 1023) // 1024
    links = [0xFFD, 0xFFF, *range(3, 2 + clusters), 0xFFF] + [0]
    table = b"".join(bytes((a & 255, a >> 8 | (b & 15) << 4, b >> 4)) for a, b in zip(links[::2], [*links[1::2], 0]))
    entry = name + b" " + bytes(14) + struct.pack("<HL", 2, len(content))
    body = boot.ljust(510, b"\0") + b"\x55\xaa" + 2 * table.ljust(1024, b"\0") + entry.ljust(7 * 512, b"\0") + content
    return body.ljust(720 * 512, b"\0")


def dos_disk(name: bytes, text: bytes) -> bytes:
    """A disk of Apple DOS 3.3 with a text file, which has high bits."""
    disk = bytearray(143360)

    def put(track: int, sector: int, body: bytes) -> None:
        disk[(track * 16 + sector) * 256 : (track * 16 + sector) * 256 + len(body)] = body

    put(17, 0, bytes((4, 17, 15, 3, 0, 0, 254)).ljust(0x34, b"\0") + bytes((35, 16, 0, 1)))
    put(17, 15, bytes(11) + bytes((18, 0, 0)) + bytes(b | 128 for b in name.ljust(30)) + bytes((3, 0)))
    put(18, 0, bytes(12) + bytes((18, 1, 18, 2)))
    high = bytes(b | 128 for b in text).ljust(512, b"\0")
    put(18, 1, high[:256])
    put(18, 2, high[256:])
    return bytes(disk)


def d64_disk(name: bytes, content: bytes) -> bytes:
    """A disk of a 1541 with a sequential file from track 17 on; track 18 begins after 17 tracks of 21 sectors."""
    disk = bytearray(174848)
    bam = 17 * 21 * 256
    disk[bam : bam + 3] = b"\x12\x01A"
    disk[bam + 256 : bam + 288] = b"\0\xff" + b"\x81\x11\0" + name.ljust(16, b"\xa0") + bytes(11)
    pieces = [content[at : at + 254] for at in range(0, len(content), 254)]
    for number, piece in enumerate(pieces):
        link = bytes((17, number + 1)) if number + 1 < len(pieces) else bytes((0, len(piece) + 1))
        at = (16 * 21 + number) * 256
        disk[at : at + 256] = (link + piece).ljust(256, b"\0")
    return bytes(disk)


def rt11_volume(name: Tuple[int, int, int], content: bytes) -> bytes:
    """A volume of RT-11 with a file after a free area; names are three cells of RADIX-50."""
    home = bytes(512 + 0o724) + b"\6\0"
    home = home.ljust(512 + 0o760, b"\0") + b"DECRT11A    "
    entries = struct.pack("<7H", 0o1000, 0, 0, 0, 2, 0, 0) + struct.pack("<7H", 0o2000, *name, len(content) // 512, 0, 0) + struct.pack("<H", 0o4000)
    segment = struct.pack("<5H", 1, 0, 1, 0, 14) + entries
    return home.ljust(6 * 512, b"\0") + segment.ljust(8 * 512, b"\0") + bytes(2 * 512) + content


def lif_volume(name: bytes, content: bytes) -> bytes:
    """A volume of HP: its names are in sector 2, its file from sector 4 on."""
    head = b"\x80\0KILN  " + struct.pack(">LHHL", 2, 0x1000, 0, 2)
    entry = name.ljust(10) + struct.pack(">HLL", 1, 4, len(content) // 256) + bytes(12)
    end = bytes(10) + b"\xff\xff" + bytes(20)
    return head.ljust(512, b"\0") + (entry + end).ljust(512, b"\0") + content


def imd_file(tracks: List[bytes], numbers: List[int]) -> bytes:
    """An ImageDisk file of tracks of sectors of 128 bytes, which follow one another by these numbers; uniform ones are one byte."""
    made = b"IMD 1.18: 01/01/2026 00:00:00\r\nkiln\x1a"
    for cylinder, track in enumerate(tracks):
        made += bytes((3, cylinder, 0, len(numbers), 0)) + bytes(numbers)
        for number in numbers:
            body = track[(number - 1) * 128 : number * 128]
            made += b"\2" + body[:1] if len(set(body)) == 1 else b"\1" + body
    return made


def dmk_file(tracks: List[bytes], numbers: List[int]) -> bytes:
    """Tracks of a TRS-80 in single density, whose bytes are written twice: 10 sectors of 256 bytes, numbered from 0 on."""
    length, made = 0x1900, b""
    for cylinder, track in enumerate(tracks):
        body, pointers = b"", []
        for number in numbers:
            head = bytes((0xFE, cylinder, 0, number, 1, 0, 0)) + b"\xff" * 11 + b"\0" * 6
            sector = head + b"\xfb" + track[number * 256 : (number + 1) * 256] + b"\0\0" + b"\xff" * 10
            pointers.append(128 + len(body))
            body += b"".join(bytes((byte, byte)) for byte in sector)
        made += struct.pack(f"<{len(pointers)}H", *pointers).ljust(128, b"\0") + body.ljust(length - 128, b"\xff")
    return struct.pack("<BBHB", 0, len(tracks), length, 0x10) + bytes(11) + made


def tracks_of(disk: bytes, size: int) -> List[bytes]:
    return [disk[at : at + size] for at in range(0, len(disk), size)]


def circle() -> bytes:
    """A disk of a 1541 of which the directory's sector names itself, and the second sector of its file the first."""
    disk = bytearray(d64_disk(b"KILN.FTH", b"K" * 254 + b"L" * 254))
    disk[91648:91650] = b"\x12\1"  # track 18 begins after 357 sectors
    disk[86016 + 256 : 86016 + 258] = b"\x11\0"  # track 17 begins after 336 sectors
    return bytes(disk)


def directories() -> Dict[str, bytes]:
    """Disks that have a file."""
    return {
        "cpm": cpm_disk(b"KILN    BLK", KILN),
        "fat": fat_disk(b"KILN    BLK", KILN),
        "dos33": dos_disk(b"KILN", TEXT),
        "d64": d64_disk(b"KILN.FTH", TEXT),
        "odd-name": d64_disk(b"KI\nN\x1b.FTH", TEXT),
        "circle": circle(),
        "rt11": rt11_volume((17972, 22400, 3691), KILN),
        "lif": lif_volume(b"KILN", KILN),
    }


def tracks() -> Dict[str, bytes]:
    """Files that have a disk's tracks."""
    plain = imd_file(tracks_of(KILN.ljust(3328), 3328), list(range(1, 27)))
    heads = {
        "td0": b"TD\0\0\x15\0\0\0\0\0\0\0",
        "hfe": b"HXCPICFE",
        "scp": b"SCP\x18",
        "g64": b"GCR-1541\0",
        "woz": b"WOZ2\xff\n\r\n",
        "gzip": b"\x1f\x8b\x08\0",
        "atr": b"\x96\2" + bytes(14),
    }
    return {
        "cpm-imd": imd_file(tracks_of(cpm_disk(b"KILN    BLK", KILN), 3328), list(range(26, 0, -1))),
        "imd": plain,
        "imd-skewed": imd_file(tracks_of(KILN.ljust(3328), 3328), [1, 7, 2, 5, 3, 4, 6, *range(8, 27)]),
        "imd-size": plain[:40] + b"\7" + plain[41:],
        "imd-head": plain + b"\3\1",
        "imd-numbers": plain[:50],
        "dmk": dmk_file(tracks_of(KILN.ljust(5120), 2560), [0, 5, 1, 6, 2, 7, 3, 8, 4, 9]),
        **{name: head + KILN for name, head in heads.items()},
    }


def orders() -> Dict[str, bytes]:
    """Screens, the same in another order of sectors and on two sides, and on lines of other widths."""
    pieces = ("\n" + (ROOT / "screens/dialects/f83.txt").read_text(encoding="ascii")).split("\n% screen ")[1:]
    screens = b"".join("".join(line.ljust(64) for line in piece.split("\n")[1:]).ljust(1024)[:1024].encode() for piece in pieces)
    order = [1, 4, 7, 10, 3, 6, 9, 2, 5, 8]
    skewed = b"".join(track[order.index(n) * 256 : (order.index(n) + 1) * 256] for track in tracks_of(screens, 2560) for n in range(1, 11))
    sides = tracks_of(screens[:20480], 2560)
    lines = tracks_of(KILN, 64)
    return {
        "screens": screens,
        "skewed": bytes(2560) + skewed,
        "two-sides": b"".join(piece for pair in zip(sides[:4], sides[4:8]) for piece in pair),
        "wide": b"".join(line.ljust(80) for line in lines[:16]).ljust(1920) * 3,
        "cards": b"".join(line.ljust(72) + b"00000010" for line in lines).decode("latin-1").encode("cp037"),
        "high-bits": bytes(byte | 128 for byte in b": KILN 5 ;\rKILN .\r"),
    }


def main() -> None:
    words = argparse.ArgumentParser(description="Makes disks of other systems, and other containers.")
    words.add_argument("folder", type=pathlib.Path, metavar="FOLDER")
    folder, dice = words.parse_args().folder, random.Random(7)
    noise = {name: bytes(dice.choices(range(33, 127), k=1024 * count)) for name, count in (("two", 2), ("three", 3))}
    for name, data in {"kiln": KILN, **directories(), **tracks(), **orders(), **noise}.items():
        (folder / f"{name}.dsk").write_bytes(data)


if __name__ == "__main__":
    main()
