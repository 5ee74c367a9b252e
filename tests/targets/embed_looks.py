"""The C library's calls that look at words, compared with what `PROGRAM serve` replies to the same requests over the same memory."""
import ctypes
import pathlib
import subprocess
import sys
from typing import Any, Iterator, List, Tuple

from serve_lists import frame
from serve_trials import Reply, replies_of

# The statuses of the header for the causes of the server's refusals.
STATUSES = {4: 15, 5: 16, 6: 17, 7: 18, 8: 19, 9: 20, 10: 21}
MOST = 2048
LONG, MOVES = (b"z", b"h", b"d"), (b"c", b"r", b"l")
# Words of each kind that SEE refuses or shows; QUOTED's text gets a quote afterwards.
WORDS = [
    b": SQUARE DUP * ;",
    b": SIGN DUP 0< IF DROP -1 ELSE IF 1 ELSE 0 THEN THEN ;",
    b": TRIES 10 0 DO I . LOOP BEGIN KEY 65 = UNTIL ;",
    b': SAYS ." HELLO" ;',
    b': QUOTED ." AXB" ;',
    b": HELPER ;",
    b": SHADOWS HELPER ;",
    b": HELPER DUP ;",
    b": NAMELESS [ 7 , ] ;",
    b": CUT IF [ DROP ] ;",
    b"VARIABLE COUNT-OF",
    b"VOCABULARY TOOLS TOOLS DEFINITIONS",
    b": SQUARE DUP DUP * * ;",
    b": CUBE DUP SQUARE * ;",
    b"FORTH DEFINITIONS TOOLS",
]
# Old screens, each with the number of the dialect whose signs they have (crates/survey_tables/src/signs.rt).
SURVEYED = [
    (b"0 VARIABLE LEVEL : UP LEVEL @ -DUP IF . ENDIF ;".ljust(1024), 1),
    (b"79-STANDARD  : LOW 3 LOADS 12 ASHIFT ;".ljust(1024), 2),
    (b"DEFER ALARM  : BODY ['] ALARM >BODY @ ;  ONLY FORTH ALSO".ljust(1024), 3),
    (b"8 CVARIABLE STATE  : GO STATE ACTIVATE BEGIN PAUSE AGAIN ;  7 STRAIGHT".ljust(1024), 4),
    (b": SQUARE DUP * ;".ljust(1024), 0),
    (bytes(range(256)) * 5, 0),
    (b"", 0),
]
STRANGE = [b"", b"NOWHERE", b"square", 31 * b"N", 300 * b"N", b"\0", b"A B"]


def must(holds: object, what: str) -> None:
    """Ends the check where something does not hold."""
    if not holds:
        sys.exit(f"check-embed: {what}")


def whole(frames: Iterator[Reply], is_long: bool) -> Tuple[int, bytes]:
    """The status for the next reply, and its bytes, without what the machine shows; a long one goes on up to a frame that is not full."""
    kind, body = next(frames)
    while kind == "s":
        kind, body = next(frames)
    if kind == "!":
        return STATUSES[body[0]], b""
    text = body
    while is_long and len(body) == MOST:
        body = next(frames).body
        text += body
    return 0, text


def replies(program: pathlib.Path, image: pathlib.Path, asked: List[Tuple[bytes, bytes]]) -> List[Tuple[int, bytes]]:
    """What the server replies to these requests, each as a status and bytes. Cells that are written, runs and lines have no reply here."""
    given = b"".join(frame(ord(kind), body) for kind, body in asked)
    made = subprocess.run([program, "serve", image], input=given, stdout=subprocess.PIPE, check=True)
    frames = iter(replies_of(made.stdout))
    got = [whole(frames, kind in LONG) for kind, _body in asked]
    must(next(frames, None) is None, "the server replied to more than was asked")
    return [reply for reply, (kind, _body) in zip(got, asked) if kind not in MOVES]


class Looks:
    """The library's calls, each answered as a status and the bytes that the server would send. No call may change the record."""

    def __init__(self, hosts: Any, machine: Any) -> None:
        self.calls, self.machine = hosts.calls, machine

    def unchanged(self, call: Any, *words: Any) -> int:
        """The status of a call that leaves the record as it was."""
        before = bytes(self.machine)
        status = int(call(ctypes.byref(self.machine), *words))
        must(bytes(self.machine) == before, f"{call.__name__} changed the record")
        return status

    def cells(self, call: Any, name: bytes, count: int) -> Tuple[int, bytes]:
        """forth83_view and forth83_extent, which write so many cells, or none."""
        found = [ctypes.c_uint16(7) for _ in range(count)]
        status = self.unchanged(call, name, ctypes.c_uint64(len(name)), *map(ctypes.byref, found))
        must(status == 0 or all(it.value == 7 for it in found), f"{call.__name__} of {name!r} that was refused")
        return status, b"".join(map(bytes, found)) if status == 0 else b""

    def in_room(self, call: Any, width: int, room: int, *words: Any) -> Tuple[int, bytes]:
        """A call that fills a room of so many cells or bytes from its front on, or leaves it as it was."""
        blank = b"\x5a" * (width * room)
        place, size = ctypes.create_string_buffer(blank, len(blank)), ctypes.c_uint64(7)
        status = self.unchanged(call, *words, place, ctypes.c_uint64(room), ctypes.byref(size))
        end = width * size.value if status == 0 else 0
        must(place.raw[end:] == blank[end:] and (status == 0 or size.value == 7), f"{call.__name__} wrote more than it says")
        return status, place.raw[:end]

    def fitting(self, call: Any, width: int, *words: Any) -> Tuple[int, bytes]:
        """The same with a large room, and with one that is just large enough, and one that is not."""
        status, got = self.in_room(call, width, 65536, *words)
        if status == 0:
            must(self.in_room(call, width, len(got) // width, *words) == (0, got), f"{call.__name__} in a room that is just large enough")
            must(not got or self.in_room(call, width, len(got) // width - 1, *words) == (3, b""), f"{call.__name__} in a small room")
        return status, got

    def headers(self) -> Tuple[int, bytes]:
        return self.fitting(self.calls.forth83_headers, 2)

    def line(self) -> Tuple[int, bytes]:
        return self.fitting(self.calls.forth83_trace_line, 1)

    def word(self, name: bytes) -> List[Tuple[int, bytes]]:
        """VIEW, where the thread is, and SEE."""
        see = self.fitting(self.calls.forth83_see, 1, name, ctypes.c_uint64(len(name)))
        return [self.cells(self.calls.forth83_view, name, 1), self.cells(self.calls.forth83_extent, name, 2), see]

    def survey(self, name: bytes, blocks: bytes) -> Tuple[int, bytes, int]:
        """forth83_survey: its status, the report, and the number of the dialect."""
        dialect = ctypes.c_uint16(7)
        words = (name, ctypes.c_uint64(len(name)), blocks, ctypes.c_uint64(len(blocks)))
        found = []
        for room in (65536, 40):
            place, size = ctypes.create_string_buffer(b"\x5a" * room, room), ctypes.c_uint64(9)
            status = self.unchanged(self.calls.forth83_survey, *words, place, ctypes.c_uint64(room), ctypes.byref(size), ctypes.byref(dialect))
            end = size.value if status == 0 else 0
            must(place.raw[end:] == b"\x5a" * (room - end), "forth83_survey wrote more than it says")
            found.append((status, place.raw[:end], dialect.value))
        must(found[0][0] != 0 or found[1][:2] == (3, b""), f"a report in a small room: {found[1]}")
        return found[0]


def name_at(machine: Any, field: int) -> bytes:
    """The name of the header with this link field."""
    count = machine.memory[field + 2] % 32
    return bytes(machine.memory[field + 3 : field + 3 + count])


def saved(hosts: Any, folder: pathlib.Path) -> pathlib.Path:
    """An image with all these words."""
    machine, size, file = hosts.load()[1], ctypes.c_uint64(), ctypes.create_string_buffer(65536)
    must(hosts.run(machine, b"\n".join(WORDS) + b"\n")[0] == 0, "lines of words")
    at = bytes(machine.memory).index(b"\3AXB")
    machine.memory[at + 2] = ord('"')
    entry = ctypes.c_uint16(int.from_bytes(hosts.image[12:14], "little"))
    status = hosts.calls.forth83_save(ctypes.byref(machine), entry, file, ctypes.c_uint64(65536), ctypes.byref(size))
    must(status == 0, f"an image to look at: status {status}")
    image = folder / "looks.img"
    image.write_bytes(file.raw[: size.value])
    return image


def compare(program: pathlib.Path, image: pathlib.Path, hosts: Any, cells: List[Tuple[int, int]], names: List[bytes]) -> List[int]:
    """Each call about these names answers what the server replies, after these cells were written: the statuses of SEE."""
    machine = hosts.load(image.read_bytes())[1]
    for address, value in cells:
        machine.memory[address], machine.memory[address + 1] = value % 256, value // 256
    looks = Looks(hosts, machine)
    asked = [(b"c", address.to_bytes(2, "little") + value.to_bytes(2, "little")) for address, value in cells] + [(b"h", b"")]
    asked += [(kind, name) for name in names for kind in (b"i", b"j", b"z")]
    wanted = replies(program, image, asked)
    must(looks.headers() == wanted[0], f"the list of headers: {wanted[0]}")
    for place, name in enumerate(names):
        got = looks.word(name)
        must(got == wanted[3 * place + 1 : 3 * place + 4], f"{name!r}: the library {got}, the server {wanted[3 * place + 1 : 3 * place + 4]}")
    return [status for status, _text in wanted[3::3]]


def check_lines(hosts: Any, program: pathlib.Path, image: pathlib.Path) -> None:
    """DEBUG's line is the one that the server replies: tick by tick up to a line, and in what the line runs."""
    machine, asked, got = hosts.load(image.read_bytes())[1], [(b"d", b"")], [Looks(hosts, hosts.load(image.read_bytes())[1]).line()]
    line = b"-5 SIGN 40000 TRIES"
    for typed, ticks in 20 * [(b"", 1)] + [(line + b"\n", 1)] + 50 * [(b"", 1)] + 50 * [(b"", 37)]:
        asked += [(b"l", b"\1" + line)] if typed else []
        asked += [(b"r", ticks.to_bytes(4, "little")), (b"d", b"")]
        must(hosts.run(machine, typed, limit=ticks)[0] == 0, "a run of a few ticks")
        got.append(Looks(hosts, machine).line())
    wanted = replies(program, image, asked)
    must(got == wanted and len(set(got)) > 60, f"DEBUG's lines: the library {got}, the server {wanted}")


def check_surveys(hosts: Any, program: pathlib.Path, folder: pathlib.Path) -> None:
    """Reports on old screens are those of the program's `survey`, for screens of each dialect, of none, and bytes that are no text."""
    image, blocks = folder / "survey.img", folder / "old.blk"
    image.write_bytes(hosts.image)
    looks = Looks(hosts, hosts.load()[1])
    for text, dialect in SURVEYED:
        blocks.write_bytes(text)
        last = max(len(text) - 1, 0) // 1024
        done = subprocess.run([program, "survey", image, "old.blk", "0", str(last)], cwd=folder, stdout=subprocess.PIPE, check=False)
        must(done.returncode == 0 and looks.survey(b"old.blk", text) == (0, done.stdout, dialect), f"a survey: {looks.survey(b'old.blk', text)}, the program {done.stdout!r}")
    must(Looks(hosts, type(looks.machine)()).survey(b"old.blk", b"") == (1, b"", 7), "a survey with no machine")


def check_looks(hosts: Any, program: pathlib.Path, folder: pathlib.Path) -> None:
    """The calls that look at words answer what the server replies: of all words, of names of none, and where chains are circles."""
    image = saved(hosts, folder)
    machine = hosts.load(image.read_bytes())[1]
    status, listed = Looks(hosts, machine).headers()
    fields = [int.from_bytes(listed[at : at + 2], "little") for at in range(0, len(listed), 2)]
    must(status == 0 and fields == sorted(set(fields)) and len(fields) > 200, f"{len(fields)} headers")
    names = sorted({name_at(machine, field) for field in fields}) + STRANGE
    found = compare(program, image, hosts, [], names)
    must(set(found) >= {0, 15, 17, 18, 19, 20, 21}, f"statuses of SEE: {sorted(set(found))}")
    check_lines(hosts, program, image)
    circle = 60000
    tools = machine.memory[32] + 256 * machine.memory[33]
    heads = [(tools + 2 * (ord("N") % 4), circle), (circle, circle), (circle + 2, 0)]
    found = compare(program, image, hosts, heads, [b"SQUARE", b"CUBE", b"NOWHERE", 31 * b"N", b""])
    must(set(found) == {15, 16}, f"statuses of SEE in a circle: {found}")
    machine.asks = 5
    looks = Looks(hosts, machine)
    must([*looks.word(b"DUP"), looks.headers(), looks.line()] == 5 * [(1, b"")], "words of no machine")
