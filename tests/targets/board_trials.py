"""Tries a board: its packets, and examples/board in its emulator as a person has it, at the end of a line that spoils one byte in 1,000."""
import os
import pathlib
import re
import select
import shutil
import socket
import struct
import subprocess
import sys
import time
from typing import List, Optional

import sessions
from noisy_line import NoisyLine
from session_terminals import environment, launcher, Terminal, types, Wrong
from tally import Must
from target_runs import build, Place, ROOT

sys.path.insert(0, str(ROOT / "commands"))

from served.line import Packet, Reader, wired  # noqa: E402

EXAMPLE = ROOT / "examples/board"
RAM_BEGINS, RAM, STACK, ONE_IN = 0x21000000, 166 << 10, 88 << 10, 1000
PAINT = b"\xa5"  # what memory holds that was never written
# A program in three screens; what it shows was worked out by hand.
SCREENS = """% screen 30
( A counter that steps by itself )
VARIABLE COUNT
31 LOAD 32 LOAD
% screen 31
: NEXT ( -- ) 3 COUNT +! ;
% screen 32
: SHOW ( -- ) NEXT COUNT @ . ;
: MAIN ( -- ) BEGIN SHOW 50 MS AGAIN ;
"""


def line_cases(must: Must, room: pathlib.Path) -> None:
    """The packets of line_cases.txt, by the host's side and by the board's."""
    lines = (ROOT / "tests/cases/line_cases.txt").read_text(encoding="ascii").splitlines()
    cases = [line.split(" | ") for line in lines if line[:1] not in ("#", "")]
    sources = [ROOT / "tests/cases/line_cases.c", EXAMPLE / "line.c"]
    build(["cc", "-std=c11", "-Wall", "-Wextra", "-Werror", "-pedantic", f"-I{EXAMPLE}", *sources, "-o", room / "cases"])
    asked = "".join(f"sent {means}\n" if how == "sent" else f"came {wire}\n" for how, _, wire, means in cases)
    done = subprocess.run([room / "cases"], input=asked, stdout=subprocess.PIPE, text=True, check=True).stdout.splitlines()
    for (how, what, wire, means), there in zip(cases, done):
        packets = Reader().take(bytes.fromhex(wire))
        read = ", ".join(f"{it.kind.decode()} {it.number} {it.content.hex() or '-'}" if it else "damaged" for it in packets)
        must(read == means, f"packets: {what}: {read}, and not {means}")
        must(there == (wire if how == "sent" else means), f"packets: {what}: the board's side has {there}")
        if how == "sent":
            kind, number, content = means.split()
            here = wired(Packet(kind.encode(), int(number), bytes.fromhex(content.strip("-")))).hex()
            must(here == wire, f"packets: {what}: {here}, and not {wire}")


def readme_steps() -> List[sessions.Step]:
    """What README shows after each of these lines, which are in it one after another."""
    text = (ROOT / "README.md").read_text(encoding="utf-8").partition("$ ./forth\n")[2].partition("\n\n")[0]
    steps: List[sessions.Step] = []
    for line in (line[4:] for line in text.splitlines()[2:]):
        if len(steps) < len(sessions.README) and line.startswith(sessions.README[len(steps)]):
            steps.append(sessions.Step(sessions.README[len(steps)], False))
            line = line[len(steps[-1].typed) :].strip()
        if line:
            steps[-1].shown.append(line.rstrip())
    return steps


def made(place: Place, program: pathlib.Path, what: str, *options: str) -> pathlib.Path:
    """What the Makefile of examples/board makes in a folder of its own, over the library of the place."""
    room = place.room / "board"
    (room / "library/lib").mkdir(parents=True, exist_ok=True)
    (room / "library/lib/libforth83.a").write_bytes(place.library.read_bytes())
    shutil.copytree(ROOT / "build/targets/include", room / "library/include", dirs_exist_ok=True)
    for name in os.listdir(EXAMPLE):
        shutil.copy(EXAMPLE / name, room)
    subprocess.run([*launcher(program), "--image", room / "board.img", "-e", "REQUIRE board.fs"], stderr=subprocess.DEVNULL, check=True)
    build(["make", "-B", "-C", room, *options, what])
    return room / what


def check_uf2(must: Must, place: Place, program: pathlib.Path) -> None:
    """The program for the RP2040 is made: pages of 256 bytes from the flash's start on; the first has the checksum that the ROM wants."""
    content = made(place, program, "forth.uf2").read_bytes()
    heads = [struct.unpack_from("<8I", content, at) for at in range(0, len(content), 512)]
    must([head[3] for head in heads] == [0x10000000 + 256 * at for at in range(len(heads))], "the RP2040: the addresses of its pages")
    total = 0xFFFFFFFF
    for bit in range(8 * 252):
        total = total << 1 ^ 0x04C11DB7 * (total >> 31 ^ content[32 + bit // 8] >> 7 - bit % 8 & 1)
        total &= 0xFFFFFFFF
    must(total == int.from_bytes(content[32 + 252 : 32 + 256], "little"), "the RP2040: the checksum of its second stage")


class Board:
    """The board of examples/board in its emulator, with a line that spoils bytes."""

    def __init__(self, place: Place, program: pathlib.Path, ram: int, stack: int) -> None:
        program_of_board = made(place, program, "board.elf", f"RAM={ram}", f"STACK={stack}")
        self.room = program_of_board.parent
        self._monitor, painted = self.room / "monitor", self.room / "painted"
        painted.write_bytes(PAINT * ram)
        emulator = "qemu-system-arm -M mps2-an385 -display none -serial stdio".split()
        loaded = ["-kernel", str(program_of_board), "-device", f"loader,file={painted},addr={RAM_BEGINS},force-raw=on"]
        words = [*emulator, "-monitor", f"unix:{self._monitor},server,nowait", *loaded]
        self._process = subprocess.Popen(words, stdin=subprocess.PIPE, stdout=subprocess.PIPE)
        assert self._process.stdin and self._process.stdout
        self.line = NoisyLine(self._process.stdout.fileno(), self._process.stdin.fileno(), ONE_IN, 83)
        self.host, self._environment = launcher(program), environment(self.room, FORTH_HISTORY="")

    def session(self) -> Terminal:
        terminal = Terminal([*self.host, "--target", self.line.name, "b.blk"], self.room, self._environment)
        terminal.until("running.\r\n")
        return terminal

    def script(self, *words: str, target: Optional[str] = None) -> "subprocess.CompletedProcess[str]":
        """Runs a script on the board, or with an empty target here."""
        on_board = ["--target", self.line.name] if target is None else []
        return subprocess.run(
            [*self.host, *on_board, *words], cwd=self.room, env=self._environment, text=True, stdin=subprocess.DEVNULL, stdout=subprocess.PIPE, stderr=subprocess.PIPE, check=False
        )

    def heard(self, seconds: float) -> bytes:
        """What the board sends in this time while nobody speaks with it."""
        line, heard, until = os.open(self.line.name, os.O_RDWR | os.O_NOCTTY), b"", time.monotonic() + seconds
        while time.monotonic() < until:
            if select.select([line], [], [], 0.1)[0]:
                heard += os.read(line, 4096)
        os.close(line)
        return heard

    def _monitored(self, command: str) -> None:
        """Gives the emulator a command."""
        with socket.socket(socket.AF_UNIX) as monitor:
            monitor.connect(str(self._monitor))
            monitor.recv(4096)
            monitor.sendall(command.encode() + b"\n")
            time.sleep(0.5)

    def reset(self) -> None:
        self._monitored("system_reset")

    def stack_used(self, ram: int) -> int:
        """How many bytes the stack had at most: below them, and above the heap, the RAM is as it was painted."""
        symbols = subprocess.run(["arm-none-eabi-nm", self.room / "board.elf"], stdout=subprocess.PIPE, text=True, check=True).stdout
        begins = int(re.findall("([0-9a-f]+) . heap_begins", symbols)[0], 16) - RAM_BEGINS
        self._monitored(f"pmemsave {RAM_BEGINS} {ram} \"{self.room / 'ram'}\"")
        above = (self.room / "ram").read_bytes()[begins:]
        free = re.search(PAINT + b"{256,}", above)
        return len(above) - free.end() if free else len(above)

    def end(self) -> None:
        self._process.kill()
        self._process.wait()


def first_session(board: Board, must: Must) -> None:
    """README's session, a program in three screens that is loaded, debugged, and undone; and one that is interrupted."""
    terminal = board.session()
    for step in readme_steps():
        got = types(terminal, step)
        must(got == step.shown, f"{step.typed}: wanted {step.shown}, got {got}")
    (board.room / "count.txt").write_text(SCREENS, encoding="ascii")
    terminal.line("RELOAD count.txt")
    shown = terminal.line("30 LOAD SHOW SHOW")
    must(shown.endswith("3 6 "), f"a program in three screens: {shown!r}")
    must("Screen 32" in terminal.line("VIEW SHOW"), "VIEW")
    must(": SHOW NEXT COUNT @ . ;" in terminal.line("SEE SHOW"), "SEE")
    terminal.line("DEBUG SHOW", "( ) NEXT")
    terminal.keys("o")
    terminal.until("( ) COUNT")
    terminal.keys("c")
    must("9 " in terminal.until(" ok"), "the rest of the steps")
    terminal.line("BREAK-AT NEXT")
    terminal.line("SHOW", "( ) 3")
    terminal.keys("q")
    terminal.until("interrupted")
    terminal.line("BREAK-AT NEXT")
    must("9 " in terminal.line("COUNT @ ."), "the count before the step")
    terminal.line("SHOW")
    terminal.line("UNDO", "stay written")
    must("9 " in terminal.line("COUNT @ ."), "UNDO")
    must("A" * 3000 + "7 " in terminal.line("PAD 3000 65 FILL PAD 3000 TYPE 7 ."), "a long text")
    must("3 " in terminal.line("3 0 PORT! 0 PORT@ ."), "a port")
    terminal.line("FORGET MAIN : LOOPS BEGIN AGAIN ;")
    terminal.is_ready()
    terminal.keys("LOOPS\r")
    time.sleep(0.5)
    terminal.keys("\3")
    terminal.until("interrupted")
    must("9 " in terminal.line("4 5 + ."), "a line after ^C")
    terminal.keys("BYE\r")
    must(terminal.status() == 0, "BYE")


def same_as_here(board: Board, must: Must) -> None:
    """The tests of later.fs show on the board, in a script after another session, what they show here."""
    words = ["-e", f"INCLUDE later.fs INCLUDE tester.fs INCLUDE {ROOT / 'tests/cases/later-test.fs'}"]
    here, there = board.script(*words, target=""), board.script(*words)
    must(there.returncode == 0 and there.stdout == here.stdout, f"tests: {here.stdout!r}, and on the board {there.stdout!r}")


def image_in_flash(board: Board, must: Must) -> None:
    """An image that is saved in the flash runs after a reset without a host, which then finds it running; another one takes its place."""
    must(board.script("-e", "30 LOAD 0 COUNT ! BOOT MAIN SAVE-IMAGE", "b.blk").stdout.find("starts with MAIN") > 0, "SAVE-IMAGE")
    board.reset()
    time.sleep(1)
    terminal = board.session()
    terminal.until("3 ")  # the program goes on while the host looks
    terminal.keys("\3")
    terminal.until("interrupted")
    counted = int(terminal.line("COUNT @ .").split()[0])
    must(counted >= 12 and counted % 3 == 0, f"the board counts alone: {counted}")
    terminal.keys("\4")
    terminal.status()
    board.script("-e", ": FAILS 7 . 1 0 / ; BOOT FAILS SAVE-IMAGE BYE", "b.blk")
    must(b"it starts again\r\n7 \r\n" in board.heard(3), "a board that is alone starts again after a fault")


def check_board(must: Must, place: Place, program: pathlib.Path, ram: int = RAM, stack: int = STACK) -> None:
    """Tries the board with so much RAM."""

    def so(is_so: object, what: str) -> None:
        must(is_so, f"the board: {what}")

    board = Board(place, program, ram, stack)
    begins, used = time.monotonic(), 0
    try:
        first_session(board, so)
        same_as_here(board, so)
        used = board.stack_used(ram)
        image_in_flash(board, so)
    except (Wrong, OSError, ValueError) as error:
        so(False, str(error))
    finally:
        board.end()
    so(0 < used <= stack, f"{used} bytes of its stack were used, and it has {stack}")
    line = f"{board.line.carried} bytes on its line, {board.line.damaged} of them spoiled"
    print(f"the board: {ram} bytes of RAM, {used} of them for the stack; {line}; {time.monotonic() - begins:.0f} seconds")
    must(board.line.damaged > 10, f"only {board.line.damaged} bytes on the line were spoiled")
