"""Tries the hosts of examples/ on targets: the test bench and the terminal in pipes, and the terminal at a pseudo terminal."""
import os
import pathlib
import shutil
import signal
import subprocess
import sys
import termios
import time
from typing import List, Optional

from session_terminals import PATIENCE, Terminal, Wrong
from tally import Must
from target_runs import ROOT, Place
from terminals import Glass

sys.path.insert(0, str(ROOT / "commands"))

from served import image as served_image  # noqa: E402

SCREENS = 8
LINES = b": SQUARE DUP * ;\n12 SQUARE .\n3 BLOCK C@ . 5 BUFFER 1024 66 FILL UPDATE\nKEY A .\n1 0 /\n99 BLOCK\n5 .\n"
LISTS = 24  # of frames, for each server
# What a person types at the terminal, and what must be shown then: lines with deleted bytes, ^C in a line and in a loop, a key; then a block.
STEPS = [
    ("3 4 + .\r", "7  ok"),
    ("12 DUPX\x7f * .\r", "144  ok"),
    ("NOWORD\x155 .\r", "5 . 5  ok"),
    ("NOWORD\x036 .\r", "6 . 6  ok"),
    (": K KEY . ; K\r", "K "),
    ("A", "65  ok"),
    (": L 42 EMIT BEGIN AGAIN ; L\r", "; L *"),
    ("\x03", "\n"),
    ("7 .\r", "7 . 7  ok"),
    ("2 BLOCK 1024 66 FILL UPDATE\r", "ok"),
]
SEEN = ["3 4 + . 7  ok", "12 DUP * . 144  ok", "5 . 5  ok", "6 . 6  ok", ": K KEY . ; K 65  ok", ": L 42 EMIT BEGIN AGAIN ; L *", "7 . 7  ok"]


class Session(Terminal):
    """A session of the terminal over the file pty.blk, which starts where the terminal's own echo is off."""

    def __init__(self, place: Place, terminal: pathlib.Path, image: pathlib.Path, *more: str) -> None:
        command = place.command(terminal, [image, "pty.blk", *more])
        super().__init__([shutil.which(command[0]) or command[0], *command[1:]], place.room, dict(os.environ))
        self.seen, until = b"", time.monotonic() + PATIENCE
        while termios.tcgetattr(self.screen)[3] & termios.ECHO:
            if time.monotonic() > until:
                raise Wrong("the terminal's own echo stays on")
            time.sleep(0.02)

    def types(self, keys: str, wanted: str) -> None:
        """Types keys, after which this must be shown."""
        self.keys(keys)
        self.seen += (self.until(wanted) + wanted).encode()

    def closed(self) -> int:
        """The status with which it ends when the terminal is closed, in time; it is killed otherwise."""
        os.close(self.screen)
        until = time.monotonic() + PATIENCE
        while time.monotonic() < until:
            ended, status = os.waitpid(self.process, os.WNOHANG)
            if ended:
                return status
            time.sleep(0.05)
        os.kill(self.process, signal.SIGKILL)
        return os.waitpid(self.process, 0)[1]

    def rows(self) -> List[str]:
        """What is seen on the terminal."""
        glass = Glass(80)
        glass.shows(self.seen)
        return glass.seen()[0]


def blocks_file(program: pathlib.Path, file: pathlib.Path) -> None:
    """A new file of blank screens."""
    file.unlink(missing_ok=True)
    subprocess.run([program, "new", file, str(SCREENS)], stdout=subprocess.DEVNULL, check=True)


def check_pipes(must: Must, place: Place, program: pathlib.Path, image: pathlib.Path, terminal: pathlib.Path) -> None:
    """The terminal in a pipe shows what the program shows, and leaves the blocks that the program leaves after FLUSH."""
    mine, others = place.room / "mine.blk", place.room / "others.blk"
    for file in (mine, others):
        blocks_file(program, file)
    wanted = subprocess.run([program, "run", image, others], input=LINES, stdout=subprocess.PIPE, check=False).stdout
    subprocess.run([program, "run", image, others], input=LINES + b"FLUSH\n", stdout=subprocess.DEVNULL, check=False)
    got = place.run(terminal, [image, mine.name], LINES)
    must(got == wanted, f"{place.target}: the terminal shows {got!r} in a pipe, and the program {wanted!r}")
    must(mine.read_bytes() == others.read_bytes(), f"{place.target}: the terminal leaves other blocks than the program")


def check_pty(must: Must, place: Place, program: pathlib.Path, image: pathlib.Path, terminal: pathlib.Path) -> None:
    """What a person types, and BYE; a terminal that is closed; a fault that halts, and the next session."""

    def so(is_so: object, what: str) -> None:
        must(is_so, f"{place.target}: the terminal: {what}")

    blocks_file(program, place.room / "pty.blk")
    try:
        check_keys(so, place, terminal, image)
        check_saved(so, place, terminal)
        session = Session(place, terminal, image)
        session.types("3 BLOCK 1024 67 FILL UPDATE 1 . : L BEGIN AGAIN ; L\r", "; L 1 ")
        so(session.closed() == 0 and block(place, 3) == b"C" * 1024, "the block after the terminal was closed")
        check_fault(so, place, terminal, image)
    except (Wrong, OSError) as error:
        so(False, str(error))


def block(place: Place, number: int) -> bytes:
    """A block of the file."""
    return (place.room / "pty.blk").read_bytes()[1024 * number : 1024 * (number + 1)]


def check_keys(so: Must, place: Place, terminal: pathlib.Path, image: pathlib.Path) -> None:
    """The steps, and BYE, which keeps the blocks and an image."""
    session = Session(place, terminal, image, "--save", "saved.img")
    for keys, wanted in STEPS:
        session.types(keys, wanted)
    so(session.rows()[:7] == SEEN, f"what is seen: {session.rows()}")
    session.keys("BYE\r")
    so(session.status() == 0 and block(place, 2) == b"B" * 1024, "the block after BYE")


def check_fault(so: Must, place: Place, terminal: pathlib.Path, image: pathlib.Path) -> None:
    """A fault that halts leaves the blocks to a journal, and meanwhile no other session has the file; the next session takes it."""

    def refused(said: bytes) -> None:
        done = subprocess.run(command, cwd=place.room, stdin=subprocess.DEVNULL, stdout=subprocess.PIPE, stderr=subprocess.PIPE, check=False)
        so(done.returncode == 1 and said in done.stderr, f"{said!r}: {done.stderr!r}")

    command, before = place.command(terminal, [image, "pty.blk"]), (place.room / "pty.blk").read_bytes()
    session = Session(place, terminal, image)
    session.types("4 BLOCK 1024 68 FILL UPDATE\r", "ok")
    refused(b"another run has it")
    session.keys("0 40 ! 1 0 /\r")
    so(session.status() == 3 and (place.room / "pty.blk").read_bytes() == before, "the blocks after a fault")
    refused(b"pty.blk.journal has blocks")
    session = Session(place, terminal, image)
    session.types("y", "pty.blk.journal.old now")
    session.types("4 BLOCK C@ .\r", "68")
    session.keys("\4")
    so(session.status() == 0 and block(place, 4) == b"D" * 1024, "the block after the journal was taken")


def check_saved(so: Must, place: Place, terminal: pathlib.Path) -> None:
    """The image that --save wrote knows the session's words."""
    shown = place.run(terminal, ["saved.img"], b"' L DROP 8 .\n")
    so(b"8 . 8  ok" in shown or b"8  ok" in shown, f"a saved image: {shown!r}")


def check_bench(must: Must, place: Place, image: pathlib.Path, wanted: Optional[bytes]) -> bytes:
    """The test bench shows on each target what it shows natively."""
    bench = place.compile("bench", [ROOT / "examples/embed/bench.c"])
    shown = place.run(bench, [image], LINES)
    must(wanted in (None, shown), f"{place.target}: the test bench shows {shown!r}, and natively {wanted!r}")
    return shown


def check_server(must: Must, place: Place, program: pathlib.Path) -> None:
    """The server in C replies to random lists of frames as the program does, and README's sessions run over it as they are shown."""
    runs = place.starter(place.compile("serve", [ROOT / "examples/serve.c"], "-D_DEFAULT_SOURCE"))
    beside = pathlib.Path(served_image.beside(str(runs)))
    beside.parent.mkdir(exist_ok=True)
    beside.symlink_to(served_image.find(str(program)))
    for words in (["trials/check-serve", program, LISTS, "--other", runs], ["sessions/check-readme", runs]):
        done = subprocess.run([ROOT / "tests" / str(words[0]), *map(str, words[1:])], stdout=subprocess.PIPE, stderr=subprocess.STDOUT, text=True, check=False)
        must(done.returncode == 0, f"{place.target}: {words[0]} over its server: {done.stdout}")
