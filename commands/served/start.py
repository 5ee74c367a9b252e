"""The command line of a session: what is loaded, the file of blocks, and which program runs."""
from __future__ import annotations

import os
from typing import Callable, Iterator, Optional

import whole
from launcher.program import find, named, say
from served import blocks, bridge, image, journal
from served.prompt import Ended, Signals
from served.script import Script
from served.session import Session
from served.target import SCR
from served.texts import Line, lines_of, read_file, read_text, Unreadable
from served.wire import Gone, Wire

ENDS = (".fs", ".fth", ".4th", ".frt", ".f")
DIALECTS, FOLDER = ("fig.txt", "f79.txt", "f83.txt", "poly.txt"), os.path.join(os.path.dirname(image.LIBRARY), "dialects")
TITLE = b"(  1  Control: threads and loops )"  # the first line of a kernel's sources
USAGE, INTERRUPTED = 2, 130
FLAGS = ("--quiet", "--kernel", "--proved", "--unproved", "--dap", "--start", "--no-start")
TOGETHER = ("--kernel", "--quiet"), ("--proved", "--unproved"), ("--start", "--no-start"), ("--kernel", "--start")  # not these
VALUES = {
    "-e": ("some words of Forth", 1),
    "--kernel-of": ("the name of a file", 1),
    "--program": ("the name of a file", 1),
    "--services": ("a file of Python", 1),
    "--target": ("a board's serial line, as /dev/ttyACM0", 1),
    "--speed": ("the bits a second of the line", 1),
    "--bridge": ("a map of devices", 1),
    "--devices": ("a file of Python", 1),
    "--dialect": ("a dialect, as fig", 1),
    "--image": ("OWN, the name of an image, and what it loads: the screens FROM TO, texts, or both", 1),
}


class Misused(Exception):
    """The command line is wrong."""


class Asked:
    """What these words of a command line ask for."""

    def __init__(self, words: list[str]) -> None:
        self.texts: list[str] = []
        self.lines: list[str] = []
        self.arguments: list[str] = []
        self.flags: set[str] = set()
        self._names: list[str] = []
        self._values: dict[str, list[str]] = {}
        self._screens: list[int] = []  # those of an image
        rest = list(words)
        while rest:
            self._take(rest.pop(0), rest)
        self.is_quiet = "--quiet" in self.flags or bool(self.lines)
        self.kernel = self._values.get("--kernel-of", [""])[0]
        self.program = self._values.get("--program", [""])[0]
        self.services, self.target, self.speed = self._values_of("--services", "--target", "--speed")
        self.bridge, self.devices, self.dialect = self._values_of("--bridge", "--devices", "--dialect")
        self._check()
        self.own = self._own()

    def _take(self, word: str, rest: list[str]) -> None:
        """Takes a word, and those of the rest that belong to it."""
        if word == "--":
            self.arguments = rest[:]
            rest.clear()
        elif word in VALUES:
            what, count = VALUES[word]
            given = rest[:count]
            del rest[:count]
            if len(given) < count or word != "-e" and not given[0]:
                raise Misused(f"{word} needs {what}")
            if word == "-e":
                self.lines += given
            else:
                self._values[word] = given
            while word == "--image" and rest and len(self._screens) < 2 and rest[0].isascii() and rest[0].isdigit():
                self._screens.append(int(rest.pop(0)))
        elif word in FLAGS:
            self.flags.add(word)
        elif word.startswith("-"):
            raise Misused(f"there is no option {word}")
        elif not word:
            raise Misused("the name of the file of blocks is empty")
        else:
            (self.texts if is_text(word) else self._names).append(word)

    def _values_of(self, *options: str) -> Iterator[str]:
        return (self._values.get(option, [""])[0] for option in options)

    def _check(self) -> None:
        """Refuses what does not go together."""
        if len(self._names) > 1:
            raise Misused(f"name one file of blocks: {' '.join(self._names)}")
        for one, other in TOGETHER:
            if {one, other} <= self.flags or one == "--kernel" in self.flags and self.lines:
                raise Misused(f"{'-e' if self.lines else other} and {one} cannot be used together")
        if self.texts and "--kernel" in self.flags:
            raise Misused("a text cannot be used with --kernel")
        if self.target and (self.flags & {"--kernel", "--dap"} or "--image" in self._values):
            raise Misused("--target cannot be used with --kernel, --image or --dap")
        if self.bridge and not (self.devices or self.services or self.target):
            raise Misused("bridge needs the devices: a file of Python, or the board of --target")
        if self.speed and not (self.target and self.speed.isascii() and self.speed.isdigit()):
            raise Misused("--speed is for --target, and needs the bits a second of its line")
        if any(values[0].startswith("-") for values in self._values.values()):
            raise Misused("write a name that begins with - as ./-NAME")

    def _own(self) -> Optional[tuple[str, list[int]]]:
        """The image that is to be made, and the screens that it is to load, if any."""
        if "--image" not in self._values:
            return None
        is_nothing = not self._screens and not self.texts and not self.lines
        if is_nothing or len(self._screens) == 1 or any(number > 65535 for number in self._screens):
            raise Misused(f"--image needs {VALUES['--image'][0]}; FROM and TO are numbers of screens, 0 to 65535")
        return self._values["--image"][0], self._screens

    @property
    def blocks(self) -> Optional[str]:
        if self._names:
            return self._names[0]
        if self.own:
            return "forth.blk" if self.own[1] else None
        return self.kernel or (None if self.is_quiet else "forth.blk")

    @property
    def reads(self) -> bool:
        """Whether the lines of standard input are a script's, too."""
        return not self.is_quiet or not (self.texts or self.lines)


def is_text(name: str) -> bool:
    """Whether a file is a text of Forth, by its name or by a first line that begins with #!."""
    if name.endswith(ENDS):
        return True
    try:
        return read_file(name).startswith(b"#!")
    except OSError:
        return False


def find_program(wanted: Asked) -> str:
    """The program that runs; if there is none, or another one is wanted, it is made."""
    return named(wanted.program) if wanted.program else find("".join(flag[2:] for flag in wanted.flags & {"--proved", "--unproved"}))


def texts_of(wanted: Asked, is_terminal: bool) -> list[str]:
    """The texts of a session: one's own start file comes first, at a terminal if there is one, in a script if it is asked for. A folder's own
    file is never included by itself: who unpacks files of others has not chosen to run them."""
    folder = os.environ.get("XDG_CONFIG_HOME") or os.path.expanduser("~/.config")
    own = os.path.join(folder, "jaurimet", "start.fs")
    is_included = "--start" in wanted.flags or is_terminal and "--no-start" not in wanted.flags and os.path.exists(own)
    return [own] * is_included + wanted.texts


def first_lines(wanted: Asked) -> list[bytes]:
    """What a session loads before its texts: a dialect, and a map of devices."""
    dialect = [f"{first_screen(wanted.dialect)} LOAD"] if wanted.dialect else []
    lines = [bridge.BEFORE, *dialect, bridge.AFTER, f'INCLUDE "{wanted.bridge}"'] if wanted.bridge else dialect
    return [os.fsencode(line) for line in lines]


def first_screen(dialect: str) -> int:
    """The screen that loads a dialect, which is the first one of its text."""
    if f"{dialect}.txt" not in DIALECTS:
        raise Unreadable(f"there is no dialect {dialect}; there are {', '.join(name[:-4] for name in DIALECTS)}")
    with open(os.path.join(FOLDER, f"{dialect}.txt"), encoding="utf-8") as text:
        return int(text.readline().split()[-1])


def script_lines(wanted: Asked) -> list[Line]:
    """All lines of a script's texts, before any of them is done."""
    found = [Line("bridge", number, line) for number, line in enumerate(first_lines(wanted), 1)]
    for name in texts_of(wanted, False):
        found += lines_of(name, read_text(name))
    return found + [Line("-e", number, os.fsencode(line)) for number, line in enumerate(wanted.lines, 1)]


def screens_first(session: Session) -> None:
    """SCR is the screen that one would edit first: 21 after a kernel, otherwise 1."""
    page = session.target.page(1) or b""
    session.wire.set_cell(SCR, 21 if page.startswith(TITLE) else 1)


def offer_journal(session: Session, blocks: str) -> None:
    """Offers the screens that an earlier session could not write."""
    taken: dict[int, bytes] = {}
    for path in journal.places(blocks):
        screens = journal.read(path)
        if not screens:
            continue
        numbers = " ".join(map(str, sorted(screens)))
        session.say_line(f"{path} has screens that an earlier session did not write: {numbers}\ntake them into this session? (y or n) ")
        answer = session.console.line(b"", False)
        if answer is not None and answer.strip().lower() in (b"y", b"yes"):
            taken.update(screens)
        session.say_line(f"the journal is {whole.put_aside(path)} now\n")
    for number, page in taken.items():
        session.target.put(number, page)
    session.keep_journal()  # after the other ones are out of its way


def start(wanted: Asked) -> int:
    """Does what the command line asks for; the status."""
    program = find_program(wanted)
    if "--dap" in wanted.flags:
        from served import dap  # it needs modules that a session does not

        return dap.main(program)
    if wanted.own:
        from served.own import make_own

        return make_own(program, *wanted.own, wanted.blocks, script_lines(wanted))
    is_terminal = os.isatty(0) and os.isatty(1) and not wanted.is_quiet
    lines = [] if is_terminal else script_lines(wanted)
    images = image.find(program, wanted.kernel)
    is_new = blocks.open_blocks(program, wanted.blocks) if wanted.blocks else False
    if is_new and not is_terminal:
        say(f"{wanted.blocks} is a new file")
    register(wanted)
    is_kernel, signals = "--kernel" in wanted.flags, Signals()
    words = [program, "serve", os.path.join(images, "plain.img" if is_kernel else "served.img"), *([wanted.blocks] if wanted.blocks else [])]
    try:
        if is_kernel:
            from served import kernel

            return kernel.Kernel(words, wanted.blocks, signals).run()
        script = None if is_terminal else Script(signals, lines, wanted.reads, not wanted.is_quiet)
        session = Session(words, wanted.blocks, signals, script, wanted.arguments, wire_to(wanted, signals, not is_terminal))
    except Gone as error:  # a board, or another run has taken the file of blocks meanwhile
        if str(error):
            raise Unreadable(str(error)) from None
        if wanted.blocks:
            blocks.look_inside(wanted.blocks)
        raise Unreadable(f"{program} ended as soon as it was started; try it again") from None
    begin(session, wanted, is_new)
    return session.run()


def register(wanted: Asked) -> None:
    """Takes the services and devices of files of Python."""
    if not (wanted.services or wanted.bridge):
        return
    from served import services

    if wanted.services:
        services.register(wanted.services)
    if wanted.bridge:
        places = bridge.ranges(wanted.bridge, read_text(wanted.bridge))
        if wanted.devices:
            services.register_devices(wanted.devices, places)


def wire_to(wanted: Asked, signals: Signals, is_script: bool) -> Callable[[list[str], Callable[[bytes], None]], Wire]:
    """How a session gets its machine: from the program, or from a board."""
    if not wanted.target:
        return Wire
    from functools import partial

    from served.board import Board
    from served.line import Line

    line = Line(wanted.target, int(wanted.speed or 115200), say, lambda: signals.is_interrupted() or signals.is_ending())
    return partial(Board, line=line, blocks=wanted.blocks, is_script=is_script)


def begin(session: Session, wanted: Asked, is_new: bool) -> None:
    """What comes before the first line."""
    if not wanted.blocks:
        return
    screens_first(session)
    if session.console.is_script:
        return
    count = session.target.count()
    if session.wire.board_name:
        session.say(f"This is the board {session.wire.board_name}.\n")
    session.say(f"{wanted.blocks}, {count} screens{', a new file' * is_new}. WORDS and HELP say more.\n")
    session.say("BYE or ^D saves your screens and leaves; ^C interrupts what is running.\n")
    texts = texts_of(wanted, True)
    if len(texts) > len(wanted.texts):
        session.say(f"{texts[0]} is included first; --no-start leaves it out.\n")
    session.first = first_lines(wanted) + [f'INCLUDE "{text}"'.encode(errors="surrogateescape") for text in texts]
    offer_journal(session, wanted.blocks)


def main(words: list[str]) -> int:
    """Runs the session that a command line asks for; its status."""
    try:
        return start(Asked(words))
    except (Unreadable, image.NotMade) as error:
        say(str(error))
        return 1
    except KeyboardInterrupt:
        return INTERRUPTED
    except Ended as ended:
        return ended.status
