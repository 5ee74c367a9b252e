"""The words of `./forth`: a command, an option about the program, or a session."""
from __future__ import annotations

import os
import sys
from typing import Callable, NoReturn, Optional

from launcher.program import find, named, Refused, ROOT, say
from served.bridge import ENDS as MAP
from served.start import main as session, Misused, USAGE as MISUSED, VALUES

SCRIPTS = {
    "film": "teaching/film", "map": "teaching/map", "print": "teaching/print", "class": "teaching/class", "picture": "teaching/picture",
    "blocks": "commands/blocks", "capitals": "commands/capitals", "import": "commands/bring", "export": "commands/bring",
}  # fmt: skip
BY_PROGRAM = "blocks", "capitals", "import", "export"  # scripts that call subcommands of the program
HELP = {"-h", "--help"}
DEVICE = {"--on": 1, "--speed": 1}
ABOUT_PROGRAMS = "--proved", "--unproved"


def usage(command: str = "") -> str:
    """How the Forth is used, or a command of it."""
    with open(os.path.join(ROOT, "commands", "launcher", "usage.txt"), encoding="utf-8") as file:
        lines = file.readlines()
    return "".join(line for line in lines if f"forth {command}" in line) if command else "".join(lines)


def become(path: str, *words: str) -> NoReturn:
    """Becomes another program of the tree."""
    with open(os.path.join(ROOT, path), "rb") as file:
        runner = [] if b"python" not in file.readline() else [sys.executable, "-B"]
    whole = [*runner, os.path.join(ROOT, path), *words]
    os.execv(whole[0], whole)


def parted(words: list[str]) -> tuple[list[str], str, list[str]]:
    """The words before the command, the command, and those after it. A word that is an option, or belongs to one, is no command."""
    at = 0
    while at < len(words) and words[at].startswith("-") and words[at] != "--":
        at += 1 + VALUES.get(words[at], ("", DEVICE.get(words[at], 0)))[1]
    if at < len(words) and words[at] in COMMANDS:
        return words[:at], words[at], words[at + 1 :]
    return words, "", []


def own(words: list[str]) -> list[str]:
    """The words that are not arguments of a program."""
    return words[: words.index("--")] if "--" in words else words


def take_program(words: list[str]) -> tuple[list[str], list[str]]:
    """The option that says which program is wanted, with its value, if there is one; and the other words."""
    named_last: list[str] = []
    while "--program" in words:
        at = words.index("--program")
        named_last, words = words[at : at + 2], words[:at] + words[at + 2 :]
        if not named_last[1:]:
            raise Misused(f"--program needs {VALUES['--program'][0]}")
    if named_last:
        return named_last, words
    how = [word for word in words if word in ABOUT_PROGRAMS]
    if len(set(how)) > 1:
        raise Misused("--unproved and --proved cannot be used together")
    return how[:1], [word for word in words if word not in ABOUT_PROGRAMS]


def program_of(option: list[str]) -> str:
    """The path of the program that this option names; without one it is the usual one."""
    return named(option[1]) if option[1:] else find("".join(option)[2:])


def make_page(words: list[str]) -> int:
    """Makes the page: looks at the words first, since the program may have to be built."""
    import subprocess

    if not words or HELP & set(own(words)):
        become("page/make", "--program", "-", "--help")
    maker = [sys.executable, "-B", os.path.join(ROOT, "page", "make"), "--program"]
    looked = subprocess.call([*maker, "-", "--look", *words])
    if looked:
        return looked
    return subprocess.call([*maker, program_of(take_program(words)[0]), *words])


def go_through_course(words: list[str]) -> int:
    """Starts the course, or shows something of it."""
    from launcher import course

    option, rest = take_program(words)
    first = rest[0] if rest else ""
    if first in course.KINDS:
        if len(rest) != 2:
            raise Misused(f"course {first} needs the number of a lesson")
        sys.stdout.write(course.lesson(first, rest[1]))
        return 0
    if first == "--text":
        if len(rest) > 1:
            raise Misused("course --text takes nothing more")
        with open(course.SCREENS, encoding="utf-8") as file:
            sys.stdout.write(file.read())
        return 0
    if first == "--sheets":
        become("teaching/sheets", *rest[1:])
    if first.startswith("-"):
        raise Misused(f"course has no option {first}")
    if len(rest) > 1:
        raise Misused("course takes no more than the name of its file of blocks")
    blocks = first or "course.blk"
    if not os.path.exists(blocks):
        course.make(program_of(option), blocks)
    return session([*option, "--no-start", course.START, blocks])


def where(words: list[str]) -> int:
    """Shows at which word of an image its fault happens."""
    option, rest = take_program(words)
    if rest and rest[0].startswith("-"):
        raise Misused(f"where has no option {rest[0]}")
    if len(rest) not in (1, 2):
        raise Misused("where needs an IMAGE, and BLOCKS if the image uses a file of blocks")
    from served import way  # a session does not need it

    return way.where(program_of(option), rest[0], rest[1] if rest[1:] else None)


def run_tests(words: list[str]) -> int:
    """Runs files of tests."""
    from launcher import tests

    option, names = take_program(words)
    return tests.main(lambda: program_of(option), names)


def bridge(words: list[str]) -> int:
    """A session in which addresses are devices: a map, a file of Python with the devices, and the words of a session."""
    given = {option: [word for word in own(words) if word.endswith(end)] for option, end in (("--bridge", MAP), ("--devices", ".py"))}
    if len(given["--bridge"]) != 1 or len(given["--devices"]) > 1:
        raise Misused("bridge needs a map of devices, as kiln.map, and a file of Python with these devices")
    options = [word for option, files in given.items() for file in files for word in (option, file)]
    return session(options + [word for word in words if word not in options])


def survey(words: list[str]) -> int:
    """Reports what old screens are."""
    from launcher import survey as reports

    option, rest = take_program(words)
    return reports.main(lambda: program_of(option), rest)


OWN: dict[str, Callable[[list[str]], int]] = {
    "page": make_page, "course": go_through_course, "where": where, "test": run_tests, "bridge": bridge, "survey": survey,
}  # fmt: skip
COMMANDS = {*SCRIPTS, *OWN}


def do_command(command: str, words: list[str]) -> int:
    if HELP & set(own(words)) and command in ("course", "where", "test", "bridge"):
        sys.stdout.write(usage(command))
        return 0
    if command in OWN:
        return OWN[command](words)
    if command in BY_PROGRAM:
        from subcommands import PROGRAM  # a session does not need it

        option, words = take_program(words)
        os.environ.update({PROGRAM: program_of(option)} if option else {})
    become(SCRIPTS[command], *[command] * (command in ("import", "export")), *words)


def on_device(words: list[str]) -> NoReturn:
    """Gives the session a line as its console; the device and its speed come first."""
    device: list[str] = []
    for option in DEVICE:
        at = own(words).index(option) if option in own(words) else len(words)
        device, words = device + words[at : at + 2], words[:at] + words[at + 2 :]
    become("commands/on", *device[1:], *words)


def about_program(words: list[str]) -> Optional[int]:
    """--version and --status, which come alone; None if it is something else."""
    asked = [word for word in ("--version", "--status") if word in own(words)]
    if not asked:
        return None
    if len(words) > 1:
        raise Misused(f"{asked[0]} takes no other option and no file")
    if asked == ["--status"]:
        become("build/prove", "--status")
    from launcher import building

    print(building.version())
    return 0


def do(words: list[str]) -> int:
    """Does what the words ask for; the status."""
    before, command, after = parted(words)
    if command:
        return do_command(command, before + after)
    if HELP & set(own(words)):
        sys.stdout.write(usage())
        return 0
    status = about_program(words)
    if status is not None:
        return status
    if "--on" in own(words):
        on_device(words)
    return session(words)


def main(words: list[str]) -> int:
    try:
        return do(words)
    except Misused as error:
        say(f"{error}\nforth: ./forth --help shows the usage")
        return MISUSED
    except Refused as error:
        if str(error):
            say(str(error))
        return 1
