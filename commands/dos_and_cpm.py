"""The files of disks of DOS (FAT) and of CP/M, as mtools and cpmtools read them.

The program says whether a disk is one of these (`guess --files`), takes the sectors out of a file of tracks (`unpack`), and says how much a
file looks like source (`guess --score`).
"""
from __future__ import annotations

import functools
import pathlib
import re
import shutil
import subprocess
import tempfile
from typing import Callable, Dict, Iterator, List, Tuple

from subcommands import program

Files = Dict[str, Callable[[], bytes]]
CPM = "a disk of CP/M"
DEFINITIONS = "/etc/cpmtools/diskdefs", "/usr/share/diskdefs"


class Wild(Exception):
    """Why a container cannot be read, in one sentence."""


def tool(package: str, *words: str) -> bytes:
    """What a tool of a Debian package writes; Wild if it is not installed, or fails."""
    if shutil.which(words[0]) is None:
        raise Wild(f"its files need {words[0]}, which is not installed: apt install {package}")
    done = subprocess.run(words, stdin=subprocess.DEVNULL, capture_output=True, check=False)
    if done.returncode:
        raise Wild(f"{words[0]}: {done.stderr.decode(errors='replace').strip()}")
    return done.stdout


def sectors_of(disk: pathlib.Path, room: pathlib.Path) -> pathlib.Path:
    """The file of a disk's sectors: the disk itself, or if it has tracks, what the program takes out of them.

    The program writes whole blocks: sectors that are no whole number of blocks are read again from a place after which they are.
    """
    whole, end = room / "whole", room / "end"
    done = program(["unpack", str(disk), str(whole), "--offset", "0"])
    if done.status or "; its sectors are taken in the order of their numbers" not in done.text:
        return disk
    rest = re.search(r"^(\d+) bytes after the last", done.text, re.M)
    if rest:
        front = whole.read_bytes()[: int(rest[1])]
        program(["unpack", str(disk), str(end), "--offset", rest[1]])
        whole.write_bytes(front + (end.read_bytes() if end.exists() else b""))
    return whole


def fat_files(disk: pathlib.Path) -> Files:
    """The files of a disk of DOS, also those in its folders."""
    listed = tool("mtools", "mdir", "-b", "-/", "-i", str(disk), "::").decode(errors="replace").split("\n")
    names = [line.strip()[3:] for line in listed if line.startswith("::/") and not line.endswith("/")]
    return {name: functools.partial(tool, "mtools", "mcopy", "-i", str(disk), f"::/{name}", "-") for name in names}


def definitions_of(size: int) -> Iterator[Tuple[str, int]]:
    """The disks of cpmtools that have so many bytes, and where the directory of each begins."""
    text = next((p.read_text(errors="replace") for p in map(pathlib.Path, DEFINITIONS) if p.exists()), "")
    for block in re.findall(r"^diskdef (\S+)(.*?)^end", text, re.M | re.S):
        numbers = {key: int(number) for key, number in re.findall(r"^\s*(seclen|tracks|sectrk|boottrk)\s+(\d+)", block[1], re.M)}
        if len(numbers) >= 3:
            track = numbers["seclen"] * numbers["sectrk"]
            if track * numbers["tracks"] == size:
                yield block[0], track * numbers.get("boottrk", 0)


def is_directory(sector: bytes) -> bool:
    """Whether a sector alone is a directory of CP/M to the program."""
    return program(["guess", "/dev/stdin", "--files"], given=sector).text.startswith(f"{CPM}\n")


def cpm_files(disk: pathlib.Path) -> Files:
    """The files of a disk of CP/M, by the definition of cpmtools that finds most."""
    if shutil.which("cpmls") is None:
        raise Wild("its files need cpmls and cpmcp, which are not installed: apt install cpmtools")
    data = disk.read_bytes()
    named = {definition: cpm_names(disk, definition) for definition, at in definitions_of(len(data)) if is_directory(data[at : at + 128])}
    most = max(map(len, named.values()), default=0)
    fitting = [definition for definition, names in named.items() if len(names) == most]
    if not most:
        raise Wild("no disk definition of cpmtools has its size and its directory; if it was cut short, fill it up with bytes E5")
    return {name.upper(): functools.partial(cpm_file, disk, fitting, f"{user}{name}") for user, name in named[fitting[0]]}


def cpm_names(disk: pathlib.Path, definition: str) -> List[Tuple[str, str]]:
    """The files of a CP/M disk by one of cpmtools' definitions: the user's number with a colon, and the name."""
    listed = tool("cpmtools", "cpmls", "-f", definition, str(disk)).decode(errors="replace")
    names: List[Tuple[str, str]] = []
    user = "0:"
    for line in listed.splitlines():
        user, names = (line, names) if re.fullmatch(r"\d+:", line) else (user, [*names, (user, line.strip())])
    return names


def likeness(content: bytes) -> float:
    """How much a file looks like source."""
    return float(program(["guess", "/dev/stdin", "--score"], given=content).text)


def cpm_file(disk: pathlib.Path, definitions: List[str], name: str) -> bytes:
    """A file of a CP/M disk: what all definitions that fit the disk read, or the reading that looks most like source."""
    contents: Dict[bytes, str] = {}
    with tempfile.TemporaryDirectory() as room:
        for definition in definitions:
            tool("cpmtools", "cpmcp", "-f", definition, str(disk), name, f"{room}/{definition}")
            contents.setdefault(pathlib.Path(room, definition).read_bytes(), definition)
    scores = {content: likeness(content) for content in contents} if len(contents) > 1 else {}
    likely = sorted(contents, key=lambda content: -scores.get(content, 0))
    if len(likely) > 1 and scores[likely[0]] < scores[likely[1]] + 0.1:
        raise Wild(f"definitions of cpmtools read it differently; take it with cpmcp -f NAME, where NAME is one of {', '.join(contents.values())}")
    return likely[0]


# The disks whose files are read here, by what the program calls them.
READERS: Dict[str, Callable[[pathlib.Path], Files]] = {"a disk of DOS (FAT)": fat_files, CPM: cpm_files}
