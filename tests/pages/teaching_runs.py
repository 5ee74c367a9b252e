"""A tree with the built program for trials of films, maps, pages of screens and the course; and the steps of films beside what `debug` writes."""
import os
import pathlib
import subprocess
import sys
import tty
from typing import Any, List, Optional, Tuple, Union

import browser as browsers
from tally import Tally

ROOT = pathlib.Path(__file__).resolve().parents[2]
sys.path.append(str(ROOT / "page"))

import module  # noqa: E402

# What the page of a film has about it.
Film = Any
# A step as a line of a trace is: place, name, both stacks; and what is shown, the frame.
FilmStep = Tuple[Optional[int], Optional[str], Tuple[int, ...], Tuple[int, ...], int, int]
# A line that `debug` wrote: the place, the word's name, and both stacks.
Line = Tuple[int, str, Tuple[int, ...], Tuple[int, ...]]
WORDS = (ROOT / "tests/cases/pages/words/films.txt").read_text(encoding="ascii")
# Films whose steps are compared with what `debug` writes: a word, and what is typed.
FILMED = (
    ("SQUARES", "5 SQUARES"),
    ("TICKED", "TICKED"),
    ("ASKS", "ASKS\nxhello there"),
    ("DOWN", "3 DOWN .( a text)"),
    ("BYTES", "1 . BYTES 2 . BYTES"),
    ("LEAVES", "LEAVES"),
    ("CALLS", "CALLS"),
    ("UNIT", "10 UNIT MM 3 CM 4 MM"),
    ("PEEKS", "PEEKS"),
    ("TALL", "TALL"),
    ("FILLS", "FILLS"),
    ("GCD", "54 24 GCD ."),
    ("DOUBLINGS", "6 DOUBLINGS"),
    ("PARITY", "7 PARITY 10 PARITY"),
    ("FIB", "6 FIB ."),
    ("BAD", "BAD"),
    ("SHOW", "25 SHOW"),
    ("DIVIDES", "DIVIDES"),
    ("DROPS", "DROPS"),
    ("ROUND", "40000 ROUND"),
)
LONG = ("--steps", "200000", "--limit", "1000000")


class Tree:
    """A tree with the built program, with a block file of words for films, the image of sessions, and that of these words."""

    # Where films are opened.
    browser: browsers.Browser

    def __init__(self, cases: Tally, room: pathlib.Path, program: pathlib.Path) -> None:
        self.cases, self.room, self.forth83 = cases, room, program
        subprocess.run([ROOT / "tests/shared/lay-built", program, room], check=True)
        module.copy_to(room)
        (room / "words.txt").write_text(WORDS, encoding="ascii")
        for words in (["kernel", "kernel.blk"], ["build", "kernel.blk", "1", "20", "kernel.img"], ["kernel", "forth.blk"], ["screens", "words.txt", "forth.blk"]):
            self.forth(*words)
        self.run(["./forth", "-e", ""])
        self.image = str(next((room / "build/out").glob("served-*/served.img")))
        self.forth("load", self.image, "forth.blk", "21", "25", "own.img")

    def forth(self, *words: str) -> None:
        """A subcommand, which must not be refused."""
        status, said = self.run([self.forth83, *words])
        self.cases.same(f"the status of {words}, which said {said!r}", 0, status)

    def run(self, words: List[Union[pathlib.Path, str]], typed: Optional[bytes] = None) -> Tuple[int, bytes]:
        """The status, and what was printed: standard output and then standard error."""
        done = subprocess.run(words, cwd=self.room, input=typed, stdout=subprocess.PIPE, stderr=subprocess.PIPE, check=False)
        return done.returncode, done.stdout + done.stderr

    def tool(self, *words: str) -> Tuple[int, str]:
        status, said = self.run(["./forth", *words])
        return status, said.decode("utf-8", "replace")

    def film(self, name: str, line: str, *more: str) -> Film:
        """The film film.html, opened in the browser, and its data."""
        status, said = self.tool("film", "--screens", "21", "25", "-o", "film.html", *more, "--", name, line)
        self.cases.same(f"the status of a film of {name}, which said {said}", 0, status)
        return self.opened("film.html")

    def opened(self, name: str, mark: str = "") -> Film:
        """Opens a film, and waits until it is made: its data."""
        self.browser.open(self.room / name, mark)
        self.browser.wait("typeof visible !== 'undefined'", 60)
        return self.browser.value("film")


def expanded(data: Film) -> List[FilmStep]:
    """The film's steps."""
    stacks: Tuple[List[int], List[int]] = ([], [])
    found = []
    for place, frame, *changes, shown, _ in data["steps"]:
        for cells, change in zip(stacks, changes):
            cells[change[0] :] = change[1:]
        address, name = data["places"][place][::2][:2] if place >= 0 else (None, None)
        found.append((address, name, tuple(stacks[0]), tuple(stacks[1]), shown, frame))
    return found


def steps_of(data: Film, name: str) -> List[FilmStep]:
    """The steps in the thread of a word."""
    word = [one["name"] for one in data["words"]].index(name)
    own = {place[0] for place in data["places"] if place[1] == word}
    return [step for step in expanded(data) if step[0] in own]


def lines_of(path: pathlib.Path) -> List[Line]:
    """The lines that `debug` wrote, as tuples."""
    found = []
    for one in path.read_text(encoding="utf-8").splitlines():
        place, data, returns = one.split(" |")
        address, token = place.split(" ")
        found.append((int(address), token, tuple(map(int, data.split())), tuple(map(int, returns.split()))))
    return found


def trace_of(tree: Tree, name: str, line: str) -> List[Line]:
    """The lines of `debug` of a word over the image as it is."""
    tree.run([tree.forth83, "debug", "own.img", name, "trace.txt", "forth.blk"], line.encode() + b"\n")
    return lines_of(tree.room / "trace.txt")


def check_traces(tree: Tree) -> None:
    """The steps of a film are those that `debug` writes for each of its words, and what is shown before each is what a terminal has seen
    by then."""
    for name, line in FILMED:
        data = tree.film(name, line, *LONG)
        first, own = expanded(data)[0], [one["name"] for one in data["words"] if one["from"].startswith("screen")]
        for word in own + ([".", "SPACE"] if name == "SQUARES" else []):
            under = [step for step in trace_of(tree, word, line) if step[3][: len(first[3])] == first[3]]
            tree.cases.same(f"steps of {word} in the film of {name}", under, [step[:4] for step in steps_of(data, word)])
        tree.cases.must(name in own, f"{name} is not in its film")
        if name not in ("ASKS", "ROUND"):
            got = [step[4] for step in steps_of(data, name)]
            seen = places_by_terminal(tree, name, line)
            tree.cases.same(f"what {name} shows, step by step", [place - seen[0] for place in seen], [place - got[0] for place in got])


def interleaved(tree: Tree, name: str, line: str) -> bytes:
    """What is shown, and the lines of the word's trace, in the order in which they were written: both go to one terminal."""
    master, slave = os.openpty()
    tty.setraw(slave)
    (tree.room / "typed").write_text(line + "\n", encoding="ascii")
    with open(tree.room / "typed", "rb") as typed:
        words = [str(tree.forth83), "debug", "own.img", name, os.ttyname(slave), "forth.blk"]
        running = subprocess.Popen(words, cwd=tree.room, stdin=typed, stdout=slave, stderr=subprocess.DEVNULL)
    os.close(slave)
    written = b""
    try:
        while True:
            written += os.read(master, 65536)
    except OSError:
        pass
    running.wait()
    os.close(master)
    return written


def places_by_terminal(tree: Tree, name: str, line: str) -> List[int]:
    """How many bytes were shown before each line of the word's trace, as a terminal saw it."""
    trace_of(tree, name, line)
    lines = (tree.room / "trace.txt").read_bytes().splitlines(keepends=True)
    written, at, shown, found = interleaved(tree, name, line), 0, 0, []
    for one in lines:
        begins = written.index(one, at)
        shown += begins - at
        found.append(shown)
        at = begins + len(one)
    return found
