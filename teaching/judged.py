"""What `forth83 judge` says of a pupil's file, and the files that it is given: a session that the page saved is taken apart here."""
import base64
import binascii
import json
import pathlib
import subprocess
import tempfile
from typing import List, NamedTuple, Optional, Tuple, Union

import program

TICKS = 5_000_000  # of one lesson; a right answer takes less than 200,000
TEXTS = program.ROOT / "data/faults.txt"


class Lesson(NamedTuple):
    """A lesson, by its title in line 0 of the pupils' screen."""

    number: int
    title: str
    screen: int


class Result(NamedTuple):
    """What came of a lesson: the mark, the word that it is about, and what a person should read."""

    mark: str
    word: str
    text: str


class Desk:
    """Where lessons are judged: the course's blocks, and an image that has loaded its checkers."""

    def __init__(self, forth83: program.Program, room: pathlib.Path, course: pathlib.Path, ticks: int, seconds: float) -> None:
        self.forth83, self.room, self.ticks, self.seconds = forth83, room, ticks, seconds
        self.course, self.image = blocks_of(forth83, course, room), room / "course.img"
        self.lessons = lessons_of(forth83, self.course)
        forth83.text(["load", "--where", program.session_image(forth83), self.course, "1", "1", self.image])

    def check(self, path: pathlib.Path) -> List[Result]:
        """The results of a pupil's file, lesson by lesson."""
        if not path.is_file():
            raise program.Refusal("it is a folder" if path.is_dir() else "there is no such file")
        with tempfile.TemporaryDirectory(dir=self.room) as folder:
            files = [self.image, TEXTS, self.course, plain(path, pathlib.Path(folder) / "session.blk")]
            try:
                return [result for _, result in judge(self.forth83, ["--limit", str(self.ticks), "--", *files], self.seconds)]
            except subprocess.TimeoutExpired as error:
                raise program.Refusal(f"its lessons took more than {self.seconds:g} seconds") from error


def judge(forth83: program.Program, words: List[Union[pathlib.Path, str]], seconds: Optional[float] = None) -> List[Tuple[Lesson, Result]]:
    """The lessons of a course, each with a pupil's result."""
    done = forth83.run(["judge", *words], stdin=subprocess.DEVNULL, timeout=seconds)
    if done.returncode:
        raise program.Refusal(after("pupil: ", after("course: ", program.said_by(done))))
    return [read(line) for line in done.stdout.decode("utf-8", "replace").split("\n")[:-1]]


def lessons_of(forth83: program.Program, course: pathlib.Path) -> List[Lesson]:
    """The lessons of a course: those of a pupil who has written nothing, for whom no machine runs."""
    lessons = [lesson for lesson, _ in judge(forth83, ["--", program.session_image(forth83), TEXTS, course, course])]
    if not lessons:
        raise program.Refusal("no screen of the course has a title like ( Lesson 1: a line of Forth )")
    return lessons


def after(front: str, said: str) -> str:
    """A text without this at its beginning."""
    return said[len(front) :] if said.startswith(front) else said


def read(line: str) -> Tuple[Lesson, Result]:
    """A line that `forth83 judge` prints."""
    number, screen, title, mark, word, text = line.split("\t")
    return Lesson(int(number), title, int(screen)), Result(mark, word, text)


def plain(path: pathlib.Path, made: pathlib.Path) -> pathlib.Path:
    """A file that `forth83` reads: this one, or the disk of a session that the page saved."""
    with path.open("rb") as file:
        if file.read(64).lstrip()[:1] != b"{":
            return path
    try:
        kept = json.loads(path.read_text("utf-8"))
        made.write_bytes(base64.b64decode(kept["disk"], validate=True) if kept["format"] == "forth83" else b"")
    except (ValueError, KeyError, TypeError, RecursionError, binascii.Error) as error:
        raise program.Refusal("it is neither blocks, a text of screens, nor a session that the page saved") from error
    return made


def blocks_of(forth83: program.Program, course: pathlib.Path, room: pathlib.Path) -> pathlib.Path:
    """A course as a file of blocks, which are made if it is a text of screens."""
    made = room / "course.blk"
    blocks = plain(course, made)
    if blocks == made or not forth83.text(["headings", "--", course]):
        return blocks
    done = subprocess.run([program.ROOT / "commands/blocks", course, made], stdout=subprocess.PIPE, stderr=subprocess.PIPE, check=False)
    if done.returncode:
        raise program.Refusal(after("forth: ", program.said_by(done)))
    return made


def named(paths: List[pathlib.Path]) -> List[Tuple[str, pathlib.Path]]:
    """Each file with the name of its pupil: its own, or, if several files have that one, with the folder's."""
    stems = [path.stem for path in paths]
    return [(stem if stems.count(stem) == 1 else str(path.parent / stem), path) for stem, path in zip(stems, paths)]
