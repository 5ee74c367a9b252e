"""What pupils hand in, and what comes of it (tests/cases/class_cases.txt): over `./forth class`, the C library and the page."""
import base64
import csv
import ctypes
import io
import json
import os
import pathlib
import re
import subprocess
import sys
from itertools import zip_longest
from typing import Any, Callable, Dict, Iterator, List, NamedTuple, Tuple

import teaching_runs
from tally import Must

ROOT = pathlib.Path(__file__).resolve().parents[2]
sys.path += [str(ROOT / "teaching"), str(ROOT / "commands")]

import course_lessons  # noqa: E402
import judged  # noqa: E402
from served import image as served  # noqa: E402

SIZE, WIDTH = 1024, 64
SECONDS = 30  # of processor time for the whole class: so on an idle machine it takes no longer, even with one processor
NOT_RIGHT = "not right"  # of a screen that destroys the machine's memory: what CHECK does then is not known by hand
Screens = Dict[int, List[str]]


class Pupil(NamedTuple):
    """A file of the class: its name, its bytes, the cells of its row in the table for a spreadsheet, and a piece of the sentence by which it is
    refused, which then has no cells."""

    name: str
    data: bytes
    cells: List[str]
    refused: str = ""

    @property
    def is_blocks(self) -> bool:
        return not self.refused and self.name.endswith(".blk")


def page(lines: List[str]) -> bytes:
    """A screen of these lines."""
    made = [line.encode("utf-8").ljust(WIDTH) for line in lines]
    assert all(len(line) == WIDTH for line in made), lines
    return b"".join(made).ljust(SIZE)


def with_screens(course: bytes, screens: Screens) -> bytes:
    """The course's blocks with other screens."""
    blocks = bytearray(course)
    for number, lines in screens.items():
        blocks[number * SIZE : (number + 1) * SIZE] = page(lines)
    return bytes(blocks)


def solved() -> Screens:
    """The screens of the solutions."""
    return {course_lessons.FIRST + it.number: it.solution for it in course_lessons.read() if it.solution}


LESSONS = len(solved())


def screens_of(text: str) -> Screens:
    """The screens of a case's text, with those of the solutions that it names."""
    made: Screens = {}
    lines: List[str] = []
    for line in text.splitlines():
        if line.startswith("solved "):
            made.update({number: solved()[number] for number in map(int, line.split()[1:])})
        elif line.startswith("% screen "):
            lines = made[int(line.split()[2])] = []
        else:
            lines.append(line)
    return made


def only(cells: Dict[int, str]) -> List[str]:
    """The cells of a row in which all other lessons are empty."""
    return [cells.get(number, "empty") for number in range(1, LESSONS + 1)]


def pupil_of(name: str, wanted: str, text: str, course: bytes) -> Pupil:
    """A case of the file."""
    data = with_screens(course, screens_of(text)) if name.endswith(".blk") else text.encode("utf-8")
    if wanted.startswith("refused: "):
        return Pupil(name, data, [], wanted.partition(": ")[2])
    cells = (cell.strip().partition(" ") for cell in wanted.split(",") if cell.strip())
    return Pupil(name, data, only({int(number): cell for number, _, cell in cells}))


def of_file(course: bytes) -> Iterator[Pupil]:
    """The cases of class_cases.txt."""
    text = (ROOT / "tests/cases/class_cases.txt").read_text(encoding="utf-8")
    for name, wanted, body in re.findall(r"^= (.*?) \|(.*)\n((?:(?!= ).*\n)*)", text, re.M):
        yield pupil_of(name, wanted.strip(), body, course)


def odd_files(course: bytes) -> Iterator[Pupil]:
    """Files of bytes that a text does not show, of other sizes, and sessions as the page saves them."""
    second = with_screens(course, {22: solved()[22]})
    odd = {22: ["\0\1\2" * 20, "\x7f" * 64], 23: [": CUBE DUP DUP * * ; ( ü é 日 )"]}
    session = json.dumps({"format": "forth83", "disk": base64.b64encode(second).decode("ascii")}).encode("ascii")
    yield Pupil("no text.blk", with_screens(course, odd), only({2: "wrong", 3: "missing TWIST"}))
    yield Pupil("short.blk", b" " * 21 * SIZE + page(["7 24 * 60 *", "3 4 + 10 2 - *", "100 7 MOD"]), only({1: "right"}))
    yield Pupil("long.blk", second + b"\xff" * 100 * SIZE, only({2: "right"}))
    yield Pupil("from the page.json", session, only({2: "right"}))
    yield Pupil("half a block.blk", course[:1500], [], "it has 1500 bytes")
    yield Pupil("empty.blk", b"", [], "it is empty")
    yield Pupil("=HYPERLINK(1).blk", b"\x89PNG\r\n\x1a\n" + os.urandom(999), [], "no text of screens")
    yield Pupil("session.json", b'{"format":"forth83","disk":"AAA', [], "nor a session that the page saved")


def pupils(course: bytes) -> List[Pupil]:
    """All files of the class."""
    return [*of_file(course), *odd_files(course)]


def answered(course: bytes) -> Iterator[Tuple[int, course_lessons.Answer, bytes]]:
    """What pupils write (screens/course/lessons.txt), each with its lesson, and as the course's blocks with this answer."""
    for lesson in course_lessons.read():
        for answer in lesson.answers:
            yield lesson.number, answer, with_screens(course, {course_lessons.FIRST + lesson.number: answer.lines})


def compared(cells: List[str], got: List[str]) -> List[str]:
    """What a row has, where a cell that is only not right is so written."""
    return [NOT_RIGHT if wanted == NOT_RIGHT and not one.startswith(("right", "empty")) else one for wanted, one in zip_longest(cells, got, fillvalue="")]


def try_rows(course: bytes, row: Callable[[Pupil], List[str]], must: Must) -> int:
    """All files whose rows `row` gives, and all answers: how many there are."""
    count = 0
    for pupil in pupils(course):
        got = compared(pupil.cells, row(pupil))
        must(got == pupil.cells, f"the row of {pupil.name}: {got}")
        count += 1
    for lesson, answer, data in answered(course):
        got = row(Pupil("answer.blk", data, []))
        others = [cell for number, cell in enumerate(got, 1) if number != lesson and cell != "empty"]
        must(len(got) == LESSONS and not others and (got[lesson - 1] == "right") == answer.is_right, f"lesson {lesson}, {answer.title}: {got}")
        count += 1
    return count


class Library:
    """The call forth83_judge, for one course."""

    def __init__(self, calls: Any, image: bytes, course: bytes) -> None:
        self.calls, self.image, self.course = calls, image, course
        self.texts = judged.TEXTS.read_bytes()

    def judge(self, pupil: bytes, done: Any, room: int, image: bytes) -> Tuple[int, int, bytes]:
        """One call: its status, the size that it says, and the room. DONE has two cells: the next lesson, and how many were stopped."""
        place, size = ctypes.create_string_buffer(b"\x5a" * (room + 1), room + 1), ctypes.c_uint64(7)
        files = [word for data in (image, self.texts, self.course, pupil) for word in (data, ctypes.c_uint64(len(data)))]
        cells = (ctypes.byref(done), ctypes.byref(done, 2))
        status = self.calls.forth83_judge(*files, ctypes.c_uint64(judged.TICKS), *cells, place, ctypes.c_uint64(room), ctypes.byref(size))
        return status, size.value, place.raw[:-1]

    def lines(self, pupil: bytes, room: int = 4096) -> Iterator[str]:
        """A pupil's results, a line a lesson."""
        done, count = (ctypes.c_uint16 * 2)(), 0
        while True:
            status, size, text = self.judge(pupil, done, room, self.image)
            assert status == 0, f"forth83_judge answers {status}"
            count += size > 0
            assert text[size:] == b"\x5a" * (room - size) and done[0] == count, "more was written than the call says"
            if size == 0:
                return
            yield text[:size].decode("utf-8", "replace")

    def row(self, pupil: bytes) -> List[str]:
        """The cells of a pupil's row."""
        return [" ".join(line.split("\t")[3:5]).strip() for line in self.lines(pupil)]


def course_of(program: pathlib.Path, folder: pathlib.Path) -> Tuple[bytes, bytes]:
    """The course's blocks, and an image that has loaded its checkers."""
    blocks, image = folder / "course.blk", folder / "course.img"
    course = ROOT / "screens/course/course.txt"
    for words in (["new", blocks, "64"], ["screens", course, blocks], ["load", "--where", session_image(program), blocks, "1", "1", image]):
        subprocess.run([program, *map(str, words)], check=True, stdout=subprocess.DEVNULL)
    return blocks.read_bytes(), image.read_bytes()


def session_image(program: pathlib.Path) -> pathlib.Path:
    """The image that a session starts with."""
    return pathlib.Path(served.find(str(program)), "served.img")


def printed(program: pathlib.Path, folder: pathlib.Path, pupil: Pupil) -> str:
    """What `judge` prints of a pupil's file."""
    (folder / "pupil.blk").write_bytes(pupil.data)
    words = [folder / "course.img", judged.TEXTS, folder / "course.blk", folder / "pupil.blk"]
    return subprocess.run([program, "judge", *words], check=True, stdout=subprocess.PIPE).stdout.decode("utf-8", "replace")


def try_library(calls: Any, program: pathlib.Path, folder: pathlib.Path, must: Must) -> int:
    """All files that are blocks, and all answers, over the C library, whose lines are those that the program prints; what it refuses: how many were
    tried."""
    course, image = course_of(program, folder)
    library = Library(calls, image, course)
    count = try_rows(course, lambda pupil: library.row(pupil.data) if pupil.is_blocks else pupil.cells, must)
    for pupil in filter(lambda one: one.is_blocks, pupils(course)):
        must("".join(library.lines(pupil.data)) == printed(program, folder, pupil), f"the lines of {pupil.name}")
    for room in (0, 10):
        done = (ctypes.c_uint16 * 2)()
        status, size, text = library.judge(course, done, room, image)
        must(status == 3 and size > room and text == b"\x5a" * room and list(done) == [0, 0], f"a line in a room of {room}: {status} {size} {list(done)}")
        must(library.judge(course, done, size, image)[:2] == (0, size) and list(done) == [1, 0], "a line in a room that is just large enough")
    for wrong, status in ((image[:-1], 4), (image + b"x", 5), (b"X" + image[1:], 6), (image[:8] + b"\xff" + image[9:], 7)):
        done = (ctypes.c_uint16 * 2)()
        must(library.judge(course, done, 99, wrong) == (status, 7, b"\x5a" * 99) and list(done) == [0, 0], f"no image: status {status} is wanted")
    return count


def rows_of(text: str) -> Dict[str, List[str]]:
    """The rows of a table for a spreadsheet, by pupils."""
    return {row[0].lstrip("'"): row[1:] for row in csv.reader(io.StringIO(text))}


def worked() -> float:
    """The processor time of the processes that were started and have ended, in seconds."""
    times = os.times()
    return times.children_user + times.children_system


def check_class(tree: teaching_runs.Tree) -> None:
    """All files give their row, in less than half a minute; the page and the text have the same."""
    room = tree.room / "class of files"
    room.mkdir()
    course = blocks_of_course(tree, room)
    class_of = pupils(course)
    for pupil in class_of:
        (room / pupil.name).write_bytes(pupil.data)
    started = worked()
    files = [str(room / pupil.name) for pupil in class_of]
    words = ["./forth", "class", "--csv", "--seconds", "200", "--html", "class.html", *files, str(room / "nobody.blk"), str(room)]
    done = subprocess.run(words, cwd=tree.room, capture_output=True, check=False)
    took = worked() - started
    tree.cases.same(f"the status of a class with files that cannot be checked: {done.stderr.decode()[-300:]}", 1, done.returncode)
    tree.cases.same(f"a class of {len(files)} files takes {took:.1f} seconds of processor time, less than {SECONDS}", True, took < SECONDS)
    rows = rows_of(done.stdout.decode("utf-8"))
    for pupil in class_of:
        check_row(tree, pupil, rows.get(pathlib.Path(pupil.name).stem, []))
    tree.cases.holds("a file that does not exist", "there is no such file", rows["nobody"][LESSONS + 1])
    tree.cases.holds("a folder", "it is a folder", rows[room.name][LESSONS + 1])
    tree.cases.holds("a name that could be a formula", "'=HYPERLINK(1)", done.stdout.decode("utf-8"))
    check_forms(tree, room, len(class_of))
    check_answers(tree, course)


def blocks_of_course(tree: teaching_runs.Tree, room: pathlib.Path) -> bytes:
    """The course's blocks."""
    tree.run(["./forth", "blocks", "screens/course/course.txt", str(room / "course.blk")])
    course = (room / "course.blk").read_bytes()
    (room / "course.blk").unlink()
    return course


def check_row(tree: teaching_runs.Tree, pupil: Pupil, found: List[str]) -> None:
    """A pupil's row of the table for a spreadsheet."""
    row = compared(pupil.cells, found)
    tree.cases.same(f"the row of {pupil.name}: {row[-1:]}", pupil.cells or [""] * LESSONS, row[:LESSONS])
    if pupil.cells:
        tree.cases.same(f"how many are right of {pupil.name}", str(pupil.cells.count("right")), row[LESSONS])
    else:
        tree.cases.holds(f"why {pupil.name} is not checked", pupil.refused, row[LESSONS + 1])


def check_answers(tree: teaching_runs.Tree, course: bytes) -> None:
    """What pupils write (screens/course/lessons.txt) is right or not in a class, too: the file of pupil N has the Nth answer to each lesson."""
    room, lessons = tree.room / "answers", course_lessons.read()
    room.mkdir()
    for number in range(max(len(lesson.answers) for lesson in lessons)):
        answered_by = {course_lessons.FIRST + it.number: it.answers[number].lines for it in lessons if number < len(it.answers)}
        (room / f"pupil{number}.blk").write_bytes(with_screens(course, answered_by))
    status, said = tree.tool("class", "--csv", *sorted(str(path) for path in room.iterdir()))
    tree.cases.same("the status of a class with an answer to each lesson", 0, status)
    rows = rows_of(said)
    for lesson in lessons:
        for number, answer in enumerate(lesson.answers):
            got = rows[f"pupil{number}"][lesson.number - 1]
            tree.cases.same(f"lesson {lesson.number}, {answer.title}: {got}", answer.is_right, got == "right")


def check_forms(tree: teaching_runs.Tree, room: pathlib.Path, count: int) -> None:
    """The page, the text, and what is the same name in several folders."""
    made = (tree.room / "class.html").read_text(encoding="utf-8")
    tree.cases.same("rows of the page", count + 2, made.count('<th scope="row">'))
    tree.cases.same("a page that loads nothing", (True, False), ("default-src 'none'" in made, "<script" in made))
    tree.cases.holds("a name on the page", "日本太郎", made)
    for name in ("ann", "bea"):
        (tree.room / name).mkdir()
        (tree.room / name / "course.blk").write_bytes((room / "Zoë Müller.blk").read_bytes())
    status, said = tree.tool("class", "ann/course.blk", "bea/course.blk", str(room / "loops at once.blk"))
    tree.cases.same("the status of a class that can be checked", 0, status)
    signs = " ".join(["·", "✓", "✓", *["·"] * (LESSONS - 3)])
    rows = [" ".join(line.split()) for line in said.splitlines()]
    for name in ("ann/course", "bea/course"):
        tree.cases.same(f"the row of {name} in {rows}", True, f"{name} {signs} 2 of {LESSONS}" in rows)
    tree.cases.holds("what is wrong", "1 endless L: Screen 21 never ends: the loop in L goes round more than 33000 times.", said)


def check_course_options(tree: teaching_runs.Tree) -> None:
    """One lesson's hints and solutions at a time, the course's text, and pages of the lessons; names of no lesson are refused."""
    status, said = tree.tool("course", "--solutions", "3")
    tree.cases.same("the solutions of lesson 3", (0, solved()[23]), (status, said.splitlines()))
    status, said = tree.tool("course", "--hints", "7")
    tree.cases.same("the words of the hints of lesson 7", (0, ["DIGITS", "COUNTDOWN"]), (status, [line.split(":")[0] for line in said.splitlines()]))
    tree.cases.same("the course's text", (0, (ROOT / "screens/course/course.txt").read_text(encoding="ascii")), tree.tool("course", "--text"))
    for words, wanted in ((("--hints", "99"), 1), (("--hints", "x"), 1), (("--solutions",), 2), (("--hint", "3"), 2), (("--sheets", "99"), 1)):
        tree.cases.same(f"the status of course {' '.join(words)}", wanted, tree.tool("course", *words)[0])
    status, said = tree.tool("course", "--sheets", "-o", "all.html")
    made = (tree.room / "all.html").read_text(encoding="utf-8")
    tree.cases.same(
        f"pages of all lessons: {said}",
        (0, LESSONS, LESSONS, 16 * LESSONS),
        (status, made.count("<article>"), made.count("Name <span></span> Date <span></span>"), made.count("<tr>")),
    )
    tree.cases.holds("the text of a lesson", "<strong>Exercise</strong>, in screen 28: REVERSED", made)
    # 70 letters; 8 spaces for the tab and 60 letters; 64 bytes, of which 32 are written as ~C3; 70 letters
    (tree.room / "long.txt").write_text(f"% screen 25\n{'x' * 70}\n\t{'x' * 60}\n%~{'a~C3' * 32}\n{'x' * 70}\n", encoding="ascii")
    status, said = tree.tool("blocks", "long.txt", "long.blk")
    tree.cases.same(f"all lines of a text that are too long: {said}", (1, True), (status, "more than 64 bytes: lines 2, 3, 5\n" in said))
    (tree.room / "own.txt").write_text("% screen 25\n( Lesson 5: <own> )\n( write )\n% screen 45\nALL-RIGHT\n", encoding="ascii")
    status, said = tree.tool("course", "--sheets", "--course", "own.txt", "-o", "own.html")
    tree.cases.same(f"a page of one lesson: {said}", (0, 1), (status, (tree.room / "own.html").read_text(encoding="utf-8").count("5. &lt;own&gt;")))
