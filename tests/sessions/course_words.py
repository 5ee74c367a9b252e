"""Which words of the Forth the course's sessions and solutions use before docs/COURSE.md has explained them."""
import pathlib
import re
from typing import Dict, List, Set, Tuple

import course_lessons
from tally import Tally

ROOT = pathlib.Path(__file__).resolve().parents[2]
LAUNCHED = {"LOAD", "CHECK", "SCR", "PUT", "LIST", "EDIT", "BYE"}  # of the editor and the course: in the first pages
BEGINS = {":", "VARIABLE", "CREATE", "TEXT", "UNIT", "COUNTER", "RATE"}  # the next word is a name


def lessons(text: str) -> List[Tuple[int, str]]:
    """The course's lessons, each with its text; the introduction is lesson 0."""
    return [(0, text.partition("\n## ")[0]), *((number, f"{title}\n{body}") for number, title, body in course_lessons.pages(text))]


def named(prose: str) -> Set[str]:
    """The words between backticks."""
    return {word for text in re.findall(r"`([^`\n]*(?:\n[^`\n]*)?)`", prose) for word in text.split()}


def used(code: str) -> Tuple[Set[str], Set[str]]:
    """The words of some lines, and the names that they define. Comments and texts are passed over."""
    plain = re.sub(r'(?<!\S)(\(|\.\() [^)]*\)|(?<!\S)(\.") [^"]*"', r" \2 ", re.sub(r"(?<!\S)TEXT (\S+) [^\n]*\"", r"TEXT \1", code))
    words = plain.split()
    names = {name for word, name in zip(words, words[1:]) if word in BEGINS}
    return {word for word in words if not re.fullmatch(r"-?\d+", word)} - names, names


def unexplained(course: str, solutions: Dict[int, str]) -> List[str]:
    """Each word that is used in a lesson and explained in none up to that one; after the last exercise nothing is checked."""
    known, found = set(LAUNCHED), []
    for number, body in lessons(course):
        if number > max(solutions):
            break
        prose, *blocks = re.split(r"^```\n", body, flags=re.M)
        prose = "".join([prose, *blocks[1::2]])
        typed = [line[2:] for block in blocks[0::2] for line in block.splitlines() if line.startswith("> ")]
        known |= named(prose)
        for code in (*[re.sub(r"^\d+ PUT ", "", line) for line in typed], solutions.get(number, "")):
            words, names = used(code)
            known |= names
            found += [f"lesson {number}: {word}, in {code.strip()[:40]!r}" for word in sorted(words - known)]
    return found


def check_words(cases: Tally, lessons_of: List[course_lessons.Lesson], texts: Dict[int, str]) -> None:
    """Each lesson with a checker has hints, a solution and answers of both kinds; each word that it needs is in its task, in the course's text, in a
    hint, and in the solution; and LESSONS is the last one."""
    course = (course_lessons.COURSE / "course.txt").read_text(encoding="ascii")
    screens = {number: "\n".join(lines) for number, lines in course_lessons.parts(course, "screen ").items()}
    checked = [number - 40 for number in screens if number > 40]
    cases.same("how many lessons CHECK knows", re.findall(r"^(\d+) CONSTANT LESSONS$", course, re.M), [str(checked[-1])])
    cases.same("the lessons in docs/COURSE.md, and those in lessons.txt", list(texts)[: len(lessons_of)], [it.number for it in lessons_of])
    solved = [it for it in lessons_of if it.hints and it.solution and {answer.is_right for answer in it.answers} == {True, False}]
    cases.same("the lessons that have hints, a solution, and answers right and wrong", checked, [it.number for it in solved])
    for lesson in solved:
        places = {"task": screens[20 + lesson.number], "text": texts[lesson.number], "hint": "\n".join(lesson.hints), "solution": "\n".join(lesson.solution)}
        for word in re.findall(r"NEEDS (\S+)", screens[40 + lesson.number]):
            without = [name for name, text in places.items() if word not in re.split(r"[\s,:;(]+", text)]
            cases.same(f"where {word} of lesson {lesson.number} is missing", [], without)


def check(cases: Tally) -> None:
    """Nothing is used before it is explained; and a word that is taken out of the text is found."""
    course, known = (ROOT / "docs/COURSE.md").read_text(encoding="utf-8"), course_lessons.read()
    check_words(cases, known, dict(lessons(course)))
    solutions = {it.number: "\n".join(it.solution) for it in known if it.solution}
    cases.same("words that the course uses before it explains them", [], unexplained(course, solutions))
    without = unexplained(course.replace("`UNTIL`", "UNTIL"), solutions)
    cases.same("a word that isn't explained", True, any(one.startswith("lesson 7: UNTIL") for one in without))
