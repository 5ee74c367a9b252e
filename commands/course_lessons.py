"""The lessons of the course, as screens/course/lessons.txt has them, whose first lines say how it is written; a lesson's title is that of the pupil's
screen. And the text of a course, docs/COURSE.md, as HTML."""
import html
import pathlib
import re
from typing import Callable, Dict, List, NamedTuple, Tuple

COURSE = pathlib.Path(__file__).resolve().parent.parent / "screens/course"
FIRST = 20  # the screen of lesson N is so many further, and its checker as many after that
PART = re.compile(r"^% (.*)\n((?:(?!% ).*\n)*)", re.M)
FACTS = ("minutes", "new", "often wrong")
FACT = re.compile(rf"^({'|'.join(FACTS)}|hint): (.+)")
ANSWER = re.compile(r"(right|wrong)( alone)?: (.+)")


class Malformed(Exception):
    """What is not written as the file's first lines say."""


class Answer(NamedTuple):
    """What someone writes into a lesson's screen, whether it is right, and what is wrong or different."""

    is_right: bool
    title: str
    lines: List[str]


class Lesson(NamedTuple):
    """A lesson: what a teacher knows of it, by names; the hints; the lines of the solved screen; and answers."""

    number: int
    facts: Dict[str, str]
    hints: List[str]
    solution: List[str]
    answers: List[Answer]


def parts(text: str, heading: str) -> Dict[int, List[str]]:
    """The lines below each heading with a number."""
    return {int(head[len(heading) :]): body.splitlines() for head, body in PART.findall(text) if head.startswith(heading)}


def read() -> List[Lesson]:
    """The lessons, in the order of their numbers."""
    screens = parts((COURSE / "course.txt").read_text(encoding="utf-8"), "screen ")
    made: List[Lesson] = []
    for head, body in PART.findall((COURSE / "lessons.txt").read_text(encoding="utf-8")):
        lines = [line for line in body.splitlines() if line]
        answer = ANSWER.fullmatch(head)
        if head == f"lesson {len(made)}":
            made.append(lesson_of(len(made), lines))
        elif head == "solution" and made:
            made[-1].solution.extend([screens[FIRST + made[-1].number][0], *lines])
        elif answer and made and made[-1].solution:
            before = [] if answer[2] else made[-1].solution[1:]
            made[-1].answers.append(Answer(answer[1] == "right", answer[3], ["( An answer )", *before, *lines]))
        else:
            raise Malformed(f"screens/course/lessons.txt, after lesson {len(made) - 1}: % {head}")
    return made


def lesson_of(number: int, lines: List[str]) -> Lesson:
    """A lesson with what the lines below its heading say."""
    pairs = [FACT.findall(line) for line in lines]
    facts, hints = {name: said for pair in pairs for name, said in pair}, [said for pair in pairs for name, said in pair if name == "hint"]
    if not all(pairs) or not facts.keys() >= set(FACTS):
        raise Malformed(f"screens/course/lessons.txt, lesson {number}: each line begins with minutes:, new:, often wrong: or hint:, and the first three are needed")
    return Lesson(number, facts, hints, [], [])


def pages(text: str) -> List[Tuple[int, str, str]]:
    """The lessons of docs/COURSE.md: of each its number, its title, which begins with that, and its text."""
    return [(int(number), title, body) for title, number, body in re.findall(r"^## ((\d+)\. .*)\n((?:(?!## ).*\n)*)", text, re.M)]


def inline(text: str) -> str:
    """A paragraph as HTML: code, strong text, and of links their words."""
    text = re.sub(r"`([^`]+)`", r"<code>\1</code>", html.escape(text, quote=False))
    text = re.sub(r"\[([^]]+)\]\([^)]*\)", r"\1", text)
    return re.sub(r"\*\*([^*]+)\*\*", r"<strong>\1</strong>", text)


def html_of(body: str, session: Callable[[str], str], paragraph: Callable[[str], str] = str) -> str:
    """A lesson's text as HTML: its sessions, and its paragraphs, as the two calls change them."""
    made = []
    for at, piece in enumerate(re.split(r"^```\n", body, flags=re.M)):
        paragraphs = [] if at % 2 else [paragraph(one) for one in re.split(r"\n\s*\n", piece) if one.strip()]
        made += [session(piece.rstrip())] if at % 2 else [f"<p>{inline(' '.join(one.split()))}</p>" for one in paragraphs if one.strip()]
    return "".join(made)
