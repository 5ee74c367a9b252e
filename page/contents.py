"""What the page carries besides the machine: the course's lessons, the manual, and its disks."""
import base64
import hashlib
import html
import pathlib
import re
import sys
import tempfile
from typing import Dict, List, Optional

ROOT = pathlib.Path(__file__).resolve().parent.parent
sys.path[:0] = [str(ROOT / "teaching"), str(ROOT / "commands")]

import canvas  # noqa: E402
import course_lessons  # noqa: E402
import glossary  # noqa: E402
import judged  # noqa: E402
import rows as numbers  # noqa: E402
from served import faults as messages, image, table  # noqa: E402

# Chapters of docs/WORDS.md whose words the page doesn't need: it edits lines and screens itself, and has no host and no files.
CHAPTERS_LEFT_OUT = (
    "Editing the line", "The screen editor", "Starting", "Text files", "Numbers with their base",
)  # fmt: skip
SCREENS, PAGE = 64, 1024
EXAMPLES = ("kiln", "life", "gold", "sieve")
OF_FAULTS = ("own", "large", "unknown", "unquoted", "follows", "quit")  # what the judging of lessons takes, and the session
KERNEL, COURSE = "forth.blk", "course.blk"
TICKS = judged.TICKS  # of one lesson


def button(attribute: str, value: str, text: str) -> str:
    return f'<button type="button" data-{attribute}="{html.escape(value)}">{html.escape(text)}</button>'


def typed(line: str) -> Optional[str]:
    """The button of a line that is typed in a session, or None for one that means nothing in the page: the shell's lines except films,
    BYE, and the loading of the course's disk."""
    film = re.match(r"\$ \./forth film (\S+)(?: '([^']*)')?", line)
    if film:
        return button("film", film[2] or film[1], f"▶ the steps of {film[2] or film[1]}")
    if line.startswith("$ ") or line in ("> BYE", "> 1 LOAD"):
        return None
    if WRITING.match(line):
        return f"<pre>{html.escape('line ' + line[2:].replace(' PUT', ':', 1))}</pre>" if " PUT " in line else None
    return button("line", line[2:], line[2:])


def session(text: str) -> str:
    """A session of the course: what is typed as buttons, and what the Forth shows below each."""
    made, is_shown = [], True
    for line in text.split("\n"):
        if line.startswith(("> ", "$ ")):
            one = typed(line)
            is_shown = one is not None and line.startswith("> ") and not WRITING.match(line)
            made += [one] if one else []
        elif is_shown and line.strip() != "ok":
            made.append(f"<pre>{html.escape(line)}</pre>")
    return f'<div class="typing">{"".join(made)}</div>' if made else ""


# What only holds at a terminal, and what the page has for it.
AT_TERMINAL = (
    (r" \(`21 EDIT` shows it\s+in a frame[^)]*\)", ""),
    (r"`21 SCR !` chooses it,\s+`4 PUT` writes the rest of your line into its line 4, and `21 LIST` shows it\.", "It is below, in the editor: what you write there is kept."),
    (r"\^C", "Esc"),
    (r"`\./forth print[^`]*`\s+makes\s+[^.]*\.", "*Print*, in the tab Disks, prints it."),
    (r"(?s)(?:At a terminal, BYE or|The page of the Forth).*", ""),
)  # fmt: skip
# Lines of sessions that choose, write and show a screen: the page has an editor.
WRITING = re.compile(r"> (?:\d+ SCR !|\d+ PUT .*|\d+ LIST)$")


def for_page(paragraph: str) -> str:
    """A paragraph without what only holds at a terminal."""
    for pattern, other in AT_TERMINAL:
        paragraph = re.sub(pattern.replace(" ", r"\s+"), other, paragraph)  # a line may end between any two words
    return paragraph


def disk_of_lesson(body: str) -> str:
    """The disk that a lesson's first session starts the Forth with."""
    found = re.search(r"^\$ \./forth (\w+\.blk)$", body, re.M)
    return found[1] if found else COURSE


def folded(lines: List[str]) -> str:
    """Hints as HTML, folded until someone wants them."""
    rows = "".join(f"<li>{html.escape(line, quote=False)}</li>" for line in lines)
    return f"<details><summary>Hints</summary><ul>{rows}</ul></details>" if rows else ""


def lessons(text: str, helping: Dict[int, List[str]], before: str = "") -> List[Dict[str, object]]:
    """The course's lessons: of each its number, title, HTML with its hints, and disk, and the pupil's screen, or None for one that
    nothing checks. BEFORE comes before lesson 1."""
    made = []
    for number, title, body in course_lessons.pages(text):
        disk = disk_of_lesson(body)
        made.append(
            {
                "number": number,
                "title": title,
                "disk": disk,
                "screen": course_lessons.FIRST + number if disk == COURSE else None,
                "html": (before if number == 1 else "") + f"<h2>{course_lessons.inline(title)}</h2>" + body_of_lesson(body) + folded(helping.get(number, [])),
            }
        )
    return made


def course() -> List[Dict[str, object]]:
    """The lessons of the course, with their hints."""
    return lessons(text_of("docs/COURSE.md"), {it.number: it.hints for it in course_lessons.read()}, text_of("page/course.html"))


def body_of_lesson(body: str) -> str:
    """A lesson's paragraphs and sessions as HTML."""
    return course_lessons.html_of(body, session, for_page).replace("</pre><pre>", "\n")


def manual() -> List[List[str]]:
    """What is said of each word: its name, stack effect, chapter and description."""
    made = {}
    for word in glossary.read():
        chapter = word.section.partition(". ")[2].partition(":")[0]
        if word.part != glossary.INNER and not chapter.startswith(CHAPTERS_LEFT_OUT):
            made[word.name] = [word.name, word.effect, chapter, course_lessons.inline(word.row().split(" | ", 3)[3][:-2])]
    return list(made.values())


def rows() -> Dict[str, object]:
    """The rows of the machine's table that films know."""
    return {
        "colon": numbers.COLON, "variable": numbers.VARIABLE, "constant": numbers.CONSTANT, "exit": numbers.EXIT, "execute": numbers.EXECUTE,
        "does": numbers.DOES, "clear": numbers.RCLEAR, "do": numbers.DO, "literal": numbers.LITERAL, "compile": numbers.COMPILE,
        "branches": [numbers.BRANCH, numbers.ZERO_BRANCH, numbers.DO, numbers.LOOP, numbers.PLUS_LOOP], "texts": [numbers.TEXT, numbers.REFUSAL],
        "bytes": [numbers.BYTE_FETCH, numbers.BYTE_STORE, numbers.COUNT],
    }  # fmt: skip


def of_forth(layout: Dict[str, object], version: str, made: bytes, images: str, own: Dict[str, str]) -> Dict[str, object]:
    """What a Forth in a page needs, with a person or without: MADE is the image that it runs, IMAGES the folder of those that sessions start with, and OWN
    are texts by their names, beside those that come with the Forth."""
    return {
        "layout": layout, "version": {"text": version, "image": hashlib.sha256(made).hexdigest()}, "rows": rows(), "door": door(),
        "manual": manual(), "system": system(images), "disks": {KERNEL: kernel()}, **texts(own),
    }  # fmt: skip


def texts(own: Dict[str, str]) -> Dict[str, object]:
    """What the terminal says, too: of faults, of words that SEE can't show, and for HELP; and the texts that INCLUDE finds: those that
    come with the Forth, and the page's own."""
    helps = [text for where, text in messages.section("help") if where != "terminal"]
    faults = {name: said for name, said in messages.MESSAGES.items() if name.isdigit() or name in OF_FAULTS}
    sections = {"faults": faults, "see": dict(messages.section("see")), "textCauses": dict(messages.section("texts"))}
    return {**sections, "help": helps, "library": {**library(), **own}}


def library() -> Dict[str, str]:
    """The texts that come with the Forth, with the numbers of the services."""
    return {path.name: image.with_numbers(path.read_text(encoding="utf-8")) for path in pathlib.Path(image.LIBRARY).iterdir()}


def door() -> Dict[str, object]:
    """The services that words ask their host for, and the cells by which they do."""
    return {"names": table.NAMES, "service": table.SERVICE, "first": table.FIRST, "second": table.SECOND, "mark": table.MARK, "host": table.HOST, "own": table.OWN}


def system(images: str) -> Dict[str, List[str]]:
    """The screens of the system's own words, by their numbers, except the kernel's, which are a disk: of each the file that has it, and its lines."""
    return {number: found for number, found in image.system(images).items() if ROOT / found[0] != pathlib.Path(image.KERNEL_TEXT)}


def text_of(name: str) -> str:
    return (ROOT / name).read_text(encoding="utf-8")


def disk_of_text(text: str, count: int = SCREENS) -> Dict[str, object]:
    return {"count": count, "text": text}


def disk_of_blocks(content: bytes, forth83: pathlib.Path) -> Dict[str, object]:
    """A disk of these blocks: as the program's text of its screens, or else, if that is longer, as bytes."""
    with tempfile.TemporaryDirectory() as room:
        blocks, last = pathlib.Path(room, "blocks"), len(content) // PAGE - 1
        blocks.write_bytes(content)
        text = image.run(str(forth83), "text", str(blocks), "0", str(last))
    as_bytes = base64.b64encode(content).decode()
    return disk_of_text(text, last + 1) if len(text) <= len(as_bytes) else {"bytes": as_bytes}


def kernel() -> Dict[str, object]:
    """The disk with the kernel's sources."""
    return disk_of_text(text_of("screens/kernel.txt"))


def disks() -> Dict[str, Dict[str, object]]:
    """The disks of every page: the kernel's sources, the course, examples and dialects."""
    found = {KERNEL: kernel(), COURSE: disk_of_text(text_of("screens/course/course.txt"))}
    found.update({f"{name}.blk": disk_of_text(text_of(f"examples/{name}.txt")) for name in EXAMPLES})
    found["draw.blk"] = disk_of_text(text_of("examples/draw.txt"), canvas.FIRST + canvas.BLOCKS)
    for file in sorted((ROOT / "screens/dialects").glob("*.txt")):
        found[f"dialect {file.stem}.blk"] = disk_of_text(file.read_text(encoding="utf-8"))
    return found


FORMAT = re.compile(r"^\| (`[a-z0-9`, -]+`) \| ([^|]+) \| [\d,]* ?\| [\d,]* ?\| [^|]+ \|$", re.M)


def formats(page: str) -> List[Dict[str, object]]:
    """The formats of containers, as docs/OLD-SOURCES.md has them: names, and what each is."""
    return [{"name": name, "what": re.sub(r"[`*]", "", what.partition(";")[0])} for names, what in FORMAT.findall(page) for name in re.findall(r"`([^`]+)`", names)]
