"""The page on cases that other hosts have, too: what a session shows, advice, what pupils hand in, containers and texts (tests/cases)."""
import base64
import json
import re
from typing import List, Tuple

import advice_cases
import class_cases
import container_cases
import session_cases
import text_cases
from page_steps import Runner

# What the class list says of a pupil's file, as the cells of its row; and how long the window had no turn meanwhile, in milliseconds.
JUDGED = """(async () => { let last = performance.now(), longest = 0;
  const timer = setInterval(() => { const now = performance.now(); longest = Math.max(longest, now - last); last = now; }, 1);
  const { results = [] } = await page.classList.judged(%s);
  clearInterval(timer);
  return [results.map(({ mark, word, text }) => [`${mark} ${word}`.trim(), text]), longest]; })()"""
MOST_MILLISECONDS = 4000  # without proofs, on a machine that does other work, too; a proved page needs some 100
UNPACKED = """(() => {
  const made = page.oldDisk.forth.unpack(%s, %s);
  return made.wrong ? ["", "", made.wrong] : [String(made.first), toBase64(made.bytes), ""];
})()"""
READ = """(() => {
  const read = page.session.machine.screens(%s);
  return read.cause ? [read.line, read.cause === "BadByte" ? `BadByte ${read.byte}` : read.cause] : read.map(({ block, page: bytes }) => [block, toBase64(bytes)]);
})()"""
# Texts, and whether they begin with a heading.
HEADED = (
    ("% screen 1", True),
    ("\n\n% screen 30 \r\n1\n", True),
    ("% screen 65535\n" + "x" * 70, True),
    ("", False),
    ("\n \n", False),
    ("% screen 03\n", False),
    ("%PDF-1.4\n% screen 1\n", False),
    (": A 1 ;\n% screen 1\n", False),
    ("%% screen 1\n", False),
    ("\x00" * 99, False),
    ("x" * 5000, False),
)


def of_bytes(data: bytes) -> str:
    """An expression for bytes."""
    return f"fromBase64('{base64.b64encode(data).decode()}')"


def check_sessions(runner: Runner) -> None:
    """Lines show what they show at a terminal, and faults are explained as there."""
    runner.value("page.work.insert('t.blk', builtIn('forth.blk').bytes).then(() => (page.session.start(), 0))")
    runner.idle()
    for case in session_cases.cases():
        runner.verb("type", case.line)
        answer = runner.value("page.transcript.answer()")
        shown = answer if case.is_fault else re.sub(r"\s*ok$", "", answer)
        is_so = shown.startswith(case.shown.strip()) if case.is_fault else shown == case.shown.strip()
        runner.cases.must(is_so, f"{case.line}: wanted {case.shown!r}, got {shown!r}")
    advice_cases.try_page(lambda lines: str(runner.value(f"page.session.machine.advise({json.dumps(lines)})")), runner.cases.must)


def check_class(runner: Runner) -> None:
    """The class list says of each file and each answer what the terminal says, and of each lesson that is not right why; and the window has its turn."""

    def row(pupil: class_cases.Pupil) -> List[str]:
        results, longest = runner.value(JUDGED % of_bytes(pupil.data))
        runner.cases.must(all(text for _, text in results), f"{pupil.name}: a lesson without a sentence: {results}")
        runner.cases.must(longest < MOST_MILLISECONDS, f"{pupil.name}: the window has no turn for {longest:.0f} milliseconds")
        return [cell for cell, _ in results]

    class_cases.try_rows(base64.b64decode(runner.value("toBase64(builtIn('course.blk').bytes)")), row, runner.cases.must)


def check_containers(runner: Runner) -> int:
    """Containers and old disks, as the page reads them: how many there are."""

    def asks(options: str, data: bytes) -> Tuple[int, bytes, str]:
        first, blocks, wrong = runner.value(UNPACKED % (of_bytes(data), json.dumps(options)))
        return int(first or "0"), base64.b64decode(blocks), wrong

    return container_cases.try_page(asks, runner.cases.must)


def check_texts(runner: Runner, program: str) -> int:
    """Texts of screens, random ones as the program reads them, and what begins with a heading: how many cases there are."""

    def reads(text: bytes) -> str:
        made = runner.value(READ % of_bytes(text))
        if made and isinstance(made[0], int):
            return f"line {made[0]} {made[1]}"
        return text_cases.answer_of({number: base64.b64decode(page) for number, page in made})

    must = runner.cases.must
    count = text_cases.try_cases("the page", reads, must, text_cases.cases())
    found = json.dumps([[text, is_found] for text, is_found in HEADED])
    must(runner.value(f"{found}.every(([text, isFound]) => isScreens(text) === isFound)"), "which texts begin with a heading")
    text_cases.try_alike(list(text_cases.random_texts(500, 2)), reads, text_cases.by_program(program), must)
    written = "screensOf(textOf(page.session.disk)).screens.every(({ block, page: bytes }) => isSame(bytes, page.session.disk.page(block)))"
    must(runner.value(written), "the text of the page's disk is another disk")
    must(runner.value("linesOf(screensOf('% screen 1\\nÄ ~\\n').screens[0].page)[0]") == "Ä ~", "a letter of another alphabet in a text")
    return count


def check(runner: Runner, program: str) -> int:
    """All of them: how many containers and texts there are."""
    runner.verb("forget")
    check_class(runner)
    count = check_containers(runner) + check_texts(runner, program)
    check_sessions(runner)
    return count
