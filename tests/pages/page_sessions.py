"""Types the sessions of docs/COURSE.md and examples/README.md at the page, and compares what it shows with these documents."""
import json
import pathlib
import re
from typing import List

import sessions
from page_steps import Runner, squeezed

ROOT = pathlib.Path(__file__).resolve().parents[2]
DOCUMENTS = ("docs/COURSE.md", "examples/README.md")
STARTS = re.compile(r"\./forth( [\w.]+\.blk)?")
# Lines that need a file or an image which commands of the shell have made.
LEFT_OUT = ("1 3 THRU .LOG", "boiler", "1 load")


class Session:
    """A document's session in the page."""

    def __init__(self, runner: Runner, name: str) -> None:
        self.runner, self.name, self.is_typed, self.count = runner, name, True, 0

    def shell(self, line: str) -> None:
        """What a line of the shell means for the page: a disk that is made, or a Forth that starts."""
        made = re.fullmatch(r"\./(?:forth blocks|forth83 screens) ((?:examples|screens)/\S+) (\S+)", line)
        if made:
            text, count = (ROOT / made[1]).read_text(encoding="ascii"), 64 if line.startswith("./forth blocks") else 128
            self.runner.verb("answers", "Replace")
            self.runner.value(f"page.work.insert({json.dumps(made[2])}, diskOfText({json.dumps(made[2])}, {count}, {json.dumps(text)}).bytes).then(() => 0)")
        started = STARTS.fullmatch(line)
        self.is_typed = bool(started)
        if started:
            self.runner.verb("put", (started[1] or "forth.blk").strip())
            self.runner.value("page.session.settle(); page.session.start(); 0")
            self.runner.idle()

    def type(self, step: sessions.Step) -> None:
        """Types a line and its answers, and compares."""
        runner = self.runner
        runner.value(f"page.transcript.clear(); page.enter({json.dumps(step.typed)}); 0")
        runner.idle()
        for answer in re.findall(r".+?\n|.+", step.answers):
            self.answer(answer)
        wanted, got = squeezed("\n".join(step.shown)), squeezed(runner.value("page.transcript.text()")[len(step.typed) :])
        self.count += 1
        is_same = got == wanted or wanted == "compiled"
        if runner.value("!!document.querySelector('#transcript .screen')"):
            # A game that clears the screen: its last board is to be seen.
            is_same = is_same or squeezed(runner.value("[...document.querySelectorAll('#transcript .screen')].pop().textContent")) in wanted
        runner.cases.must(is_same, f"{self.name}, {step.typed!r}: wanted {wanted[:200]!r}, got {got[:200]!r}")

    def answer(self, text: str) -> None:
        """An answer to what a program asks: keys, or a line."""
        keys, line = json.dumps(text), json.dumps(text.rstrip())
        self.runner.value(f"page.session.waitsForKey ? page.session.press([...encode({keys})]) : page.enter({line}); 0")
        self.runner.idle()

    def run(self, steps: List[sessions.Step]) -> None:
        for step in steps:
            if step.at_shell:
                self.shell(step.typed)
            elif self.is_typed and step.typed == "BYE":
                self.runner.value("page.session.settle(); 0")
            elif self.is_typed and step.typed not in LEFT_OUT:
                self.type(step)


def check(runner: Runner) -> int:
    """All documents: how many lines were typed."""
    count = 0
    for name in DOCUMENTS:
        runner.verb("forget")
        session = Session(runner, name)
        session.shell("./forth blocks screens/course/course.txt course.blk")
        session.run(sessions.steps_of((ROOT / name).read_text(encoding="utf-8")))
        count += session.count
    return count
