"""Runs the cases of tests/cases/pages, in a browser or in node; tests/README.md says how they are written."""
import base64
import html.parser
import json
import os
import pathlib
import re
import shlex
import subprocess
import sys
import time
from typing import Any, Callable, Dict, List, NamedTuple, Optional, Tuple

HERE = pathlib.Path(__file__).resolve().parent
ROOT = HERE.parents[1]
sys.path.insert(0, str(ROOT / "commands"))

from served import image as served  # noqa: E402
from tally import Tally  # noqa: E402

CASES = ROOT / "tests/cases/pages"
ACTS = (HERE / "acts.js").read_text(encoding="ascii")
LOOKS = (HERE / "looks.js").read_text(encoding="ascii")
LONGEST = 20  # seconds that a wait takes on a quiet machine
NAME = re.compile(r"<([a-z][a-z0-9-]*)>")
READY = "!!(window.page && window.page.isOpen && (window.page.isKeeping || document.getElementById('ask').open))"
ASKS = "!!window.page && page.isOpen && (page.session.waitsForLine || page.session.waitsForKey)"


def slowness() -> float:
    """How many times longer than on a quiet machine things may take, as other work shares its processors."""
    return max(1.0, os.getloadavg()[0] / (os.cpu_count() or 1))


def tools(room: pathlib.Path, program: pathlib.Path, how: str) -> Dict[str, object]:
    """Commands for cases, in the folder `bin` of the room, and the variables that they have: TREE, in which PROGRAM counts as proved, and SESSION, the image
    of a session."""
    (room / "bin").mkdir()
    page = [sys.executable, "-B", ROOT / "page/make", "--program", program, how]
    commands: Dict[str, List[object]] = {"forth83": [program], "make-page": [*page], "other-edition": [HERE / "editions.py"]}
    for name, words in commands.items():
        (room / "bin" / name).write_text(f'#!/bin/sh\nexec {" ".join(shlex.quote(str(word)) for word in words)} "$@"\n', encoding="utf-8")
        (room / "bin" / name).chmod(0o755)
    subprocess.run([ROOT / "tests/shared/lay-built", program, room / "tree"], check=True)
    session = pathlib.Path(served.find(str(program)), "served.img")
    return {"ROOT": ROOT, "TREE": room / "tree", "SESSION": session, "PATH": f"{room / 'bin'}:{os.environ['PATH']}"}


class Step(NamedTuple):
    """A line of a case: its number, its verb, the words after it, and the lines below it that belong to it."""

    line: int
    verb: str
    words: str
    body: List[str]

    @property
    def text(self) -> str:
        """Its one text: the lines below, or the words."""
        return "\n".join(self.body).rstrip("\n") or self.words

    def parted(self) -> Tuple[str, str]:
        """The first word, which may be in quotes, and the text after it; of an expression that is on the lines below, with its `=` before it."""
        found = re.match(r'("[^"]*"|\S*) *(.*)', self.words, re.S)
        assert found
        text = self._replace(words=found[2]).text
        return found[1].strip('"'), f"= {text}" if found[2] == "=" else text

    def with_names(self, names: Dict[str, str]) -> "Step":
        """With what <NAME> stands for."""

        def put(text: str) -> str:
            return NAME.sub(lambda found: names.get(found[1], found[0]), text)

        return self._replace(words=put(self.words), body=[put(line) for line in self.body])


class Case(NamedTuple):
    """A title, and what is done below it."""

    title: str
    steps: List[Step]


def cases_of(text: str) -> List[Case]:
    """The cases of a file."""
    cases: List[Case] = []
    for number, line in enumerate(text.split("\n"), 1):
        if line.startswith("    ") or not line:
            (cases[-1].steps[-1].body if cases and cases[-1].steps else []).append(line[4:])
        elif line.startswith("  ") and not line.startswith("  #"):
            verb, _, words = line[2:].partition(" ")
            cases[-1].steps.append(Step(number, verb, words.strip(), []))
        elif not line.lstrip().startswith("#"):
            cases.append(Case(line, []))
    return cases


def cells(line: str) -> List[str]:
    return [cell.strip() for cell in f" {line} ".split(" | ")]


def plain(text: str) -> str:
    """A text that is wanted, or typed, in which \\n is the end of a line, and \\x20 a blank at its end."""
    return text.replace("\\n", "\n").replace("\\x20", " ")


def squeezed(text: str) -> str:
    return re.sub(r"\s+", " ", text).strip()


class Texts(html.parser.HTMLParser):
    """The texts of a page's elements of a kind, in their order."""

    def __init__(self, kind: str) -> None:
        super().__init__()
        self.kind, self.found, self.is_in = kind, [], False  # type: ignore

    def handle_starttag(self, tag: str, attrs: List[Tuple[str, Optional[str]]]) -> None:
        if tag == self.kind:
            self.is_in = True
            self.found.append("")

    def handle_endtag(self, tag: str) -> None:
        if tag == self.kind:
            self.is_in = False

    def handle_data(self, data: str) -> None:
        if self.is_in:
            self.found[-1] += data


class Runner:
    """Cases in a browser, or in node. `host` evaluates, opens, presses and writes; `room` has the files, and `paths` is where commands are found."""

    def __init__(self, host: Any, room: pathlib.Path, cases: Tally, **variables: object) -> None:
        self.host, self.room, self.cases, self.page, self.file, self.at = host, room, cases, "", "", ""
        self.variables = {**os.environ, **{name: str(value) for name, value in variables.items()}}
        self.given: Dict[str, str] = {}
        self.names: Dict[str, str] = {}
        self.windows: List[str] = []
        self.got: Any = None
        self.again: Callable[[], Any] = lambda: None
        self.began, self.mark = time.monotonic(), 0

    # Cases.

    def run(self, *files: str) -> None:
        """The cases of these files."""
        for self.file in files:
            self.names = dict(self.given)
            for case in cases_of((CASES / f"{self.file}.txt").read_text(encoding="utf-8")):
                self.try_case(case)

    def try_case(self, case: Case) -> None:
        """A case ends at the first step that fails by itself."""
        try:
            self.run_steps(case.steps, {})
        except (RuntimeError, ValueError, subprocess.SubprocessError, OSError) as error:
            self.cases.fail(f"{self.at}, in {case.title!r}: {error}")

    def run_steps(self, steps: List[Step], row: Dict[str, str]) -> None:
        """The steps; after `each`, those that follow are done once for each of its rows."""
        for place, one in enumerate(steps):
            step = one.with_names({**self.names, **row})
            if step.verb == "each":
                for line in filter(None, step.body):
                    self.run_steps(steps[place + 1 :], {**row, **dict(zip(cells(step.words), cells(line)))})
                return
            self.at = f"{self.file}.txt:{step.line}: {step.verb} {step.text}"
            act = getattr(self, f"do_{step.verb}", None)
            if act is None:
                raise RuntimeError("there is no such verb")
            act(step)

    def verb(self, name: str, words: str = "") -> None:
        """A step by itself."""
        self.at = f"{name} {words}"
        getattr(self, f"do_{name}")(Step(0, name, words, []))

    def must(self, is_so: object) -> None:
        self.cases.must(is_so, f"{self.at}: got {self.got!r}"[:1500])

    def value(self, expression: str) -> Any:
        return self.host.value(expression)

    def subject(self, asks: Callable[[], Any]) -> None:
        """What the next steps look at."""
        self.again, self.got = asks, asks()

    def until(self, is_so: Callable[[], object]) -> bool:
        """Waits until it is so."""
        end = time.monotonic() + LONGEST * slowness()
        while not is_so():
            if time.monotonic() > end:
                return False
            time.sleep(0.02)
        return True

    def idle(self) -> None:
        if not self.until(lambda: self.value(ASKS)):
            raise RuntimeError("the Forth doesn't ask for a line")

    def call(self, verb: str, *words: object) -> Any:
        """A verb of acts.js."""
        return self.value(f"Promise.resolve(window.trial.{verb}({', '.join(json.dumps(word) for word in words)})).then((it) => it ?? 0)")

    # Opening.

    def do_open(self, step: Step) -> None:
        """A file of the room, with a mark after its name."""
        name, mark = step.parted()
        self.host.open(self.room / name, *([mark] if mark else []))
        if self.host.has_looks:
            self.value(LOOKS + ", 0")

    def do_page(self, step: Step) -> None:
        """The page of the Forth that this and the next cases are about."""
        self.page = step.words
        self.do_reload(step)

    def do_reload(self, step: Step) -> None:
        self.do_open(step._replace(words=self.page, body=[]))
        self.got = "the page doesn't start"
        self.must(self.until(lambda: self.value(READY)))
        self.value(f"{ACTS}, 0")
        if not self.value("document.getElementById('ask').open || 0"):
            self.idle()
        self.mark = 0

    def do_forget(self, step: Step) -> None:
        """The page with nothing kept."""
        self.do_reload(step)
        self.value(
            "page.work.isOurs = false, page.work.store.database.close(), localStorage.clear(), "
            "new Promise((done) => { const one = indexedDB.deleteDatabase('forth83'); one.onsuccess = one.onerror = () => done(0) })"
        )
        self.do_reload(step)

    def do_decide(self, step: Step) -> None:
        """Chooses an answer to the question that the page asks at its start."""
        answer = f"[...document.querySelectorAll('#ask-answers button')].find((one) => one.textContent === {json.dumps(step.words)})"
        if not self.until(lambda: self.value("document.getElementById('ask').open")):
            raise RuntimeError("the page asks nothing")
        self.value(f"({answer}.click(), page.idle().then(() => 0))")
        self.idle()

    def do_window(self, step: Step) -> None:
        """Another window: `new`, `first`, or `close`, which leaves the first one alone."""
        if step.words == "new":
            self.windows = [self.host.target, self.host.window()]
        elif step.words == "first":
            self.host.window(self.windows[0])
        else:
            self.host.window(self.windows[0])
            self.host.close(self.windows[1])

    def do_tab(self, step: Step) -> None:
        self.value(f"page.tab({json.dumps(step.words)}), 0")

    def do_go(self, step: Step) -> None:
        """The editor shows a screen."""
        self.value(f"page.tab('screens'), page.editor.go({step.words}), 0")

    def do_put(self, step: Step) -> None:
        """Another disk is put in."""
        self.call("putIn", step.words)
        self.idle()

    def do_person(self, step: Step) -> None:
        """The work of another person; of nobody without a name."""
        self.call("person", step.words)
        self.idle()

    def do_film(self, step: Step) -> None:
        """The film of a line, in the page."""
        self.value(f"page.tab('film'), page.film.isShown = false, page.film.make({json.dumps(step.text)}), 0")
        self.got = "no film is shown"
        self.must(self.until(lambda: self.value("page.film.isShown")))

    # Typing and pressing.

    def noted(self) -> None:
        """What `shown` begins with is shown after this."""
        self.mark, self.began = int(self.value("page.transcript.text().length")), time.monotonic()

    def do_keys(self, step: Step) -> None:
        """What is typed into the line, without its end."""
        self.value("document.getElementById('line').focus(), 0")
        self.host.write(step.text)

    def do_enter(self, step: Step) -> None:
        """A line; nothing waits for its end."""
        self.noted()
        self.do_keys(step)
        self.host.press("Enter")

    def do_type(self, step: Step) -> None:
        """A line; what it shows, from itself on, is what the next steps look at."""
        self.do_enter(step)
        self.idle()
        text = self.value("page.transcript.text()")
        self.got = text[max(0, text.rfind(step.text.strip())) :]

    def do_write(self, step: Step) -> None:
        """Types where the focus is."""
        self.host.write(plain(step.text))

    def do_press(self, step: Step) -> None:
        self.host.press(*step.words.split())

    def do_focus(self, step: Step) -> None:
        self.value(f"document.getElementById('{step.words}').focus(), 0")

    def do_click(self, step: Step) -> None:
        """An element, by its id or by a selector of CSS, as soon as it can be clicked."""
        selector = json.dumps(step.text if re.search(r"[^\w-]", step.text) else f"#{step.text}")
        if not self.until(lambda: self.value(f"!(document.querySelector({selector}) ?? {{ disabled: true }}).disabled")):
            raise RuntimeError("it can't be clicked")
        self.value(f"document.querySelector({selector}).click(), 0")

    def do_choose(self, step: Step) -> None:
        """A control gets this value."""
        self.call("choose", *step.parted())

    def do_frame(self, step: Step) -> None:
        """A text in the frame of the editor, and a pause after it."""
        self.call("frame", plain(step.text))
        self.call("pause")

    def do_pause(self, _: Step) -> None:
        self.call("pause")

    def do_paste(self, step: Step) -> None:
        self.noted()
        self.call("paste", step.text + "\n")
        self.idle()

    def do_answers(self, step: Step) -> None:
        """What the person answers to the next questions, with bars between; after them she cancels."""
        self.call("answer", *filter(None, cells(step.words)))

    # Files.

    def do_file(self, step: Step) -> None:
        """Opens a file as a person does: one of the room, or one with these lines, or with the value of an expression after `=`."""
        self.opened(step, "open")

    def do_drop(self, step: Step) -> None:
        """The same, dropped on the page."""
        self.opened(step, "drop")

    def opened(self, step: Step, how: str) -> None:
        name, text = step.parted()
        self.noted()
        if text.startswith("= "):
            self.value(f"Promise.resolve({text[2:]}).then((it) => page.files.openAll([new File([it], {json.dumps(name)})])).then(() => 0)")
        else:
            content = text.encode() + b"\n" if text else (self.room / name).read_bytes()
            self.call(how, [name, base64.b64encode(content).decode()])
        self.idle()

    def do_given(self, step: Step) -> None:
        """A file in the room, with these lines; or with bytes that are the base64 text after `=`."""
        name, text = step.parted()
        (self.room / name).write_bytes(base64.b64decode(text[2:]) if text.startswith("= ") else text.encode() + b"\n")

    def do_save(self, step: Step) -> None:
        """What a button saves, as a file of the room; its size is looked at."""
        name, button = step.parted()
        content = base64.b64decode(self.call("saved", button))
        self.got = len(content)
        (self.room / name).write_bytes(content)

    def do_downloads(self, step: Step) -> None:
        """Files with these names that the browser saves into the folder downloads, by the buttons below."""
        (self.room / "downloads").mkdir()
        self.host.call("Page.setDownloadBehavior", behavior="allow", downloadPath=str(self.room / "downloads"))
        for button in step.text.split():
            self.do_click(step._replace(words=button, body=[]))
        names = set(step.words.split())
        self.must(self.until(lambda: names <= {one.name for one in (self.room / "downloads").iterdir()}))
        time.sleep(0.2)
        self.got = sorted(one.name for one in (self.room / "downloads").iterdir())
        self.must(set(self.got) == names)

    def do_run(self, step: Step) -> None:
        """A command of bash in the room, which must succeed; what it prints is looked at."""
        self.do_refused(step._replace(words="0 " + step.words))

    def do_refused(self, step: Step) -> None:
        """A command that ends with this status."""
        status, text = step.parted()
        done = subprocess.run(
            ["bash", "-c", text], cwd=self.room, env=self.variables, stdin=subprocess.DEVNULL, stdout=subprocess.PIPE, stderr=subprocess.STDOUT, timeout=LONGEST * 20, check=False
        )
        self.got = done.stdout.decode("utf-8", "replace")
        self.must(done.returncode == int(status))

    # The window.

    def do_size(self, step: Step) -> None:
        self.host.size(*map(int, step.words.split()))

    def do_prefers(self, step: Step) -> None:
        """What the reader prefers: color-scheme=dark reduced-motion=reduce"""
        self.host.prefers(**dict(word.replace("-", "_").split("=") for word in step.words.split()))

    def do_media(self, step: Step) -> None:
        """As it is printed: `media print`."""
        self.host.media(step.words)

    # What is looked at.

    def do_let(self, step: Step) -> None:
        """<NAME> stands for a text, in the rest of the file."""
        name, self.names[name] = step.parted()[0], step.parted()[1]

    def do_keep(self, step: Step) -> None:
        """<NAME> stands for what was looked at."""
        self.names[step.words] = self.got if isinstance(self.got, str) else json.dumps(self.got)

    def do_do(self, step: Step) -> None:
        """Statements of JavaScript."""
        self.value(f"(async () => {{ {step.text} }})().then(() => 0)")

    def do_value(self, step: Step) -> None:
        self.subject(lambda: self.value(step.text))

    def do_text(self, step: Step) -> None:
        """What an element shows."""
        self.subject(lambda: self.value(f"document.getElementById({json.dumps(step.words)}).textContent"))

    def do_shown(self, _: Step) -> None:
        """What was shown since the last line, file or paste."""
        self.subject(lambda: self.value("page.transcript.text()")[self.mark :])

    def do_screen(self, step: Step) -> None:
        """The lines of a screen of the disk that is in."""
        self.subject(lambda: self.call("lines", int(step.words)))

    def do_stack(self, _: Step) -> None:
        self.subject(lambda: self.value("page.session.machine.values.join(' ')"))

    def do_pale(self, _: Step) -> None:
        """Texts that differ too little from their background."""
        self.subject(lambda: self.value("looks.pale()"))

    def do_nameless(self, step: Step) -> None:
        """Elements of these roles that a screen reader finds no name of."""
        self.subject(lambda: self.host.nameless(tuple(step.words.split())))

    def do_pages(self, step: Step) -> None:
        """How many pages of paper it takes."""
        self.host.paper(self.room / "paper.pdf")
        self.got = (self.room / "paper.pdf").read_bytes().count(b"/Type /Page\n")

    def do_heap(self, _: Step) -> None:
        """The bytes of memory that the page's script has."""
        used = self.host.call("Runtime.getHeapUsage")
        self.got = used["usedSize"] + used.get("backingStorageSize", 0)

    def do_texts(self, step: Step) -> None:
        """The texts of a page's elements of a kind, each with the end of a line, as they are in the file."""
        name, kind = step.parted()
        reader = Texts(kind)
        reader.feed((self.room / name).read_text(encoding="utf-8"))
        self.got = "".join(f"{text}\n" for text in reader.found)

    def do_asked(self, _: Step) -> None:
        """What the page has asked the person since `answers`."""
        self.subject(lambda: " / ".join(self.value("trial.asked")))

    # What must be so.

    def wanted(self, step: Step) -> Any:
        return plain(step.text) if isinstance(self.got, str) else json.loads(step.text)

    def do_is(self, step: Step) -> None:
        self.must(self.got == self.wanted(step))

    def do_differs(self, step: Step) -> None:
        self.must(self.got != self.wanted(step))

    def do_becomes(self, step: Step) -> None:
        """It is so after a while."""

        def is_so() -> bool:
            self.got = self.again()
            return bool(self.got == self.wanted(step))

        self.must(self.until(is_so))

    def do_has(self, step: Step) -> None:
        self.must(plain(step.text) in self.got)

    def do_lacks(self, step: Step) -> None:
        self.must(plain(step.text) not in self.got)

    def do_begins(self, step: Step) -> None:
        self.must(self.got.startswith(plain(step.text)))

    def do_ends(self, step: Step) -> None:
        self.must(self.got.endswith(plain(step.text)))

    def do_reads(self, step: Step) -> None:
        """It has these words, however they are on lines."""
        self.must(squeezed(step.text) in squeezed(self.got))

    def do_above(self, step: Step) -> None:
        self.must(self.got > float(step.words))

    def do_below(self, step: Step) -> None:
        self.must(self.got < float(step.words))

    def do_wait(self, step: Step) -> None:
        """Waits until an expression is true."""
        self.got = False
        self.must(self.until(lambda: self.value(step.text)))

    def do_after(self, step: Step) -> None:
        """Goes on after so many seconds."""
        time.sleep(float(step.words))

    def do_within(self, step: Step) -> None:
        """No more seconds than these, on a quiet machine, since the last line, file or paste; or `timed`."""
        self.got = time.monotonic() - self.began
        self.must(self.got < float(step.words) * slowness())

    def do_longer(self, step: Step) -> None:
        self.got = time.monotonic() - self.began
        self.must(self.got > float(step.words))

    def do_timed(self, _: Step) -> None:
        """The time of `within` and `longer` begins."""
        self.began = time.monotonic()

    def do_quiet(self, _: Step) -> None:
        """Nothing went wrong in the page, and it asked nothing of the network; the host's own counts begin again."""
        self.got = [*self.host.errors, *self.host.asked]
        self.must(not self.got)
        self.do_clean(_)

    def do_clean(self, _: Step) -> None:
        """Errors that were wanted are forgotten."""
        self.host.errors.clear()
        self.host.asked.clear()
