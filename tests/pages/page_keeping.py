"""Nothing is lost: random acts at the page, in Chromium, Firefox and WebKit, against a model of the disks that each must leave; of all disks the
bytes are compared after each act."""
import base64
import json
import pathlib
import random
import re
import time
import zlib
from typing import Any, Callable, Dict, List, NamedTuple, Optional, Tuple

import editions
from page_steps import ACTS
from tally import Tally

BLOCK, LINES, WIDTH, MOST_DISKS = 1024, 16, 64, 40
ANSWERS = ("both", "replace", "cancel")

READY = "window.page && window.page.isOpen && !window.page.session.isRunning && !document.getElementById('ask').open"


class State(NamedTuple):
    """What Undo brings back: the disks by their names, which one is in, and the drafts."""

    disks: Dict[str, bytes]
    current: str
    drafts: Dict[Tuple[str, int], Tuple[List[str], List[str]]]


class Person:
    """The work of a person, as it must be."""

    def __init__(self) -> None:
        self.disks: Dict[str, bytes] = {}
        self.current = "forth.blk"
        self.drafts: Dict[Tuple[str, int], Tuple[List[str], List[str]]] = {}
        self.bases: Dict[str, bytes] = {}
        self.undos: List[State] = []
        self.redos: List[State] = []


def page_of(disk: bytes, block: int) -> bytes:
    return disk[block * BLOCK : (block + 1) * BLOCK]


def with_page(disk: bytes, block: int, page: bytes) -> bytes:
    return disk[: block * BLOCK] + page + disk[(block + 1) * BLOCK :]


def is_text(page: bytes) -> bool:
    return all(byte == 0 or 32 <= byte < 127 for byte in page)


def lines_of(page: bytes) -> List[str]:
    return [page[at : at + WIDTH].decode("ascii").replace("\0", " ").rstrip(" ") for at in range(0, BLOCK, WIDTH)]


def with_line(page: bytes, line: int, text: str) -> bytes:
    return page[: line * WIDTH] + text.encode("ascii").ljust(WIDTH) + page[(line + 1) * WIDTH :]


class Model:
    """All that the page must have. `built_in` are the page's disks by their names, which an update changes."""

    def __init__(self, built_in: Dict[str, bytes]) -> None:
        self.built_in, self.people, self.name = built_in, {"": Person()}, ""

    @property
    def me(self) -> Person:
        return self.people[self.name]

    def disk(self, name: str) -> bytes:
        """A disk, which may be one of the page's that nobody touched."""
        me = self.me
        if name not in me.disks:
            me.disks[name] = me.bases[name] = self.built_in[name]
        return me.disks[name]

    def names(self) -> List[str]:
        return sorted({*self.me.disks, *self.built_in})

    def free(self, name: str) -> str:
        stem, ending = name.rsplit(".", 1)
        return next(one for one in (f"{stem} {number}.{ending}" for number in range(2, 999)) if one not in self.names())

    def state(self) -> State:
        return State(dict(self.me.disks), self.me.current, dict(self.me.drafts))

    def remember(self) -> None:
        self.me.undos.append(self.state())
        self.me.redos.clear()

    def back(self, source: List[State], target: List[State]) -> None:
        if source:
            target.append(self.state())
            state = source.pop()
            self.me.disks, self.me.current, self.me.drafts = dict(state.disks), state.current, dict(state.drafts)

    def put(self, name: str, content: bytes) -> None:
        """Another disk is in, under this name."""
        self.remember()
        self.me.disks[name] = content
        self.me.current = name

    def insert(self, name: str, content: bytes, answer: str) -> None:
        """A new disk comes in; the answer counts if another one has its name."""
        known = self.disk(name) if name in self.names() else None
        if known == content:
            if self.me.current != name:
                self.put(name, content)
        elif known is None or (name in self.built_in and known == self.built_in[name]) or answer == "replace":
            self.put(name, content)
        elif answer == "both":
            self.put(self.free(name), content)

    def move_drafts(self, old: str, new: Optional[str]) -> None:
        for (name, block), draft in list(self.me.drafts.items()):
            if name == old:
                del self.me.drafts[name, block]
                if new:
                    self.me.drafts[new, block] = draft

    def shown(self, block: int) -> List[str]:
        """The lines in the frame."""
        draft = self.me.drafts.get((self.me.current, block))
        return draft[0] if draft else lines_of(page_of(self.disk(self.me.current), block))

    def edit(self, block: int, lines: List[str]) -> None:
        """These lines are in the frame now."""
        self.remember()
        name, page = self.me.current, page_of(self.disk(self.me.current), block)
        draft = self.me.drafts.pop((name, block), None)
        before, fitting = draft[1] if draft else lines_of(page), list(lines)
        while len(fitting) > LINES and not fitting[-1]:
            fitting.pop()
        if len(fitting) > LINES or any(len(one.rstrip()) > WIDTH for one in fitting):
            self.me.drafts[name, block] = (lines, before)
            return
        for at, one in enumerate(fitting + [""] * (LINES - len(fitting))):
            if one.rstrip() != before[at]:
                page = with_line(page, at, one.rstrip())
        self.me.disks[name] = with_page(self.disk(name), block, page)

    def blank_from(self, block: int) -> int:
        """The next blank screen of the disk that is in, or after its end."""
        disk, name = self.disk(self.me.current), self.me.current
        while (name, block) in self.me.drafts or page_of(disk, block).strip(b" \0"):
            block += 1
        return block

    def move(self, old: int, new: int) -> None:
        """A screen of the disk that is in gets another number."""
        self.remember()
        name, me = self.me.current, self.me
        disk = self.disk(name).ljust((max(old, new) + 1) * BLOCK)
        order = list(range(len(disk) // BLOCK))
        order.insert(new, order.pop(old))
        me.disks[name] = b"".join(page_of(disk, block) for block in order)
        for place in [one for one in me.drafts if one[0] == name and one[1] < len(order)]:
            me.drafts[name, -1 - order.index(place[1])] = me.drafts.pop(place)
        for place in [one for one in me.drafts if one[1] < 0]:
            me.drafts[name, -1 - place[1]] = me.drafts.pop(place)

    def replace_all(self, wanted: "re.Pattern[str]", instead: str) -> None:
        """A text in place of another, in all lines of the disk that is in where it fits."""
        disk = old = self.disk(self.me.current)
        for block in range(len(disk) // BLOCK):
            page = page_of(disk, block)
            for line, text in enumerate(lines_of(page) if is_text(page) and (self.me.current, block) not in self.me.drafts else []):
                made = wanted.sub(lambda _: instead, text).rstrip()
                if made != text and len(made) <= WIDTH:
                    disk = with_page(disk, block, with_line(page_of(disk, block), line, made))
        if disk != old:
            self.remember()
            self.me.disks[self.me.current] = disk

    def replace(self, block: int, wanted: "re.Pattern[str]", instead: str) -> None:
        """The next place of a text, from the beginning of a screen on."""
        disk = self.disk(self.me.current)
        count = len(disk) // BLOCK
        for number in (at % count for at in range(block, block + count)):
            if not is_text(page_of(disk, number)):
                continue
            lines = list(self.shown(number))
            for line, text in enumerate(lines):
                if wanted.search(text):
                    lines[line] = wanted.sub(lambda _: instead, text, count=1)
                    return self.edit(number, lines)

    def renewed(self) -> None:
        """The work is opened by a page with other editions of its disks."""
        me = self.me
        for name in sorted(set(me.bases) & set(me.disks) & set(self.built_in)):
            base, mine, theirs = me.bases[name], me.disks[name], self.built_in[name]
            if base == theirs:
                continue
            changed = [at for at in range(len(mine) // BLOCK) if at * BLOCK >= len(base) or page_of(mine, at) != page_of(base, at)]
            if any(page_of(theirs, at) not in (b"", page_of(base, at), page_of(mine, at)) for at in changed):
                me.disks[self.free(name)] = mine
            made = theirs + mine[len(theirs) :]
            for at in changed:
                made = with_page(made, at, page_of(mine, at))
            me.disks[name], me.bases[name] = made, theirs


class Keeping:
    """A run of random acts in a browser."""

    def __init__(self, browser: Any, page: pathlib.Path, room: pathlib.Path, seed: int, cases: Tally) -> None:
        self.browser, self.dice, self.cases, self.source = browser, random.Random(seed), cases, page
        self.page, self.editions, self.refused, self.saved = room / "page.html", [page], False, []  # type: ignore
        for number in (1, 2):
            self.editions.append(room / f"edition{number}.html")
            editions.other_edition(page, self.editions[-1], number)
        self.edition = 0
        self.log: List[str] = []
        self.page.write_bytes(page.read_bytes())
        self.start()
        self.model = Model(self.built_in())

    # Opening the page.

    def wait(self, what: str) -> None:
        until = time.monotonic() + 30
        while not self.browser.value(what):
            if time.monotonic() > until:
                raise RuntimeError(f"this didn't come true: {what}")
            time.sleep(0.01)

    def start(self, answer: str = "Keep the old one") -> None:
        self.browser.open(self.page)
        self.wait("!!(window.page && window.page.isOpen)")
        self.browser.value(
            f"[...document.querySelectorAll('#ask-answers button')].filter((one) => document.getElementById('ask').open && "
            f"one.textContent === {json.dumps(answer)}).forEach((one) => one.click()), 0"
        )
        self.wait(READY)
        self.browser.value(f"{ACTS}, 0")

    def built_in(self) -> Dict[str, bytes]:
        """The page's disks, as no work has changed them: read from the page's data, and not from the work."""
        data = editions.unpacked(self.editions[self.edition].read_text(encoding="utf-8"))
        return {name: disk_of(one) for name, one in data["disks"].items()}

    def act(self, name: str, *words: object, answers: Tuple[str, ...] = ()) -> Dict[str, Any]:
        given = ", ".join(json.dumps(word) for word in (name, *words))
        return self.browser.value(f"(window.trial.answer(...{json.dumps(answers)}), window.trial.act({given}))")

    # The acts.

    def content(self) -> bytes:
        """The bytes of a small disk: text, and sometimes bytes that are none."""
        lines = [self.dice.choice(("", "( a line )", f": W{self.dice.randrange(99)} {self.dice.randrange(9999)} ;")).encode().ljust(WIDTH) for _ in range(LINES * 4)]
        return b"".join(lines)

    def name(self) -> str:
        return self.dice.choice(("mine.blk", "other.blk", "kiln.blk", "course.blk", "new.blk"))

    def type(self) -> Any:
        block, line, text = self.dice.randrange(1, 4), self.dice.randrange(LINES), f"( typed {self.dice.randrange(9999)} )"
        flush = self.dice.choice(("", " FLUSH"))
        self.model.remember()
        name = self.model.me.current
        disk = self.model.disk(name)
        if flush:
            self.model.me.disks[name] = with_page(disk, block, with_line(page_of(disk, block), line, text))
            return self.act("type", f"{block} SCR ! {line} PUT {text}") and self.later("FLUSH")
        self.model.me.disks[name] = with_page(disk, block, with_line(page_of(disk, block), line, text))
        return self.act("type", f"{block} SCR ! {line} PUT {text}")

    def later(self, line: str) -> Any:
        self.model.remember()
        return self.act("type", line)

    def define(self) -> Any:
        return self.later(f": W{self.dice.randrange(9)} {self.dice.randrange(999)} ;")

    def edit(self) -> Any:
        block, line = self.dice.randrange(1, 4), self.dice.randrange(LINES)
        text = self.dice.choice((f"( edited {self.dice.randrange(9999)} )", "", f"( long {self.dice.randrange(9999)} )".ljust(self.dice.randrange(65, 80), "x")))
        shown = self.model.shown(block)
        if text == shown[line]:
            text += "+"
        self.model.edit(block, [*shown[:line], text, *shown[line + 1 :]])
        return self.act("edit", block, "\n".join(shown), line, text)

    def line_key(self) -> Any:
        """The key that deletes a line, or duplicates it."""
        block, line, key = self.dice.randrange(1, 4), self.dice.randrange(LINES), self.dice.choice("KD")
        shown = self.model.shown(block)
        self.model.edit(block, [*shown[:line], *([shown[line]] * 2 if key == "D" else []), *shown[line + 1 :]])
        return self.act("lineKey", block, "\n".join(shown), line, key)

    def arrange(self) -> Any:
        """A blank screen is put in, or a screen is moved; none goes beyond the ends of the disk."""
        block, last = self.dice.randrange(4), len(self.model.disk(self.model.me.current)) // BLOCK - 1
        button, target = self.dice.choice((("insert", block), ("earlier", block - 1), ("later", block + 1), ("move", self.dice.choice((0, 2, 30, last, last + 1)))))
        old = self.model.blank_from(block) if button == "insert" else block
        if old != target and (button == "insert" or 0 <= target <= last):
            self.model.move(old, target)
        return self.act("arrange", block, f"screen-{button}", answers=(str(target),) if button == "move" else ())

    def replace(self) -> Any:
        """The next place of a text is replaced, or all of them."""
        block, text, instead = self.dice.randrange(4), self.dice.choice(("EDITED", "a line", "(", "W", "x")), self.dice.choice(("", "other", "a text as long as others"))
        is_whole, is_all = self.dice.random() < 0.5, self.dice.random() < 0.5
        wanted = re.compile(rf"(?:^|(?<= )){re.escape(text)}(?= |$)" if is_whole else re.escape(text), re.IGNORECASE)
        if not is_all:
            self.model.replace(block, wanted, instead)
            return self.act("replace", block, text, instead, is_whole, "screen-next", "screen-replace")
        answer = self.dice.choice(("replace", "cancel"))
        if answer == "replace":
            self.model.replace_all(wanted, instead)
        return self.act("replace", block, text, instead, is_whole, "screen-all", answers=(answer,))

    def create(self) -> Any:
        name, answer = self.name(), self.dice.choice(ANSWERS)
        self.model.insert(name, b" " * 64 * BLOCK, answer)
        return self.act("create", answers=(name, answer))

    def open(self, how: str = "open") -> Any:
        files = [(self.name(), self.content()) for _ in range(self.dice.choice((1, 1, 2)))]
        answers = []
        for name, content in files:
            known = self.model.disk(name) if name in self.model.names() else None
            answer = self.dice.choice(ANSWERS)
            is_asked = known not in (None, content) and not (name in self.model.built_in and known == self.model.built_in[name])
            answers += [answer] if is_asked else []
            self.model.insert(name, content, answer)
        return self.act(how, *[[name, base64.b64encode(content).decode()] for name, content in files], answers=tuple(answers))

    def drop(self) -> Any:
        return self.open("drop")

    def merge(self) -> Any:
        """A text of screens onto the disk."""
        screens = {self.dice.randrange(1, 80): f"( of a text {self.dice.randrange(9999)} )" for _ in range(2)}
        answer, name = self.dice.choice(("replace", "cancel")), self.model.me.current
        disk = self.model.disk(name)
        pages = {block: with_line(b" " * BLOCK, 0, text) for block, text in screens.items()}
        is_asked = any("".join(lines_of(page_of(disk, block))) and page_of(disk, block) != page for block, page in pages.items() if block * BLOCK < len(disk))
        if not is_asked or answer == "replace":
            disk = disk.ljust((max(screens) + 1) * BLOCK)
            for block, page in pages.items():
                disk = with_page(disk, block, page)
            self.model.put(name, disk)
        text = "".join(f"% screen {block}\n{line}\n" for block, line in screens.items())
        return self.act("open", ["screens.txt", base64.b64encode(text.encode()).decode()], answers=(answer,))

    def save(self) -> Any:
        """A whole work as a file, for `adopt`; all that it has is as in the model."""
        text = self.browser.value("window.page.work.whole().then((one) => JSON.stringify({ ...one, texts: [] }))")
        whole = json.loads(text)
        found = {**whole["disks"], whole["name"]: whole["disk"]}
        for name, content in found.items():
            self.cases.must(base64.b64decode(content) == self.model.disk(name), f"{name} in a saved session")
        self.saved = [(text, found, dict(self.model.me.drafts))]
        return self.act("keep")

    def adopt(self) -> Any:
        """Opens a whole session."""
        if not self.saved:
            return self.save()
        (text, found, drafts), answer, model = self.saved[0], self.dice.choice(ANSWERS), self.model
        given = {name: base64.b64decode(content) for name, content in found.items()}
        others = [name for name, content in given.items() if name in model.names() and model.disk(name) != content]
        if answer != "cancel":
            model.remember()
            for name, content in given.items():
                target = model.free(name) if name in others and answer == "both" else name
                if name in others or name not in model.names():
                    model.me.disks[target] = content
                model.me.drafts.update({(target, block): draft for (disk, block), draft in drafts.items() if disk == name})
                last = target
            model.me.current = last
        return self.act("open", ["all.forth", base64.b64encode(text.encode()).decode()], answers=(answer if others or answer == "cancel" else "open",))

    def rename(self) -> Any:
        old, new, model = self.model.me.current, self.name(), self.model
        if new not in model.names():
            model.remember()
            model.me.disks[new] = model.disk(old)
            del model.me.disks[old]
            model.me.current = new
            model.move_drafts(old, new)
        return self.act("rename", answers=(new,))

    def remove(self, answer: str = "") -> Any:
        name, answer, model = self.model.me.current, answer or self.dice.choice(("it", "cancel")), self.model
        if answer == "it":
            model.remember()
            model.me.disks.pop(name, None)
            model.move_drafts(name, None)
            model.me.current = name if name in model.built_in else "forth.blk"
        return self.act("remove", answers=(answer,))

    def tidy(self) -> Any:
        """Puts in a disk that the page does not bring, and removes it: to look at all bytes takes longer with each disk."""
        self.put_in(self.dice.choice([name for name in self.model.names() if name not in self.model.built_in]))
        return self.remove("it")

    def put_in(self, name: str = "") -> Any:
        name = name or self.dice.choice([name for name in self.model.names() if not name.startswith("dialect")])
        if name != self.model.me.current:
            self.model.put(name, self.model.disk(name))
        return self.act("putIn", name)

    def undo(self) -> Any:
        self.model.back(self.model.me.undos, self.model.me.redos)
        return self.act("undo")

    def redo(self) -> Any:
        self.model.back(self.model.me.redos, self.model.me.undos)
        return self.act("redo")

    def fresh(self, answer: str = "Keep the old one") -> Any:
        """After a reload there is nothing to undo. Whose work was open is a setting, which the browser may have refused."""
        self.refused = False
        self.start(answer)
        self.model.name = self.browser.value("window.page.work.name")
        self.model.renewed()
        sums = self.act("keep")
        self.model.me.undos = [self.model.state()] * sums["undos"]
        self.model.me.redos = []
        return sums

    def reload(self) -> Any:
        """A reload; what the database refuses is then in the browser's smaller place, as far as that has room."""
        if self.refused and not self.browser.value("window.page.work.keepAtOnce() && !window.page.work.left.size"):
            self.refuse()
        return self.fresh()

    def crash(self) -> Any:
        """The browser is killed, a moment after the last act."""
        if self.refused:
            self.refuse()
        self.act("keep")
        self.browser.kill()
        self.browser.start()
        return self.fresh()

    def second(self) -> Any:
        """A second window: the first one is only shown then, and can't change anything."""
        first, kind = self.browser.target, self.dice.choice(("open", "create", "undo", "edit", "type", "arrange", "lineKey", "replace"))
        if self.refused:
            self.refuse()
        second, name = self.browser.window(), self.model.name
        sums = self.fresh()
        # The browser may have refused to keep whose work was open: then each window has its own.
        if self.model.name == name:
            self.browser.window(first)
            self.wait("!window.page.work.isOurs")
            is_closed = "document.getElementById('line').disabled && document.getElementById('screen-text').readOnly"
            self.cases.must(self.browser.value(is_closed), "the older of two windows takes lines")
            words = {
                "open": (["mine.blk", base64.b64encode(self.content()).decode()],),
                "edit": (1, "\n".join(self.model.shown(1)), 0, "( of the older )"),
                "arrange": (1, "screen-later"),
                "lineKey": (1, "\n".join(self.model.shown(1)), 0, "K"),
                "replace": (1, "a", "b", False, "screen-all"),
                "type": ("1 SCR ! 0 PUT ( of the older ) FLUSH",),
            }.get(kind, ())
            self.act(kind, *words, answers=("mine.blk", "replace"))
            self.act("keep")
            self.browser.window(second)
        self.browser.close(first)
        return sums

    def refuse(self) -> Any:
        self.refused = not self.refused
        return self.act("refuse", self.refused)

    def update(self) -> Any:
        """Another page of the same name."""
        if self.refused:
            self.refuse()
        self.edition = self.dice.randrange(3)
        self.page.write_bytes(self.editions[self.edition].read_bytes())
        self.model.built_in = self.built_in()
        return self.fresh(self.dice.choice(("Keep the old one", "Take the new Forth")))

    def person(self) -> Any:
        self.model.name = self.dice.choice(("", "Ann"))
        is_other = self.browser.value("window.page.work.name") != self.model.name
        self.model.people.setdefault(self.model.name, Person())
        self.model.renewed()
        sums = self.act("person", self.model.name) if is_other else self.act("keep")
        if is_other:
            self.model.me.undos, self.model.me.redos = [], []
        return sums

    # The run.

    def check(self, what: str, sums: Dict[str, Any]) -> bool:
        """Each disk of the page has the bytes of the model, and none is missing."""
        me, wrong = self.model.me, []
        if sums["current"] != me.current:
            wrong.append(f"{sums['current']} is in, and not {me.current}")
        for name, (count, crc) in sums["found"].items():
            content = me.disks.get(name, self.model.built_in.get(name))
            if content is None:
                wrong.append(f"{name} should not be here")
            elif (len(content) // BLOCK, zlib.crc32(content)) != (count, crc):
                wrong.append(f"{name} has other bytes")
        gone = [name for name in me.disks if name not in sums["found"] and me.disks[name] != self.model.built_in.get(name)]
        if gone or wrong:
            wrong += [f"{name} is gone" for name in gone]
        if sums["drafts"] != len(me.drafts):
            wrong.append(f"{sums['drafts']} drafts, and not {len(me.drafts)}")
        if (sums["undos"], sums["redos"]) != (len(me.undos), len(me.redos)):
            wrong.append(f"{sums['undos']} to undo and {sums['redos']} to redo, and not {len(me.undos)} and {len(me.redos)}")
        return self.cases.must(not wrong, f"after {what}: {'; '.join(wrong)}\n  before: {', '.join(self.log[-8:])}")

    def run(self, count: int) -> Dict[str, int]:
        """So many acts; how often each was done."""
        kinds: List[Tuple[Callable[[], Any], int]] = [
            (self.type, 8), (self.define, 2), (self.edit, 14), (self.line_key, 4), (self.arrange, 5), (self.replace, 5),
            (self.create, 4), (self.open, 7), (self.drop, 3), (self.merge, 3), (self.save, 1), (self.adopt, 2),
            (self.rename, 3), (self.remove, 3), (self.put_in, 8), (self.undo, 12), (self.redo, 6), (self.reload, 3), (self.second, 1), (self.refuse, 2),
            (self.update, 1), (self.person, 2)]  # fmt: skip
        acts, weights, done = [kind for kind, _ in kinds], [weight for _, weight in kinds], {}  # type: ignore
        for number in range(count):
            is_crash = number % 250 == 249 and self.browser.keeps_after_crash
            act = self.crash if is_crash else self.tidy if len(self.model.names()) > MOST_DISKS else self.dice.choices(acts, weights)[0]
            name = act.__name__
            done[name] = done.get(name, 0) + 1
            if not self.check(name, act()):
                break
            self.log.append(name)
        return done


def disk_of(one: Dict[str, Any]) -> bytes:
    """A disk of the page's data."""
    if "bytes" in one:
        return base64.b64decode(one["bytes"])
    screens = re.findall(r"(?m)^% screen (\d+)\n((?:(?!% screen ).*\n?)*)", one["text"])
    disk = b" " * BLOCK * max(one["count"], *(int(number) + 1 for number, _ in screens))
    for number, text in screens:
        lines = [re.sub("^%%", "%", line).encode().ljust(WIDTH) for line in text.split("\n")[:LINES]]
        disk = with_page(disk, int(number), b"".join(lines).ljust(BLOCK)[:BLOCK])
    return disk
