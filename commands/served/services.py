"""What words of the machine ask their host for: a function for each service of `table`. A function that refuses raises Refusal."""
from __future__ import annotations

import os
import time
from typing import Any, Callable, TYPE_CHECKING, Optional

from served.manual import help_for
from served import bridge, past, reports, words
from served.faults import MISSING, SAID, UNKNOWN, plain, section
from served.prompt import Ended, Interrupted
from served.script import Script
from served.profile import Profile
from served.table import function_name, NAMES, SECOND
from served.target import BLK, BLOCK, CONTEXT, FENCE, SCR, STATE, Target, TO_IN, signed
from served.texts import end_of_comment, EndOf, FIRST as FIRST_TEXT, LONGEST, Skipped, Unreadable
from served.wire import Header, Refused

if TYPE_CHECKING:
    from served.session import Session

LINE = 64
NO_STRUCTURE = {int(cause): text for cause, text in section("see")}  # why the server cannot show a word


# Services that the file of --services registers: each gets the machine, and answers with a fault or 0.
REGISTERED: dict[int, Callable[[Target], int]] = {}


def taken(path: str, name: str) -> Any:
    """What a file of Python has by this name."""
    import runpy

    if not os.path.isfile(path):
        raise Unreadable(f"cannot read {path}: there is no such file")
    try:
        return runpy.run_path(path)[name]
    except Exception as error:  # whatever goes wrong in a file that somebody else wrote
        why = f"it has no {name}" if isinstance(error, KeyError) and error.args == (name,) else f"{type(error).__name__}: {error}"
        raise Unreadable(f"cannot use {path}: {why}") from error


def register(path: str) -> None:
    """Takes the services of a file of Python."""
    REGISTERED.update(taken(path, "SERVICES"))


def register_devices(path: str, places: list[Optional[bridge.Range]]) -> None:
    """Takes the devices of a file of Python for the addresses of a map: they are the ports."""
    devices, named = taken(path, "DEVICES"), [one for one in places if one]
    missing = sorted({one.device for one in named} - set(devices))
    if missing:
        raise Unreadable(f"cannot use {path}: it has no device {', '.join(missing)}, which the map names; DEVICES has a function for each name")

    def asked(address: int, *byte: int) -> int:
        """What the device at an address answers: its byte, or what it says of the byte that it gets."""
        found = next((devices[one.device] for one in named if one.first <= address <= one.last), None)
        if found is None:
            raise Refusal(f"the map has no device at {address:04X}")
        return found(address, *byte) or 0

    def fetch(machine: Target) -> int:
        machine.set_results(asked(machine.wire.state().stack[-1]) & 255, 0)
        return 0

    def store(machine: Target) -> int:
        byte, address = machine.wire.state().stack[-2:]
        asked(address, byte & 255)
        return 0

    REGISTERED.update({bridge.PORT_FETCH: fetch, bridge.PORT_STORE: store})


class Refusal(Exception):
    """A service is refused: what is said, and the fault that the word takes."""

    def __init__(self, said: str, fault: int = SAID) -> None:
        super().__init__(said)
        self.said, self.fault = said, fault


class Moved(Exception):
    """The machine goes on elsewhere, so that the service has no answer."""


def serve(session: Session, number: int) -> int:
    """Does a service; the fault by which it refuses, or 0."""
    try:
        if number in REGISTERED:
            return from_python(session, number)
        if not 0 < number <= len(NAMES):
            raise Refusal(f"nobody has registered service {number}")
        globals()[function_name(NAMES[number - 1])](session)
    except Refusal as refusal:
        session.refused = refusal.said
        return refusal.fault
    except Unreadable as error:
        session.refused = str(error)
        return SAID
    except Refused as error:
        session.refused = f"the machine cannot be asked for that (cause {error.cause} of docs/FORMATS.md); its memory may be damaged"
        return SAID
    return 0


def from_python(session: Session, number: int) -> int:
    """Does a service of a file of Python. If that goes wrong the service is refused, and the session goes on."""
    try:
        return REGISTERED[number](session.target)
    except (Ended, Interrupted, Refusal, Refused):
        raise
    except Exception as error:
        raise Refusal(f"service {number} failed: {type(error).__name__}: {error}") from error


def numbers_on_stack(session: Session, count: int) -> list[int]:
    """The numbers that a word left for its service, the top last."""
    stack = session.target.wire.state().stack
    if len(stack) < count:
        raise Refusal("", 1)
    return stack[len(stack) - count :]


def screen(session: Session, number: int) -> bytes:
    page = session.target.page(number)
    if page is None:
        raise Refusal(f"there is no screen {number} in {session.keeping.named()}", 7)
    return page


def lines_of(page: bytes) -> list[bytes]:
    return [page[at : at + LINE].replace(b"\0", b" ").rstrip(b" ") for at in range(0, BLOCK, LINE)]


def found_word(session: Session) -> tuple[str, bytes]:
    """The next word of the input, as it is typed and as the machine finds it."""
    typed = session.target.word()
    if not typed:
        raise Refusal("", MISSING)
    name = session.target.look_up(typed)
    if name is None:
        session.target.set_cell(TO_IN, session.target.input().offset - len(os.fsencode(typed)) - 1)
        raise Refusal("", UNKNOWN)
    return typed, name


# Texts


def do_unclosed(session: Session) -> None:
    """A comment does not end in its line of a text, or in its screen; its place is on the stack."""
    block = session.target.wire.cell(BLK)
    if take_until(session, block, end_of_comment):
        return
    begins = numbers_on_stack(session, 1)[0]
    session.target.set_cell(TO_IN, begins)
    if session.target.texts.place(block):
        raise Refusal("this ( is not closed")
    raise Refusal(f"the ( of line {begins // LINE} is not closed")


def take_until(session: Session, block: int, end_of: EndOf) -> bool:
    """Leaves out the lines after this block of a text, up to an end in one of them; whether there is one."""
    texts, console = session.target.texts, session.console
    place = texts.place(block)
    return texts.take_until(block, end_of) or isinstance(console, Script) and place is not None and console.take_until(place, end_of)


def do_skip(session: Session) -> None:
    """[IF] or [ELSE] leaves out what follows, up to its [ELSE] or [THEN]."""
    target, skipped = session.target, Skipped()
    given = target.input()
    end = skipped.end_of(given.text[given.offset :])
    if not end and not take_until(session, given.block, skipped.end_of):
        raise Refusal("it has no [THEN]")
    target.set_cell(TO_IN, given.offset + end if end else len(given.text))


def do_include(session: Session) -> None:
    target = session.target
    if len(session.open_texts) > 15:
        raise Refusal("too many files at once")
    name = target.word()
    blocks = target.texts.open(name, target.wire.cell(BLK))
    session.open_texts.append(target.texts.last if not name else target.texts.path(name, target.wire.cell(BLK)))
    session.look_at([(reports.named(line), plain(line.text)) for line in map(target.texts.place, blocks) if line])
    target.set_results(blocks.start, blocks.stop)


def do_require(session: Session) -> None:
    """Does INCLUDE, but of a text that was included it leaves no lines."""
    target = session.target
    offset = target.wire.cell(TO_IN)
    path = target.texts.path(target.word(), target.wire.cell(BLK))
    if os.path.realpath(path) in target.texts.included:
        session.open_texts.append(path)
        target.set_results(0, 0)
    else:
        target.set_cell(TO_IN, offset)
        do_include(session)


def do_evaluate(session: Session) -> None:
    address, size = numbers_on_stack(session, 2)
    if size > LONGEST:
        raise Refusal(f"EVALUATE takes at most {LONGEST} bytes")
    block = session.target.texts.evaluated(session.target.wire.memory(address, size)) if size else 0
    session.target.set_cell(SECOND, block)


def do_included(session: Session) -> None:
    name = session.open_texts.pop() if session.open_texts else ""
    if session.target.wire.cell(STATE):
        open_word = session.target.wire.headers()[-1]
        raise Refusal(f"{name} ended inside {plain(open_word.name)}")


def do_reload(session: Session) -> None:
    import tempfile  # imports that few sessions want are where they are wanted, so that a session starts sooner

    from served.screens import read_screens

    name = session.target.word()
    with tempfile.TemporaryDirectory() as room:
        pages = read_screens(session.program, os.path.expanduser(name), session.target.count(), room)
    for number, page in pages:
        put(session, number, page)


# Screens


def do_list(session: Session) -> None:
    show(session, numbers_on_stack(session, 1)[0])


def show(session: Session, number: int) -> None:
    """Shows a screen with the numbers of its lines."""
    session.say_line(f"Screen {number}\n")
    for at, line in enumerate(lines_of(screen(session, number))):
        session.say(f"{at:2} {plain(line)}".rstrip() + "\n")


def from_to(session: Session) -> range:
    first, last = numbers_on_stack(session, 2)
    return range(first, max(first, last) + 1)


def do_index(session: Session) -> None:
    session.say_line("")
    for number in from_to(session):
        session.say(f"{number:5} {plain(lines_of(screen(session, number))[0])}".rstrip() + "\n")


def do_search(session: Session) -> None:
    text = session.target.rest().strip(b" ")
    if not text:
        raise Refusal("", MISSING)
    session.say_line("")
    for number in from_to(session):
        for at, line in enumerate(lines_of(screen(session, number))):
            if text in line:
                session.say(f"screen {number} line {at} {plain(line)}\n")


def do_retype(session: Session) -> None:
    at = numbers_on_stack(session, 1)[0]
    line = lines_of(screen(session, session.target.wire.cell(SCR)))[at]
    session.console.draft = f"{at} PUT {line.decode(errors='replace')}"


def do_no_line(session: Session) -> None:
    raise Refusal(f"line {signed(numbers_on_stack(session, 1)[0])} does not exist, 0 to 15 do; nothing was done")


def do_no_fit(session: Session) -> None:
    given = session.target.input()
    raise Refusal(f"the line has {len(given.text[given.offset :].rstrip(b' '))} characters, {LINE} fit; nothing was done")


def do_line_lost(session: Session) -> None:
    raise Refusal("line 15 is not blank; it would be lost")


class Screens:
    """The screens of a session, for the editor."""

    def __init__(self, session: Session) -> None:
        self._session = session

    def count(self) -> int:
        return self._session.target.count()

    def page(self, block: int) -> bytes:
        page = self._session.target.page(block)
        if page is None:
            raise OSError(f"there is no screen {block} in {self._session.keeping.named()}")
        return page

    def put(self, block: int, page: bytes) -> None:
        try:
            self._session.target.put(block, page)
        except Refused as error:
            raise OSError("this program cannot change a screen for its host; build a newer one") from error


def put(session: Session, number: int, page: bytes) -> None:
    """Changes a screen, in the machine's buffer."""
    try:
        Screens(session).put(number, page)
    except OSError as error:
        raise Refusal(str(error)) from error


def do_edit(session: Session) -> None:
    edit(session, numbers_on_stack(session, 1)[0], None)


def do_ed(session: Session) -> None:
    number, faulty = session.target.wire.cell(SCR), session.faulty
    edit(session, number, faulty[1:] if faulty and faulty[0] == number else None)


def edit(session: Session, number: int, at: Optional[tuple[int, int]]) -> None:
    """Edits a screen: by EDITOR if that is set, otherwise by the editor of screens."""
    from served.own_editor import edit_text

    page = screen(session, number)
    if session.console.is_script:
        raise Refusal("EDIT needs a terminal")
    session.console.cook()
    try:
        if os.environ.get("EDITOR"):
            changed = edit_text(os.environ["EDITOR"], f"screen{number}", page, at[0] if at else 0)
            if changed != page:
                put(session, number, changed)
        else:
            edit_in_window(session, number, at)
    except (OSError, ValueError) as error:
        raise Refusal(str(error)) from error
    finally:
        session.console.raw()


def edit_in_window(session: Session, number: int, at: Optional[tuple[int, int]]) -> None:
    from served import editor

    session.edited = session.edited or editor.Kept()
    shadow = session.target.variable("SHADOW")
    left = editor.edit(number, Screens(session), at, kept=session.edited, shadow=shadow, is_ended=session.signals.is_ending)
    if left is editor.Left.SAVING:
        do_save(session)
    elif left is editor.Left.INTERRUPTED:
        raise Interrupted


def open_text(session: Session, path: str, line: int) -> None:
    """Opens a text in the editor that EDITOR names."""
    import shlex
    import subprocess

    session.console.cook()
    try:
        subprocess.call([*shlex.split(os.environ["EDITOR"]), f"+{line}", path])
    except OSError as error:
        raise Refusal(f"cannot run {os.environ['EDITOR']}: {error.strerror}") from error
    finally:
        session.console.raw()


def do_save(session: Session) -> None:
    """Writes the changed screens, so that even a power cut leaves them in the file."""
    left = session.target.wire.save()
    if left:
        raise Refusal(session.keeping.why_unwritten(left), 10)
    session.keeping.sync()
    session.keep_journal()


def do_update(session: Session) -> None:
    """The block that was used last, which UPDATE marks: the line of a text that runs has a buffer, too, and it is not meant."""
    used = next((block for _, block, _ in session.wire.state().buffers if block is not None and block < FIRST_TEXT), None)
    if used is None:
        raise Refusal("no block is in a buffer")
    session.target.set_results(used, 0)


def do_bye_with(session: Session) -> None:
    session.status = numbers_on_stack(session, 1)[0] & 255
    do_save(session)


def do_empty(session: Session) -> None:
    changed = sorted(session.target.changed())
    if changed:
        session.say("dropped the unsaved changes of screen " + "".join(f"{number} " for number in changed))


# Words and memory


def do_see(session: Session) -> None:
    typed, name = found_word(session)
    try:
        session.say_line(session.target.wire.see(name).decode(errors="replace") + "\n")
    except Refused as refused:
        if refused.cause != 6:
            raise Refusal(f"{typed} cannot be shown: {NO_STRUCTURE.get(refused.cause, 'it has no source')}") from refused
        session.say_line(words.kind(session.target, name) + "\n")


def do_view(session: Session) -> None:
    _, name = found_word(session)
    view = session.target.wire.view(name)
    place = session.target.texts.place(view)
    if place:
        session.say_line(f"{place.name}:{place.number}\n{plain(place.text)}\n")
    elif session.target.wire.token(name) < session.target.wire.cell(FENCE):
        session.say_line(words.system_source(session.images, view))
    elif not view:
        session.say("typed, not on a screen ")
    else:
        session.target.set_cell(SCR, view)
        show(session, view)


def do_locate(session: Session) -> None:
    typed, name = found_word(session)
    view = session.target.wire.view(name)
    place = session.target.texts.place(view)
    if place and os.environ.get("EDITOR") and not session.console.is_script:
        open_text(session, place.name, place.number)
    elif place:
        session.say_line(f"{place.name}:{place.number}: {plain(place.text)}\n")
    elif session.target.wire.token(name) < session.target.wire.cell(FENCE):
        session.say_line(words.system_source(session.images, view, name.decode(errors="replace")))
    elif not view:
        session.say("typed, not on a screen ")
    else:
        hits = [(at, line) for at, line in enumerate(lines_of(screen(session, view))) if name in line or os.fsencode(typed) in line]
        session.say_line("".join(f"screen {view} line {at} {plain(line)}\n" for at, line in hits))


def do_words(session: Session) -> None:
    part = session.target.word()
    listed = words.listed(words.visible(session.target, [session.target.wire.cell(CONTEXT)]), part)
    session.say_line(listed if listed.strip() else f"no word has {part} in its name\n")


def do_help(session: Session) -> None:
    name = session.target.word()
    session.say_line((help_for(name) if name else words.HELP) + "\n")


def do_dump(session: Session) -> None:
    address, count = numbers_on_stack(session, 2)
    session.say_line(words.dump(session.target.wire.memory(address, count), address))


def do_version(session: Session) -> None:
    import subprocess

    said = subprocess.run([session.program, "--version"], stdout=subprocess.PIPE, check=False).stdout.decode(errors="replace").strip()
    session.say(said + ", proved" * (not said.endswith("unproved")) + " ")


# Boards and ports


def do_save_image(session: Session) -> None:
    """The board has the machine in its flash as an image, and starts it at its next reset."""
    from served.own import image_of, start_of

    save = getattr(session.wire, "save_image", None)
    if save is None:
        raise Refusal("it needs a board, at the end of --target; ./forth --image OWN saves an image in a file")
    before = past.keep(session.target)
    made = image_of(session.target)
    past.put_back(session.target, before)
    try:
        save(made)
    except Refused as error:
        raise Refusal("the board cannot write its flash; it keeps the image that it had", 10) from error
    starts = start_of(session.target) or "the Forth; BOOT NAME before that has it start with NAME"
    session.say(f"{len(made)} bytes; at its next reset the board starts with {starts} ")


def do_port_fetch(session: Session) -> None:
    raise Refusal(f"there is no port {numbers_on_stack(session, 1)[0]} here")


def do_port_store(session: Session) -> None:
    do_port_fetch(session)


# Time, keys, arguments


def do_ticks(session: Session) -> None:
    ticks = session.target.all_ticks
    session.target.set_results(ticks & 0xFFFF, ticks >> 16 & 0xFFFF)


def do_date(session: Session) -> None:
    """Puts the second, minute, hour, day, month and year into six cells at an address."""
    now = time.localtime()
    address = numbers_on_stack(session, 1)[0]
    for at, number in enumerate((now.tm_sec, now.tm_min, now.tm_hour, now.tm_mday, now.tm_mon, now.tm_year)):
        session.target.set_cell(address + 2 * at, number)


def do_clock(session: Session) -> None:
    """How many milliseconds a clock shows that only goes forward."""
    clock = int(time.monotonic() * 1000)
    session.target.set_results(clock & 0xFFFF, clock >> 16 & 0xFFFF)


def do_profile(session: Session) -> None:
    """The rest of the line is profiled."""
    session.profile = Profile(session.target)


def do_place(session: Session) -> None:
    """Shows the line of the word that asks, after its place."""
    given = session.target.input()
    where, *line = reports.place_lines(given, session.target.texts.place(given.block), 0, False) or ["a line that was typed"]
    session.say(": ".join([where, *line[:1]]) + "\n")


def do_ms(session: Session) -> None:
    until = time.monotonic() + numbers_on_stack(session, 1)[0] / 1000
    while time.monotonic() < until:
        session.signals.look()
        if session.signals.is_interrupted():
            raise Interrupted
        time.sleep(min(0.05, max(until - time.monotonic(), 0)))


def do_key_is_there(session: Session) -> None:
    session.target.set_results(65535 if session.console.has_key() else 0, 0)


def do_ekey(session: Session) -> None:
    key = session.console.whole_key()
    if key is None:
        raise Ended(0)
    session.target.set_results(key, 0)


def give_text(session: Session, text: Optional[str], address: int, most: int) -> None:
    """Puts a text into memory, if there is one and it fits."""
    body = os.fsencode(text or "")[:most]
    for at in range(0, len(body), 2):
        low = body[at]
        high = body[at + 1] if at + 1 < len(body) else session.target.wire.memory(address + at + 1, 1)[0]
        session.target.set_cell(address + at, low + 256 * high)
    session.target.set_results(len(body), 0 if text is None else 65535)


def do_argument(session: Session) -> None:
    address, most, number = numbers_on_stack(session, 3)
    given = session.arguments
    give_text(session, given[number] if number < len(given) else None, address, most)


def do_environment(session: Session) -> None:
    address, most = numbers_on_stack(session, 2)
    give_text(session, os.environ.get(session.target.word()), address, most)


# What is thrown, going back, steps


def do_catch(session: Session) -> None:
    state = session.target.wire.state()
    if not state.stack or len(state.returns) < 2:
        raise Refusal("", 3 if state.stack else 1)
    session.catching.catch(state)


def do_caught(session: Session) -> None:
    session.catching.done()


def do_throw(session: Session) -> None:
    number = numbers_on_stack(session, 1)[0]
    if session.catching.throw(number, session.target.wire.state().stack[:-1]):
        raise Moved
    if 0 < number < SAID:
        raise Refusal("", number)
    raise Refusal(f"{signed(number)} was thrown, and there is no CATCH")


def do_undo(session: Session) -> None:
    if not session.past.is_able:
        raise Refusal("this program cannot keep a machine; build a newer one")
    session.undoes = True


def do_why(session: Session) -> None:
    if not session.past.is_able:
        raise Refusal("this program cannot keep a machine; build a newer one")
    found = session.past.at_fault()
    if found is None:
        raise Refusal(session.past.why_none)
    session.say_line(reports.way(session.target, found))


def do_fault_text(session: Session) -> None:
    session.say(reports.described(session.target, numbers_on_stack(session, 1)[0]) + " ")


def do_report(session: Session) -> None:
    """Reports a fault that a program handles; of fault 17 the program has shown what it means."""
    number = numbers_on_stack(session, 1)[0]
    text = reports.report(session.target, number, "").rstrip("\n")
    if number == SAID:
        session.say(text)
    else:
        session.say_line(text.lstrip(" "))


def stepped_word(session: Session, what: str) -> tuple[str, Header, list[Header]]:
    """The next word of the input, which has steps, and all words."""
    typed, name = found_word(session)
    if session.console.is_script:
        raise Refusal(f"{what} needs a terminal; ./forth film NAME shows steps")
    token = session.target.wire.token(name)
    headers = session.target.wire.headers()
    header = next(header for header in headers if header.token == token)
    if not past.has_thread(header.code):
        raise Refusal(f"{typed} has no steps: neither : nor DOES> made it")
    return typed, header, headers


def do_debug(session: Session) -> None:
    _, header, headers = stepped_word(session, "DEBUG")
    session.target.set_results(header.token, 0)
    session.steps.begin(header, headers)


def do_break_at(session: Session) -> None:
    """Programs stop before the next word from now on, or no longer; without a name it shows these words."""
    breaks = session.steps.breaks
    given = session.target.input()
    if given.text[given.offset :].strip(b" "):
        if not session.past.is_able:
            raise Refusal("this program cannot take a machine out and put it in again")
        typed, header, _ = stepped_word(session, "BREAK-AT")
        if header.code != 1:
            raise Refusal(f"{typed} was not made by :")
        name = plain(header.name)
        if breaks.pop(name, 0) != header.token + 2:
            breaks[name] = header.token + 2
    session.say_line(f"programs stop before {' '.join(breaks)}\n" if breaks else "programs stop before no word\n")
