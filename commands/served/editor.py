"""The editor of screens at a terminal, by curses.

Each change goes to the block's buffer in the machine at once, by `Blocks.put`, so that the screen is nowhere twice, and it is not lost
when the window closes, the host is killed, or a word stores into the buffer.
"""

from __future__ import annotations

import curses
import enum
import os
import signal
import typing

from . import editing
from .editing import COLUMNS, LINES, Change, Editing, Log

GUTTER = 4
WHOLE_WIDTH = GUTTER + COLUMNS + 1
WHOLE_HEIGHT = LINES + 6
HELP = (
    "^X saves, leaves  ^G leaves  ^U undoes  ^Q redoes  ^F finds  ^V next  ^B last",
    "^O opens, splits  ^R joins  ^Y cuts  ^T takes  ^S puts a line  ^K its end  ^] shadow",
)
PASTE_ON, PASTE_OFF = "\x1b[?2004h", "\x1b[?2004l"
NO_KEY = -1
# Keys of terminals that send other bytes than terminfo says: what comes after ESC [.
SEQUENCES: dict[str, str | int] = {
    "A": curses.KEY_UP,
    "B": curses.KEY_DOWN,
    "C": curses.KEY_RIGHT,
    "D": curses.KEY_LEFT,
    "H": curses.KEY_HOME,
    "F": curses.KEY_END,
    "1~": curses.KEY_HOME,
    "4~": curses.KEY_END,
    "1;5C": "next word",
    "1;5D": "last word",
}


class Blocks(typing.Protocol):
    """The blocks of the machine: each is read and written through its buffers."""

    def count(self) -> int:
        """How many there are."""

    def page(self, block: int) -> bytes:
        """The 1,024 bytes of a block; OSError if it cannot be read."""

    def put(self, block: int, page: bytes) -> None:
        """The bytes of a block; OSError if it cannot be written."""


class Left(enum.Enum):
    """How the editor was left."""

    SAVING = enum.auto()
    DROPPING = enum.auto()
    INTERRUPTED = enum.auto()


class Kept:
    """What the editor keeps from one call to the next: where the cursor was, what can be taken back, what was copied and searched."""

    def __init__(self) -> None:
        self.block = 0
        self.line = 0
        self.byte = 0
        self.logs: dict[int, Log] = {}
        self.row: bytes | None = None
        self.screen: bytes | None = None
        self.sought = b""


class Keys:
    """The keys of a terminal: characters, curses' numbers, pastes as one text, and Alt with a character."""

    def __init__(self, window: curses.window) -> None:
        self.window = window

    def next(self) -> str | int:
        """The next key, or NO_KEY if none came within half a second."""
        self.window.timeout(500)
        key = self.read()
        if key != "\x1b":
            return key
        self.window.timeout(50)
        second = self.read()
        if second == "[":
            return self.sequence()
        return f"alt {second}" if isinstance(second, str) else "\x1b"

    def read(self) -> str | int:
        """A character or a number of curses'; NO_KEY if none came."""
        try:
            return self.window.get_wch()
        except curses.error:
            return NO_KEY

    def sequence(self) -> str | int:
        """A key that curses does not know, which is passed over; or a paste."""
        text = ""
        while isinstance(key := self.read(), str) and len(text) < 16:
            text += key
            if "@" <= key <= "~":
                break
        if text != "200~":
            return SEQUENCES.get(text, NO_KEY)
        return "paste " + self.pasted()

    def pasted(self) -> str:
        """What is pasted, up to its end."""
        self.window.timeout(2000)
        text = ""
        while not text.endswith("\x1b[201~"):
            key = self.read()
            if key == NO_KEY:
                return text
            text += key if isinstance(key, str) else ""
        return text[: -len("\x1b[201~")]


class View:
    """The window: a screen in a frame if there is room, otherwise the part of it that is around the cursor."""

    def __init__(self, window: curses.window) -> None:
        self.window = window
        self.first = 0
        self.shift = 0

    def put(self, row: int, column: int, text: str, look: int = 0) -> None:
        """A text, as far as it fits."""
        height, width = self.window.getmaxyx()
        if 0 <= row < height and column < width:
            try:
                self.window.addnstr(row, column, text, width - column, look)
            except curses.error:
                pass  # the window's last place: curses writes it, and cannot move on

    def show(self, now: Editing, title: tuple[str, str], message: str, marked: tuple[int, int] | None, shadow: bytes | None) -> None:
        """Everything."""
        height, width = self.window.getmaxyx()
        self.window.erase()
        is_whole = height >= WHOLE_HEIGHT and width >= WHOLE_WIDTH
        self.scroll(now, LINES if is_whole else max(1, height - 2), COLUMNS if is_whole else max(1, width - GUTTER - 1))
        self.put(0, 0, title[0])
        self.put(0, max(len(title[0]) + 1, min(width, WHOLE_WIDTH) - len(title[1])), title[1])
        top = 2 if is_whole else 1
        for row in range(self.first, min(LINES, self.first + (LINES if is_whole else max(1, height - 2)))):
            self.row(now, row, top + row - self.first, marked)
        if is_whole:
            self.frame(height)
        if shadow is not None and is_whole and width >= 2 * WHOLE_WIDTH:
            for line in range(LINES):
                self.put(top + line, WHOLE_WIDTH + GUTTER, shown(shadow[line * COLUMNS : (line + 1) * COLUMNS]), curses.A_DIM)
        self.put(top + LINES + 1 if is_whole else height - 1, 0, message)
        column = GUTTER + editing.column_of(now.row(now.line), now.byte) - self.shift
        self.window.move(min(height - 1, top + now.line - self.first), max(0, min(width - 1, column)))
        self.window.refresh()

    def scroll(self, now: Editing, rows: int, columns: int) -> None:
        """Keeps the cursor in the part that is shown."""
        self.first = max(min(self.first, now.line, LINES - rows), now.line - rows + 1, 0)
        column = editing.column_of(now.row(now.line), now.byte)
        self.shift = max(min(self.shift, column, COLUMNS - columns), column - columns, 0)

    def row(self, now: Editing, line: int, row: int, marked: tuple[int, int] | None) -> None:
        """A line with its number, and the mark of a fault in it."""
        text = shown(now.row(line))
        self.put(row, 0, f"{line:2} |")
        self.put(row, GUTTER, text[self.shift :])
        _, width = self.window.getmaxyx()
        if self.shift == 0 and width >= WHOLE_WIDTH:
            self.put(row, GUTTER + COLUMNS, "|")
        if marked and marked[0] == line:
            begin = editing.column_of(now.row(line), marked[1])
            word = text[begin:].split(" ")[0] or " "
            if begin >= self.shift:
                self.put(row, GUTTER + begin - self.shift, word, curses.A_REVERSE)

    def frame(self, height: int) -> None:
        """The edges, and what the keys do."""
        edge = "   +" + "-" * COLUMNS + "+"
        self.put(1, 0, edge)
        self.put(2 + LINES, 0, edge)
        if height >= WHOLE_HEIGHT:
            self.put(4 + LINES, 0, HELP[0])
            self.put(5 + LINES, 0, HELP[1])


def shown(row: bytes) -> str:
    """A line as it is shown: a dot for each byte that has no picture, a blank for a filling."""
    places = editing.starts(row)
    return "".join(picture(row[begin:stop]) for begin, stop in zip(places, places[1:]))


def picture(character: bytes) -> str:
    """A character as it is shown."""
    text = character.decode("utf-8", "replace")
    if character == b"\0":
        return " "
    return text if text.isprintable() and "\ufffd" not in text else "."


# The changes of keys, each with the kind that makes several one step.
CHANGES: dict[str | int, tuple[Change, str | None]] = {
    "\x7f": (editing.delete_back, "delete"),
    "\b": (editing.delete_back, "delete"),
    curses.KEY_BACKSPACE: (editing.delete_back, "delete"),
    "\x04": (editing.delete_here, "delete"),
    curses.KEY_DC: (editing.delete_here, "delete"),
    "\x17": (editing.delete_word, None),
    "\x0b": (editing.delete_tail, None),
    "\x0f": (editing.split, None),
    "\x12": (editing.join, None),
    "\n": (editing.new_line, None),
    "\r": (editing.new_line, None),
    curses.KEY_ENTER: (editing.new_line, None),
}

MOVES: dict[str | int, typing.Callable[[Editing], Editing | None]] = {
    curses.KEY_LEFT: editing.left,
    curses.KEY_RIGHT: editing.right,
    curses.KEY_UP: editing.vertically(-1),
    "\x10": editing.vertically(-1),
    curses.KEY_DOWN: editing.vertically(1),
    "\x0e": editing.vertically(1),
    curses.KEY_HOME: editing.home,
    "\x01": editing.home,
    curses.KEY_END: editing.end,
    "\x05": editing.end,
    "last word": editing.word_left,
    "next word": editing.word_right,
    "alt b": editing.word_left,
    "alt f": editing.word_right,
    "\t": editing.tab,
}


class Sheet:
    """The screen that is edited: its block, its bytes and the cursor. Each change is in the block's buffer before it is shown."""

    def __init__(self, blocks: Blocks, kept: Kept) -> None:
        self.blocks, self.kept = blocks, kept
        self.now = Editing(bytes(editing.PAGE))
        self.first = self.now.page
        self.marked: tuple[int, int] | None = None
        self.message = ""

    @property
    def log(self) -> Log:
        """What can be taken back in this screen."""
        return self.kept.logs.setdefault(self.kept.block, Log())

    def refuse(self, why: str) -> None:
        """Says why something was not done."""
        self.message = why
        curses.beep()

    def page(self, block: int) -> bytes | None:
        """The bytes of a block, or None with a message."""
        try:
            return self.now.page if block == self.kept.block else self.blocks.page(block)
        except OSError as fault:
            self.refuse(f"screen {block} cannot be read: {fault.strerror or fault}")
            return None

    def open(self, block: int) -> bool:
        """Shows a block, as it is in its buffer."""
        if not 0 <= block < self.blocks.count():
            self.refuse(f"there is no screen {block}: the screens are 0 to {self.blocks.count() - 1}")
            return False
        try:
            page = self.blocks.page(block)
        except OSError as fault:
            self.refuse(f"screen {block} cannot be read: {fault.strerror or fault}")
            return False
        self.kept.block, self.first, self.marked = block, page, None
        self.now = Editing(page)
        self.log.rest()
        return True

    def go(self, block: int, line: int = 0, byte: int = 0) -> None:
        """To a place of a screen."""
        if block == self.kept.block or self.open(block):
            self.now = self.now.at(line, byte)
            self.log.rest()

    def keep(self, page: bytes) -> bool:
        """Puts the screen's bytes into the block's buffer."""
        try:
            self.blocks.put(self.kept.block, page)
        except OSError as fault:
            self.refuse(f"screen {self.kept.block} cannot be written: {fault.strerror or fault}")
            return False
        return True

    def change(self, change: Change, kind: str | None) -> None:
        """A change, if it has room: into the block's buffer first, then shown."""
        after = change(self.now)
        if after is None:
            self.refuse("" if kind == "delete" else "there is no room")
        elif after.page == self.now.page:
            self.now = after
        elif self.keep(after.page):
            self.log.note(self.now, after, kind)
            self.now, self.marked = after, None

    def again(self, step: typing.Callable[[Editing], Editing | None], otherwise: str) -> None:
        """Takes a step back, or does it again."""
        after = step(self.now)
        if after is None:
            self.refuse(otherwise)
        elif self.keep(after.page):
            self.now = after

    def undo(self) -> None:
        """Takes the last step back."""
        self.again(self.log.undo, "there is nothing to take back")

    def redo(self) -> None:
        """Does the step that was taken back again."""
        self.again(self.log.redo, "there is nothing to bring back")

    def paste(self, text: str) -> None:
        """A paste, as far as it has room."""
        change, rest = editing.paste(text.encode())
        self.log.rest()
        self.change(change, None)
        if rest:
            lines = "one line has" if len(rest) == 1 else f"{len(rest)} lines have"
            self.refuse(f"{lines} no room, and the paste ends before; ^U takes it back")

    def seek(self, text: bytes) -> None:
        """To the next place that has a text, on this screen or a later one."""
        begin = self.now.line * COLUMNS + self.now.byte + 1
        for block in range(self.kept.block, self.blocks.count()):
            page = self.page(block)
            place = page.find(text, begin) if page is not None and text else -1
            if place >= 0:
                self.go(block, place // COLUMNS, place % COLUMNS)
                return
            begin = 0
        self.refuse(f"{text.decode('utf-8', 'replace')} is not on this screen from here on, nor on a later one")


class Editor:
    """One call of EDIT: keys, and what they do to the sheet."""

    def __init__(self, window: curses.window, sheet: Sheet, shadow: int, is_ended: typing.Callable[[], bool]) -> None:
        self.keys, self.view, self.sheet = Keys(window), View(window), sheet
        self.shadow, self.is_ended = shadow, is_ended
        self.is_replacing = False
        self.left: Left | None = None
        back, on = lambda: sheet.go(sheet.kept.block - 1), lambda: sheet.go(sheet.kept.block + 1)
        self.commands: dict[str | int, typing.Callable[[], None]] = {
            "\x18": lambda: self.leave(Left.SAVING),
            "\x03": lambda: self.leave(Left.INTERRUPTED),
            "\x1c": lambda: self.leave(Left.INTERRUPTED),
            "\x07": self.drop,
            "\x15": sheet.undo,
            "\x1f": sheet.undo,
            "\x11": sheet.redo,
            "\x16": on,
            curses.KEY_NPAGE: on,
            "\x02": back,
            curses.KEY_PPAGE: back,
            "\x1d": self.go_to_shadow,
            "\x19": self.cut,
            "\x14": self.take,
            "\x13": self.put_line,
            "alt t": self.take_screen,
            "alt s": self.put_screen,
            "\x06": self.find,
            "\x1a": self.stop,
            "\x0c": window.clear,
            curses.KEY_IC: self.switch,
            curses.KEY_RESIZE: window.clear,
        }

    def run(self) -> Left:
        """Keys, until the editor is left."""
        kept = self.sheet.kept
        while self.left is None:
            self.show()
            key = self.keys.next()
            if key != NO_KEY:
                self.sheet.message = ""
                self.press(key)
            if self.is_ended():
                self.left = Left.INTERRUPTED
        kept.line, kept.byte = self.sheet.now.line, self.sheet.now.byte
        return self.left

    def show(self) -> None:
        """The screen."""
        sheet, block = self.sheet, self.sheet.kept.block
        changed = "  changed" if sheet.now.page != sheet.first else ""
        has_shadow = 0 < self.shadow and block < self.shadow and block + self.shadow < sheet.blocks.count()
        shadow = sheet.page(block + self.shadow) if has_shadow else None
        title = (f"Screen {block}{changed}", "replace" if self.is_replacing else "insert")
        self.view.show(sheet.now, title, sheet.message, sheet.marked, shadow)

    def press(self, key: str | int) -> None:
        """What a key does."""
        sheet = self.sheet
        if key in self.commands:
            self.commands[key]()
        elif key in MOVES:
            sheet.now = MOVES[key](sheet.now) or sheet.now
            sheet.log.rest()
        elif key in CHANGES:
            sheet.change(*CHANGES[key])
        elif isinstance(key, str) and key.startswith("paste "):
            sheet.paste(key[len("paste ") :])
        elif isinstance(key, str) and len(key) == 1 and key.isprintable():
            make = editing.replace if self.is_replacing else editing.insert
            sheet.change(make(key.encode()), "type")
        else:
            curses.beep()

    def go_to_shadow(self) -> None:
        """To the screen that explains this one, or back."""
        block = self.sheet.kept.block
        if not self.shadow:
            self.sheet.refuse("no shadow screens: 32 SHADOW ! makes screens 32 to 63 the shadows of 0 to 31")
        else:
            self.sheet.go(block + self.shadow if block < self.shadow else block - self.shadow, self.sheet.now.line)

    def cut(self) -> None:
        """Takes the line out, to be put elsewhere."""
        self.sheet.kept.row = self.sheet.now.row(self.sheet.now.line)
        self.sheet.change(editing.cut_line, None)

    def take(self) -> None:
        """Copies the line."""
        self.sheet.kept.row = self.sheet.now.row(self.sheet.now.line)
        self.sheet.message = f"line {self.sheet.now.line} is copied; ^S puts it over another"

    def put_line(self) -> None:
        """Puts the line over the cursor's."""
        row = self.sheet.kept.row
        if row is None:
            self.sheet.refuse("no line is cut or copied yet")
        else:
            self.sheet.change(editing.put_line(row), None)

    def take_screen(self) -> None:
        """Copies the screen."""
        self.sheet.kept.screen = self.sheet.now.page
        self.sheet.message = f"screen {self.sheet.kept.block} is copied; Alt-S puts it over another"

    def put_screen(self) -> None:
        """Puts the screen over this one."""
        screen = self.sheet.kept.screen
        if screen is None:
            self.sheet.refuse("no screen is copied yet; Alt-T copies one")
        else:
            self.sheet.change(editing.put_page(screen), None)

    def switch(self) -> None:
        """Whether what is typed replaces what is at the cursor."""
        self.is_replacing = not self.is_replacing

    def find(self) -> None:
        """Asks for a text, and goes to the next place that has it."""
        asked = self.ask("find: ")
        if asked is not None:
            self.sheet.kept.sought = asked.encode() or self.sheet.kept.sought
            self.sheet.seek(self.sheet.kept.sought)

    def ask(self, question: str) -> str | None:
        """A text that is typed below the frame; None if another key than characters, backspace and return came."""
        text = ""
        key: str | int = NO_KEY
        while not self.is_ended() and key not in ("\n", "\r", curses.KEY_ENTER):
            self.sheet.message = question + text
            self.show()
            key = self.keys.next()
            if key in ("\x7f", "\b", curses.KEY_BACKSPACE):
                text = text[:-1]
            elif isinstance(key, str) and len(key) == 1 and key.isprintable():
                text += key
            elif key not in (NO_KEY, curses.KEY_RESIZE, "\n", "\r", curses.KEY_ENTER):
                self.sheet.message = ""
                return None
        self.sheet.message = ""
        return None if self.is_ended() else text

    def drop(self) -> None:
        """Leaves without the changes of this screen; asks first."""
        sheet = self.sheet
        if sheet.now.page != sheet.first:
            answer = self.ask("drop what was changed in this screen? y or n: ")
            if answer is None or answer.lower() not in ("y", "yes"):
                return
            sheet.change(editing.put_page(sheet.first), None)
            if sheet.now.page != sheet.first:
                return
        self.leave(Left.DROPPING)

    def leave(self, left: Left) -> None:
        """Leaves."""
        self.left = left

    def stop(self) -> None:
        """Stops the Forth, until `fg` goes on with it."""
        curses.def_prog_mode()
        write(PASTE_OFF)
        curses.endwin()
        os.kill(0, signal.SIGTSTP)
        curses.reset_prog_mode()
        write(PASTE_ON)
        self.view.window.clear()


def write(text: str) -> None:
    """Gives the terminal a control that curses does not know."""
    os.write(1, text.encode())


def edit(screen: int, blocks: Blocks, at: tuple[int, int] | None = None, *, kept: Kept | None = None, shadow: int = 0, is_ended: typing.Callable[[], bool] = lambda: False) -> Left:
    """Edits screens of `blocks`, from `screen` on, with the cursor at a line and a byte; a word that begins at `at` is marked.

    `is_ended` says whether the editor must leave: after a signal, for example. What is kept from one call to the next is `kept`.
    ValueError with the reason if there is no such screen, or if it cannot be read.
    """

    def begin(window: curses.window) -> Left:
        curses.raw()
        curses.nonl()
        sheet = Sheet(blocks, kept or Kept())
        if not sheet.open(screen):
            raise ValueError(sheet.message)
        sheet.go(screen, *(at or (0, 0)))
        sheet.marked = at
        editor = Editor(window, sheet, shadow, is_ended)
        write(PASTE_ON)
        try:
            return editor.run()
        finally:
            write(PASTE_OFF)

    return curses.wrapper(begin)
