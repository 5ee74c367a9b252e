"""What a terminal shows of what it is sent."""
import re
import unicodedata
from typing import List, Tuple


class Glass:
    """What is seen on a terminal of some columns and 24 rows: the part of xterm that a line uses."""

    def __init__(self, columns: int) -> None:
        self.columns, self.rows, self.kept, self.full = columns, [[" "] * columns for _ in range(24)], (0, 0), False
        self.x = self.y = 0

    def down(self) -> None:
        if self.y == 23:
            self.rows = self.rows[1:] + [[" "] * self.columns]
        self.y = min(self.y + 1, 23)

    def put(self, character: str) -> None:
        if self.full:
            self.x, self.full = 0, False
            self.down()
        wide = unicodedata.east_asian_width(character) == "W"
        self.rows[self.y][self.x : self.x + 1 + wide] = [character] + [""] * wide
        self.full = self.x + wide == self.columns - 1
        self.x = min(self.x + 1 + wide, self.columns - 1)

    def clear(self) -> None:
        """From the cursor to the end of the screen."""
        for x in range(self.x, self.columns):
            self.rows[self.y][x] = " "
        self.rows[self.y + 1 :] = [[" "] * self.columns for _ in self.rows[self.y + 1 :]]

    def move(self, what: str) -> None:
        """A control byte or a sequence; what this terminal doesn't know is an error."""
        known = {
            "\r": lambda: setattr(self, "x", 0),
            "\n": self.down,
            "\b": lambda: setattr(self, "x", max(self.x - 1, 0)),
            "\a": lambda: None,
            "\x1bD": self.down,
            "\x1b[A": lambda: setattr(self, "y", max(self.y - 1, 0)),
            "\x1b7": lambda: setattr(self, "kept", (self.x, self.y)),
            "\x1b8": lambda: self.__dict__.update(x=self.kept[0], y=self.kept[1]),
            "\x1b[H": lambda: self.__dict__.update(x=0, y=0),
            "\x1b[J": self.clear,
        }
        known[what]()
        self.full = self.full and what == "\a"

    def shows(self, sent: bytes) -> None:
        for move, character in re.findall(r"(\x1b\[.|\x1b.|[\x00-\x1f])|(.)", sent.decode(errors="replace"), re.S):
            self.put(character) if character else self.move(move)

    def seen(self) -> Tuple[List[str], Tuple[int, int]]:
        """The rows that aren't blank, and the cursor's column and row among them."""
        texts = ["".join(row).rstrip() for row in self.rows]
        return [text for text in texts if text], (self.x, len([text for text in texts[: self.y] if text]))
