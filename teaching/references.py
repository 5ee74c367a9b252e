"""Where the words of screens are defined and used: the words are read as the Forth reads them, and nothing is executed.

A comment goes up to its `)`, a text up to its quote, `\\` to the end of its line; after `:` and `[COMPILE]` the words that
begin these are names like others. A word defines the next one where it is `:`, one of the Forth's defining words outside a
definition, or a word of these screens whose definition uses such a word.
"""
from typing import Dict, Iterator, List, Optional, Tuple

import screens

ENDS = {"(": ")", ".(": ")", '."': '"', 'ABORT"': '"'}
DEFINING = {"VARIABLE", "CONSTANT", "CREATE", "2VARIABLE", "2CONSTANT", "VOCABULARY", "PRIM", "FRESH"}
QUOTING = {"[COMPILE]", "COMPILE", "[']", "'"}
NAMING = {":", "[COMPILE]", "[']", "'"}


def flat(lines: List[str]) -> str:
    """A screen as its 1,024 bytes: a word at the end of a line continues in the next line."""
    padded = [line.ljust(screens.WIDTH)[: screens.WIDTH] for line in lines]
    return "".join(padded).ljust(screens.BYTES)


def words(lines: List[str]) -> Iterator[Tuple[str, int]]:
    """The words of a screen, each with its line, without those in comments and texts."""
    text, at, before = flat(lines), 0, ""
    while at < len(text):
        if text[at] == " ":
            at += 1
            continue
        end = text.find(" ", at)
        end = len(text) if end < 0 else end
        word, line = text[at:end], at // screens.WIDTH
        yield word, line
        at = end + 1
        if before not in NAMING:
            at = passed(text, word, at, line)
        before = word.upper()


def passed(text: str, word: str, at: int, line: int) -> int:
    """Where the words go on after one that ends before `at`, and may begin a comment or a text."""
    if word == "\\":
        return (line + 1) * screens.WIDTH
    if word.upper() not in ENDS:
        return at
    closed = text.find(ENDS[word.upper()], at)
    return len(text) if closed < 0 else closed + 1


class References:
    """The places of each word: where it is defined, and where it is used. A place is a screen and a line."""

    def __init__(self, read: screens.Screens, numbers: List[int]) -> None:
        self.defined: Dict[str, List[Tuple[int, int]]] = {}
        self.used: Dict[str, List[Tuple[int, int]]] = {}
        self.defining, self.before = set(DEFINING), ""
        self.open: Optional[str] = None
        self.wants_name = False
        for number in numbers:
            self.wants_name = False
            for word, line in words(read.lines.get(number, [])):
                self.take(word, (number, line))
                self.before = word.upper()

    def take(self, word: str, place: Tuple[int, int]) -> None:
        if self.wants_name:
            self.define(word, place)
            return
        name = word.upper()
        self.used.setdefault(word, []).append(place)
        if name == ":" and self.open is None:
            self.wants_name, self.open = True, ""
        elif name == ";":
            self.open = None
        elif name in self.defining and self.before not in QUOTING:
            self.meet_defining()

    def meet_defining(self) -> None:
        """A defining word: outside a definition a name follows; within one the word that is defined is a defining word, too."""
        if self.open is None:
            self.wants_name = True
        else:
            self.defining.add(self.open.upper())

    def define(self, word: str, place: Tuple[int, int]) -> None:
        self.defined.setdefault(word, []).append(place)
        self.wants_name = False
        if self.open == "":
            self.open = word

    def uses(self, name: str) -> List[Tuple[int, int]]:
        """Where a word that is defined here is used, also in lower case."""
        places = list(self.used.get(name, []))
        if name.upper() == name and name.lower() != name:
            places += [place for word, found in self.used.items() if word != name and word.upper() == name for place in found if word not in self.defined]
        return sorted(set(places))
