"""Counts the words of the project's own idiom in the texts that people read: which words, in which parts of which files.

The standard that the words come from is plain English: what happened, where, and what to do next, in the words that a stranger
would use. Counted are words that pages used in a sense of their own, or used instead of the field's word.
"""
import io
import pathlib
import re
import subprocess
import tokenize
from typing import Dict, Iterable, List, NamedTuple

ROOT = pathlib.Path(__file__).resolve().parent.parent
LIMITS = ROOT / "tests/sources/english_limits.txt"


class Word(NamedTuple):
    """What is counted, as a pattern, and what to write instead."""

    pattern: str
    plain: str


# By the name under which it is printed. A blank stands for any white space, so that a phrase may go over a line's end.
WORDS: Dict[str, Word] = {
    "behind": Word(r"behind", "after; earlier in, above"),
    "stands": Word(r"stands?|stood", "is"),
    "tells": Word(r"tells?|told", "reports, prints, says"),
    "breaks off": Word(r"br(?:eaks?|oke|oken|eaking) off", "interrupts, interrupted"),
    "begun": Word(r"begun", "started, unfinished"),
    "want of memory": Word(r"want of memory", "out of memory"),
    "small letters": Word(r"small letters", "lower case"),
    "doubles": Word(r"doubles|doubled", "duplicates"),
    "mends": Word(r"mend(?:s|ed|ing)?", "fixes"),
    "slip": Word(r"slips?", "a mistake, a typo"),
    "lays": Word(r"lays?|laid", "compiles, writes"),
    "is there": Word(r"(?:is|isn't|are|aren't|was|wasn't|were|weren't) there(?! (?:a|an|any|no)\b)", "exists, is available"),
    "but for": Word(r"but for", "except"),
    "what goes on": Word(r"what goes on|what is going on", "what is running"),
    "does scripts": Word(r"does scripts", "runs scripts"),
    "a fault ends": Word(r"a fault ends", "a fault stops"),
    "the gate": Word(r"the gate", "the test suite, ./test"),
    "the kit": Word(r"the kit(?:'s)?", "the Rattle toolchain"),
}


class Allowed(NamedTuple):
    """A phrase that isn't counted, in the files that match, with the reason."""

    phrase: str
    files: str
    reason: str


ALLOWED = (
    Allowed(r"stands? for", "*", "English for 'means' or 'takes the place of'"),
    Allowed(r"(?:laid|lays?) out", "*", "English for 'arranges': layouts of disks, memory and pages"),
    Allowed(r"doubles", "*", "the Standard's word for numbers of two cells"),
)

SUFFIXES = (".md", ".rt", ".unproved", ".antt", ".py", ".js", ".html", ".css", ".txt", ".h", ".c")
NOT_READ = ("tools/english.py", "tests/sources/english_cases.py", "tests/sources/english_limits.txt", "docs/definitions.html")  # the last is made of files that are


def pattern_of(words: str) -> "re.Pattern[str]":
    """Matches these words as whole words, in lower case or with a capital at the beginning, over line ends too.

    Words in capitals are names of Forth words, and are not matched."""
    spaced = words.replace(" (?!", "(?!\\s+").replace(" ", r"\s+")
    return re.compile(rf"(?<![\w-])(?:{spaced})(?![\w-])")


PATTERNS = {name: pattern_of(word.pattern) for name, word in WORDS.items()}


def lowered(text: str) -> str:
    """The text with a capital at a word's beginning made lower case; words in capitals stay."""
    return re.sub(r"\b[A-Z](?=[a-z])", lambda it: it[0].lower(), text)


def without_names(text: str) -> str:
    """The text without what is between backticks: names, and what programs print, which is counted in its source."""
    return re.sub(r"`[^`\n]*`", "``", re.sub(r"^```.*?^```", "", text, flags=re.M | re.S))


def comments(text: str, mark: str) -> str:
    """The comments of a source that begin with this mark, line by line."""
    return "\n".join(it[1] for it in re.finditer(rf"{mark}(.*)", text))


def python_texts(text: str) -> str:
    """The comments, docstrings and other strings of a Python program."""
    kinds = {tokenize.COMMENT, tokenize.STRING, getattr(tokenize, "FSTRING_MIDDLE", tokenize.STRING)}
    tokens = tokenize.generate_tokens(io.StringIO(text).readline)
    return "\n".join(token.string.lstrip("# ") for token in tokens if token.type in kinds)


def read_part(name: str, text: str) -> str:
    """The part of a file that a person reads."""
    if name.endswith(".md"):
        return without_names(text)
    if name.endswith((".rt", ".unproved")):
        return without_names(comments(text, r"//[/!]? ?"))
    if name.endswith(".antt"):
        return without_names(comments(text, r"--+ ?"))
    if name.endswith(".py") or re.match(r"#!.*python", text):
        return without_names(python_texts(text))
    return re.sub(r"(?m)^\s*(?:#|//|\*)+ ?", "", text)


def count(name: str, text: str) -> Dict[str, int]:
    """How many times each of the words is in what a person reads of this file; words that aren't there are left out."""
    part = lowered(read_part(name, text))
    for allowed in ALLOWED:
        if pathlib.PurePath(name).match(allowed.files):
            part = pattern_of(allowed.phrase).sub(" ", part)
    found = {name: len(pattern.findall(part)) for name, pattern in PATTERNS.items()}
    return {word: number for word, number in found.items() if number}


def is_read(path: pathlib.Path) -> bool:
    """Whether people read this file: a page, a source, or a script."""
    if path.suffix in SUFFIXES:
        return True
    with path.open("rb") as file:
        return path.suffix == "" and file.read(2) == b"#!"


def files() -> List[str]:
    """The files of the repository that people read."""
    listed = subprocess.run(["git", "ls-files", "-z"], cwd=ROOT, check=True, stdout=subprocess.PIPE).stdout.decode()
    names = [name for name in listed.split("\0") if name and name not in NOT_READ]
    return [name for name in names if (ROOT / name).is_file() and is_read(ROOT / name)]


def counts(names: Iterable[str]) -> Dict[str, Dict[str, int]]:
    """The counts of each file that has any."""
    found = {name: count(name, (ROOT / name).read_text(encoding="utf-8", errors="replace")) for name in names}
    return {name: words for name, words in found.items() if words}


def folder_of(name: str) -> str:
    """The folder at the top of the repository in which a file is; a dot for the top itself."""
    return name.split("/")[0] if "/" in name else "."


def by_folder(found: Dict[str, Dict[str, int]]) -> Dict[str, int]:
    """How many there are in each folder."""
    sums: Dict[str, int] = {}
    for name, words in found.items():
        sums[folder_of(name)] = sums.get(folder_of(name), 0) + sum(words.values())
    return dict(sorted(sums.items()))


def limits_of(text: str) -> Dict[str, int]:
    """The limits of a table: lines of a folder and a number; a line that begins with # is a comment."""
    lines = (line.split() for line in text.splitlines() if line.strip() and not line.startswith("#"))
    return {folder: int(number) for folder, number in lines}


def too_many(sums: Dict[str, int], limits: Dict[str, int]) -> List[str]:
    """The folders that have more than their limit; one that has no limit may have none."""
    listed = "tests/sources/check-english --files lists them"
    return [f"{folder} has {number} words of the idiom, and may have {limits.get(folder, 0)}; {listed}" for folder, number in sums.items() if number > limits.get(folder, 0)]
