"""What a survey of old screens knows of the texts of this repository, as Rattle: tools/make-survey-texts writes it.

The texts are screens/dialects/*.txt, screens/tools/dialect.txt and the glossaries in data/glossaries.
"""
import functools
import pathlib
import re
from typing import Dict, FrozenSet, Iterable, List, Set

ROOT = pathlib.Path(__file__).resolve().parent.parent
DIALECTS, GLOSSARIES = ROOT / "screens/dialects", ROOT / "data/glossaries"
CRATE = ROOT / "crates/survey_tables/src"
NAMES = {"fig": "fig-FORTH", "f79": "Forth-79", "f83": "F83", "poly": "polyFORTH"}
# What systems had beyond these, each with the dialect that it goes back to.
SYSTEMS = {"mms": ("MMSFORTH", "f79"), "mvp": ("MVP-FORTH", "f79"), "hs": ("HS/FORTH", "f79"), "volks": ("volksFORTH", "f83"), "rsc": ("RSC-FORTH", "fig")}
KEYS = (*NAMES, *SYSTEMS)
MAKING = ("VARIABLE", "CONSTANT", "CREATE", "2VARIABLE", "2CONSTANT")
WIDTH = 96
# Sums of screens that were among the dialects once: devices at addresses. A file of blocks may have them still, and they are not its owner's.
EARLIER = (0x5B9F6ADC78CE5C60, 0xDEB4DA5A6B4406F7)
HEAD = re.compile(r"\A((?:# .*\n)+)")


def text_of(key: str) -> str:
    return (DIALECTS / f"{key}.txt").read_text(encoding="ascii")


def screens(key: str) -> Dict[int, bytes]:
    """A text's screens by their numbers, as they are in a file of blocks."""
    pieces = dict(piece.split("\n", 1) for piece in f"\n{text_of(key)}".split("\n% screen ")[1:])
    return {int(number): "".join(line.ljust(64) for line in piece.rstrip("\n").split("\n")).ljust(1024).encode("ascii") for number, piece in pieces.items()}


def hidden(key: str) -> Set[str]:
    """The names that a dialect hides once it is loaded: its HELPERS."""
    found = re.search(r"^: HELPERS \( -- \) (.*?) ;$", text_of(key), re.M | re.S)
    return {"HELPERS", *found[1].split()} if found else set()


def names(key: str) -> Set[str]:
    """The names that a text of screens makes, except those that it hides."""
    made = set()
    for line in text_of(key).splitlines():
        words = line.split()
        made |= {name for word, name in zip(words, words[1:]) if word in MAKING or word == ":" and line.startswith(": ")}
    return made - hidden(key)


def left_out(key: str) -> Dict[str, str]:
    """The words that a text leaves out, each with the reason that the Forth gives: lists after LEAVE-OUT, or words of NO."""
    found: Dict[str, str] = {}
    for reason, words in re.findall(r'^LEAVE-OUT ," (.*?)"\n,"  (.*?) "$', text_of(key), re.M | re.S):
        found.update(dict.fromkeys(words.split(), reason))
    for reason, words in re.findall(r'^BECAUSE (.*?)"\n(.*?)(?=^BECAUSE|^TOOLS|\Z)', text_of(key), re.M | re.S):
        found.update(dict.fromkeys(re.findall(r"(?<!\S)NO (\S+)", words), reason))
    return found


@functools.lru_cache(maxsize=None)
def glossary(key: str) -> FrozenSet[str]:
    """The words of a published glossary, as a file of data/glossaries lists them below the lines that name it."""
    return frozenset(HEAD.sub("", (GLOSSARIES / key).read_text(encoding="ascii")).split())


def tool_names() -> Set[str]:
    """The tools that a screen doesn't find, by the tools' own list."""
    text = (ROOT / "screens/tools/dialect.txt").read_text(encoding="ascii")
    return set(re.findall(r"^: TOOL-WORDS \( -- \) (.*?) ;$", text, re.M | re.S)[0].split()) - {"[COMPILE]"}


def sum_of(screen: bytes) -> int:
    """FNV-1a with 64 bits."""
    total = 0xCBF29CE484222325
    for byte in screen:
        total = (total ^ byte) * 0x100000001B3 % 2**64
    return total


def literal(text: str) -> str:
    return text.replace("\\", "\\\\").replace('"', '\\"')


def folded(pieces: Iterable[str], between: str) -> List[str]:
    """Pieces in lines of at most WIDTH letters, with this between them."""
    lines = [""]
    for piece in pieces:
        if lines[-1] and len(lines[-1]) + len(between) + len(piece) > WIDTH:
            lines.append("")
        lines[-1] += (between if lines[-1] else "") + piece
    return lines


def words(listed: Iterable[str]) -> str:
    """A text of words with blanks between them."""
    return 'b"' + " \\\n    ".join(folded(map(literal, listed), " ")) + '"'


def static(name: str, what: str, kind: str, value: str) -> str:
    """A static in the layout of rt fmt."""
    head = f"/// {what}\npub static {name}: {kind} ="
    return f"{head}\n    {value};\n" if value.startswith('b"') and "\n" in value else f"{head} {value};\n"


def listed(name: str, what: str, found: Iterable[str]) -> str:
    return static(name, what, "&[u8]", words(sorted(found)))


def numbers(name: str, what: str, kind: str, found: Iterable[str]) -> str:
    items = list(found)
    lines = items if max(map(len, items)) > 10 else folded(items, ", ")
    rows = "".join(f"    {line},\n" for line in lines)
    row, kinds = f"[{', '.join(items)}]", f"[{kind}; {len(items)}]"
    is_short = len(f"pub static {name}: {kinds} = {row};") <= 100
    return static(name, what, kinds, row if is_short else f"[\n{rows}]")


def reasons(key: str) -> str:
    """What a text leaves out."""
    found: Dict[str, List[str]] = {}
    for word, why in left_out(key).items():
        found.setdefault(why, []).append(word)
    rows = "".join(f'    LeftOut {{\n        why: b"{literal(why)}",\n        words: {words(them)},\n    }},\n' for why, them in found.items())
    return static(f"LEFT_OUT_{key.upper()}", f"What {key}.txt leaves out, and why.", f"[LeftOut; {len(found)}]", f"[\n{rows}]")


def glossary_of(key: str) -> str:
    """The words of a glossary, and what it is."""
    text = (GLOSSARIES / key).read_text(encoding="ascii")
    head = HEAD.match(text)
    what = " ".join(line[2:] for line in (head[1] if head else "").splitlines())
    return static(key.upper(), what, "&[u8]", words(HEAD.sub("", text).split()))


def texts() -> str:
    """What the texts of this repository say."""
    sums = sorted({*EARLIER, *(sum_of(screen) for path in DIALECTS.glob("*.txt") for screen in screens(path.stem).values())})
    parts = ["//! What texts of this repository say. tools/make-survey-texts wrote it: change the texts.\n\nuse crate::words::LeftOut;\n"]
    parts.append(listed("TOOLS", "The tools that screens don't find.", tool_names()))
    parts.append(listed("HIDDEN", "What each dialect hides once it is loaded.", set.intersection(*map(hidden, NAMES))))
    parts += [listed(f"NAMES_{key.upper()}", f"The names that {key}.txt makes.", names(key)) for key in NAMES]
    parts += [numbers(f"SCREENS_{key.upper()}", f"The screens of {key}.txt.", "u16", map(str, screens(key))) for key in KEYS]
    parts += [reasons(key) for key in KEYS]
    parts.append(numbers("SUMS", "A sum of each screen of screens/dialects, ascending.", "u64", (f"0x{one:016x}" for one in sums)))
    return "\n".join(parts)


def glossaries() -> str:
    """The glossaries."""
    head = "//! The words of published glossaries. tools/make-survey-texts wrote it: change the files of data/glossaries.\n"
    return "\n".join([head, *map(glossary_of, KEYS)])


def made() -> Dict[pathlib.Path, str]:
    """The files of the crate that are made."""
    return {CRATE / "texts.rt": texts(), CRATE / "glossaries.rt": glossaries()}
