"""What data/words.txt and data/dialects.txt say of a word, for HELP."""
from __future__ import annotations

import os
import re
from typing import Union

import glossary

DOCS = os.path.join(os.fspath(glossary.ROOT), "docs")


def plain(text: str) -> str:
    """A text without its marks."""
    return re.sub(r"\[([^]]*)\]\([^)]*\)", r"\1", text.replace("`", "").replace("**", ""))


def entry(word: glossary.Word) -> str:
    """What is said of a word."""
    section = f"the inner words of screens/tools/{word.section.partition(':')[0]}" if word.part == glossary.INNER else word.section.partition(". ")[2]
    return described(word, section)


def described(word: Union[glossary.Word, glossary.DialectWord], where: str) -> str:
    """What is said of a word, and where it is."""
    immediate = ", immediate" if word.is_immediate else ""
    shows = f" shows {re.sub(r'^[.][.]', '.. ', word.shown)}" if word.shown else ""
    example = f"\n  example: {', '.join(word.typed)}{shows}." if word.typed else ""
    return f"{word.name}  {word.effect}{immediate}\n  {plain(word.says)}{example}\n  in: {where}"


def of_dialects(name: str) -> str:
    """What is said of a word that only dialects have."""
    named = [word for word in glossary.dialect_words() if word.name in (name, name.upper())]
    return "\n".join(described(word, ", ".join(glossary.DIALECTS[text] for text in word.dialects)) for word in named)


def help_for(name: str) -> str:
    """What HELP shows for a word, as it is typed or in capitals; where the manual is if there is no name."""
    if not name:
        return f"The manual is in {DOCS}"
    try:
        named = [word for word in glossary.read() if word.name in (name, name.upper())]
        others = "" if named else of_dialects(name)
    except OSError as error:
        return f"cannot read {error.filename}: {error.strerror}"
    loaded = [word for word in named if word.part in (glossary.KERNEL, glossary.TOOLS)]
    rest = [word for word in named if word not in loaded]
    if not named:
        return others or f"docs/WORDS.md has no word {name}; WORDS {name} lists the names that contain it"
    return "\n".join(map(entry, loaded[::-1] + rest))  # the tools' word runs, and hides the kernel's
