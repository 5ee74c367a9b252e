"""The words that texts of Forth define, as their lines say it."""
import re
from typing import Dict, List, Optional, Set, Tuple

# What a defining word makes in a line that does not begin with a blank.
MADE = {"VARIABLE": "( -- a )", "CREATE": "( -- a )", "CONSTANT": "( -- x )", "VOCABULARY": "( -- )"}
Defined = Tuple[str, str, bool]


def defined(text: str) -> Set[Defined]:
    """Each word that a text defines: its name, its stack effect, and whether it is immediate."""
    words: Dict[str, List[str]] = {}
    last: Optional[str] = None
    for line in text.splitlines():
        parts = line.split()
        if line.startswith(("%", "(")) or not parts:
            continue
        if parts[0] == ":":
            effect = re.search(r"\( [^)]*\)", " ".join(parts[2:]))
            last = parts[1]
            words[last] = [effect[0] if effect else "", ""]
        elif not line.startswith(" "):
            for word, name in zip(parts, parts[1:]):
                if word in MADE:
                    words[name] = [MADE[word], ""]
        if last and "IMMEDIATE" in parts:
            words[last][1] = "immediate"
    return {(name, effect, bool(mark)) for name, (effect, mark) in words.items()}
