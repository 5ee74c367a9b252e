"""Cases for tests/sources/check-english, each counted by hand: a file's name, its text, and how many words of the idiom it has."""
from typing import List, Tuple

import english

CASES: Tuple[Tuple[str, str, int], ...] = (
    ("page.md", "What stands behind it is told.", 3),
    ("page.md", "Behind it the gate is.", 2),
    ("page.md", "BEHIND and `behind` are names; behind_cell, left-behind and behind-hand too.", 0),
    ("page.md", "```\nbehind\n```\nDP stands for a pointer, doubles are numbers, pages are laid out.", 0),
    ("page.md", "It fails for want\nof memory, but\nfor one.", 2),
    ("page.md", "Where a file isn't there it is made. Is there a file?", 1),
    ("a.rt", "let behind = 1; // what is laid\n/// A slip is mended.\nfn told() {}", 3),
    ("a.unproved", "let behind = 1; // what is laid\n", 1),
    ("a.antt", "told = behind -- what is begun", 1),
    ("a.py", "behind = 1  # told\nprint('behind')\n", 2),
    ("tool", "#!/usr/bin/env bash\n# The small\n# letters\necho told\n", 2),
    ("tool", "#!/usr/bin/env python3\ntold = 'It broke off'\n", 1),
    ("a.txt", ': TOLD ." is told" ;', 1),
)


def wrong() -> List[str]:
    """What of the cases, of the folders and of the limits isn't as it was counted by hand."""
    missed = [
        f"case {text!r} of {name}: {sum(english.count(name, text).values())} words, and not {number}"
        for name, text, number in CASES
        if sum(english.count(name, text).values()) != number
    ]
    sums = english.by_folder({"a/b.md": {"behind": 2}, "a/c.md": {"begun": 1}, "d.md": {"slip": 1}})
    if sums != {"a": 3, ".": 1}:
        missed.append(f"the sums of folders are {sums}")
    if len(english.too_many(sums, english.limits_of("# limits\na 2\n"))) != 2 or english.too_many(sums, {"a": 3, ".": 1}):
        missed.append("the limits aren't compared")
    return missed
