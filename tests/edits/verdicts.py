"""What one check of an edited crate printed, and by which goal it refuses an edit.

The prover prints a line for each function: `fn PATH: proved`, or why there is no proof. The goals that are open are named there, as in
"`search` did not prove `returns`", or have a note at their place in the sources or an error in the files of the function's proof. A
function that calls one without a proof has none either; this alone says nothing of its own body."""
import enum
import re
from typing import Dict, FrozenSet, List, NamedTuple, Optional

import bodies

FUNCTION = re.compile(r"^fn (\S+): (.+)$", re.M)
GOALS = re.compile(r"did not prove ((?:`[^`]+`(?:, )?)+)")
NOTE = re.compile(r"^note: (?:\./)?(src/\S+?):(\d+):\d+: it is not proved (.*)$", re.M)
ERROR = re.compile(r"^(?:\./)?((?:src|specs|proofs)/\S+?):\d+:\d+: error: (.*)$", re.M)
MISSING = re.compile(r"is not in scope|no field|record `|has no `|is no name|was not admitted|operand is missing|expected the end|cannot continue")
LAST = re.compile(r"^logic=(proved|not-proved)\b[^\n]*\Z", re.M)
# The last line of a check of some functions alone: how many there were, and how many of them were proved.
ONLY = re.compile(r"^only=(\d+) proved=(\d+)\Z", re.M)
# The libraries were not those that the check was to load.
STALE = re.compile(r"Run the lower steps again")


class Kind(enum.Enum):
    """What a check says of an edit."""

    REFUSED = "refused"
    MISSING = "REFUSED ONLY BECAUSE A NAME IS MISSING"
    PASSED = "NOT REFUSED"
    UNREADABLE = "NOT JUDGED"


class Verdict(NamedTuple):
    """What a check says of an edit, and why: of a refused one the function and its first open goal."""

    kind: Kind
    why: str


class Check(NamedTuple):
    """What a check printed, and the status with which it ended."""

    text: str
    status: int

    def is_complete(self) -> bool:
        """Whether the check came to its end, and its status agrees with its last line."""
        text = self.text.rstrip("\n")
        whole, only = LAST.search(text), ONLY.search(text)
        is_proved = whole is not None and whole[1] == "proved" or only is not None and only[1] == only[2]
        return (whole or only) is not None and not STALE.search(text) and self.status == (0 if is_proved else 1)

    def functions(self) -> Dict[str, str]:
        """What is said of each function: `proved`, or why not."""
        return {it[1]: it[2] for it in FUNCTION.finditer(self.text)}

    def printed(self, function: str) -> Optional[str]:
        """The name that is printed for a function: of a method, the module is its type's, which may not be that of its block."""
        names, parts = self.functions(), function.split("::")
        if function in names or len(parts) < 3 or not parts[-2][0].isupper():
            return function if function in names else None
        found = [name for name in names if name.split("::")[-2:] == parts[-2:]]
        return found[0] if len(found) == 1 else None

    def unread(self) -> List[str]:
        """What the prover could not read of the sources and the definitions."""
        found = (it[2] for it in ERROR.finditer(self.text) if not it[1].startswith("proofs/"))
        return [error for error in found if not error.startswith("`") or MISSING.search(error)]


def errors_of(check: Check, function: str) -> List[str]:
    """The errors in the files of a function's proof."""
    folder = "/".join(["proofs", *function.split("::")[1:], ""])
    return [it[2] for it in ERROR.finditer(check.text) if it[1].startswith(folder)]


def goals_of(check: Check, function: str) -> List[str]:
    """The goals that are open according to a function's own line, or by an error in its proof, unless it says that a name is missing."""
    said = check.functions().get(function, "proved")
    named = [goal for it in GOALS.finditer(said) for goal in re.findall(r"`[^`]+`", it[1])]
    return named + [error for error in errors_of(check, function) if said != "proved" and not MISSING.search(error)]


def notes_at(check: Check, place: bodies.Place) -> List[str]:
    """What is noted as not proved at a function's own lines."""
    found = (it for it in NOTE.finditer(check.text) if it[1] == place.path)
    return [it[3] for it in found if place.body.begins < int(it[2]) <= place.body.last + 1]


def with_goals(check: Check) -> FrozenSet[str]:
    """The functions that have an open goal of their own."""
    return frozenset(function for function in check.functions() if goals_of(check, function))


def unsound(check: Check) -> List[Verdict]:
    """Why a check cannot be judged; nothing, if it can."""
    if not check.is_complete():
        return [Verdict(Kind.UNREADABLE, "the check did not come to its end")]
    return [Verdict(Kind.MISSING, error) for error in check.unread()]


def verdict_on(check: Check, place: bodies.Place) -> Verdict:
    """What a check says of a function that an edit changed."""
    if unsound(check):
        return unsound(check)[0]
    function = check.printed(place.body.function)
    if function is None:
        return Verdict(Kind.UNREADABLE, f"the check printed nothing of {place.body.function}")
    said = check.functions()[function]
    if said == "proved":
        return Verdict(Kind.PASSED, f"{function} is proved")
    goals = goals_of(check, function) or notes_at(check, place)
    if goals:
        return Verdict(Kind.REFUSED, f"{function}, {goals[0]}")
    missing = errors_of(check, function)
    return Verdict(Kind.MISSING, f"{function}, {missing[0]}") if missing else Verdict(Kind.PASSED, f"{function} has no open goal: {said}")


def verdict_on_any(check: Check) -> Verdict:
    """What a check says of an edit that changes more than bodies."""
    if unsound(check):
        return unsound(check)[0]
    found = sorted(with_goals(check))
    if found:
        return Verdict(Kind.REFUSED, f"{found[0]}, {goals_of(check, found[0])[0]}")
    missing = [it[2] for it in ERROR.finditer(check.text)]
    return Verdict(Kind.MISSING, missing[0]) if missing else Verdict(Kind.PASSED, "no function has an open goal")
