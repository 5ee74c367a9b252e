"""Lines that are wanted, as cases in the format of cram have them, and how those that came differ from them."""
import difflib
import re
import subprocess
from typing import List


def matches(wanted: bytes, got: bytes) -> bool:
    """A line may be as it is, or end with (esc), (re) or (glob)."""
    text, _, kind = wanted.rpartition(b" ")
    if kind == b"(esc)":
        return text.decode("unicode_escape").encode("latin-1") == got
    if kind == b"(re)":
        return bool(re.fullmatch(text, got))
    if kind == b"(glob)":
        signs = {b"*": b".*", b"?": b"."}
        return bool(re.fullmatch(b"".join(signs.get(it) or re.escape(it[-1:]) for it in re.findall(rb"\\.|.", text)), got))
    return wanted == got


def difference(wanted: List[bytes], got: List[bytes]) -> List[str]:
    """How the lines differ; none if they do not."""
    same = [got[at] if at < len(got) and matches(line, got[at]) else line for at, line in enumerate(wanted)]
    old, new = ([line.decode("latin-1").encode("unicode_escape").decode("ascii") for line in lines] for lines in (same, got))
    return list(difflib.unified_diff(old, new, "wanted", "got", lineterm=""))


def lines_of(printed: bytes, status: bytes) -> List[bytes]:
    """The lines that a command printed, and its status if that is not 0."""
    lines = [line[:-1] if line.endswith(b"\n") else line + b" (no-eol)" for line in printed.splitlines(True)]
    return lines + [b"[" + status + b"]"] * (status != b"0")


def ended(done: "subprocess.CompletedProcess[bytes]") -> List[bytes]:
    """The lines of a command that has ended."""
    return lines_of(done.stdout, str(done.returncode).encode())
