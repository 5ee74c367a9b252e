"""What the scripts share that make files of this repository: they write them, or with --check only say which are not up to date."""
import argparse
import pathlib
import sys
from typing import Callable, Dict, List, Optional

ROOT = pathlib.Path(__file__).resolve().parent.parent
Files = Dict[pathlib.Path, str]


def bring(files: Files, writes: bool, how: str) -> List[str]:
    """Writes the files that are not up to date; or says which these are, and how they are written."""
    old = [path for path, text in files.items() if not path.exists() or path.read_text(encoding="utf-8") != text]
    for path in old if writes else ():
        path.write_text(files[path], encoding="utf-8")
    return [] if writes else [f"{path.relative_to(ROOT)} is not up to date: run {how}" for path in old]


def main(doc: Optional[str], files: Callable[[], Files], faults: Callable[[], List[str]] = list) -> int:
    """Writes the files, or compares them; prints what is wrong besides, too. The status; `doc` begins with what the script does."""
    words = argparse.ArgumentParser(description=(doc or "").partition("\n\n")[0])
    words.add_argument("--check", action="store_true", help="write nothing, and fail if a file is not as it would be written")
    writes = not words.parse_args().check
    return said([*faults(), *bring(files(), writes, f"tools/{pathlib.Path(sys.argv[0]).name}")])


def said(wrong: List[str]) -> int:
    """Prints what is wrong: the status."""
    print("".join(f"{line}\n" for line in wrong), end="", file=sys.stderr)
    return int(bool(wrong))
