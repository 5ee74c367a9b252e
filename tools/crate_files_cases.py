"""Cases for tools/crate-files, written by hand: files, and what the table of a README says of them."""
from typing import List, Tuple

import crate_files as files

# the mark of a comment, the text of a file, its first sentence
SENTENCES: Tuple[Tuple[str, str, str], ...] = (
    ("//!", "//! The words of a thread.\n\nuse x;\n", "The words of a thread."),
    ("//!", "//! Memory, which goes on\n//! in a line. Another sentence.\n", "Memory, which goes on in a line."),
    ("//!", "use x;\n//! Too late.\n", ""),
    ("--", "-- No full stop\nuse Rattle.std\n", "No full stop."),
    ("--", "-- Cells of 1.5 bytes, e.g. none.\n", "Cells of 1.5 bytes, e.g. none."),
    ("--", "-- : A ( -- ) B ;\n", ": A ( -- ) B ;"),
    ("--", "\n-- Not in the first line.\n", ""),
)
SOURCES = [
    files.Source("specs/Seen.antt", "-- What it keeps.\n"),
    files.Source("specs/Cell.antt", "use Rattle.std\n"),
    files.Source("src/lib.rt", "//! A | B.\n"),
]
README = f"# see\n\n{files.BEGINS}\n\n| file | what is in it |\n|---|---|\n| `specs/Cell.antt` | By hand. |\n| `src/lib.rt` | Old. |\n\n{files.ENDS}\n\nMore.\n"
WANTED = (
    f"# see\n\n{files.BEGINS}\n\n| file | what is in it |\n|---|---|\n| `specs/Seen.antt` | What it keeps. |\n"
    f"| `specs/Cell.antt` | By hand. |\n| `src/lib.rt` | A \\| B. |\n\n{files.ENDS}\n\nMore.\n"
)


def wrong() -> List[str]:
    """The cases that come to something else."""
    found = [repr(text) for mark, text, sentence in SENTENCES if files.first_sentence(text, mark) != sentence]
    if files.with_table(README, SOURCES) != (WANTED, []):
        found.append("a README with an old row, one by hand and one too few")
    if files.with_table(WANTED, SOURCES) != (WANTED, []):
        found.append("a README that is right")
    if len(files.with_table(README.replace("| `specs/Cell.antt` | By hand. |\n", ""), SOURCES)[1]) != 1:
        found.append("a file of which nothing is said")
    if len(files.with_table(README.replace(files.ENDS, ""), SOURCES)[1]) != 1:
        found.append("a README with one mark")
    return found
