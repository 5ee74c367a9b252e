"""Compares the page's films with what `forth83 debug` writes: each step's place and both stacks."""
import base64
import json
import pathlib
import shutil
import subprocess
from typing import List

import page_modules
import teaching_runs
from page_steps import Runner

SCREEN = 30
# A word, its source, and a line with it: a loop, a fault, blocks. tests/pages/check-teaching compares more.
WORDS = [
    ("SQUARES", ": SQUARES ( n -- ) 0 ?DO I DUP * . LOOP ;", "5 SQUARES"),
    ("BAD", ": BAD ( -- ) 3 0 DO I 1- 10 SWAP / . LOOP ;", "BAD"),
    ("SHOW", ": SHOW ( n -- ) DUP BLOCK 16 TYPE DROP ;", "30 SHOW"),
]


def debugged(program: pathlib.Path, image: pathlib.Path, kernel: pathlib.Path, room: pathlib.Path, word: str, source: str, line: str) -> List[teaching_runs.Line]:
    """The steps as the program writes them, over the page's own image."""
    blocks, text, own = room / "film.blk", room / "film.txt", room / "film.img"
    text.write_text(f"% screen {SCREEN}\n{source}\n", encoding="ascii")
    shutil.copy(kernel, blocks)
    for words in (["screens", text, blocks], ["load", image, blocks, SCREEN, SCREEN, own]):
        page_modules.run([program, *words])
    subprocess.run([program, "debug", own, word, room / "film.steps", blocks], input=(line + "\n").encode(), stdout=subprocess.DEVNULL, check=False)
    return teaching_runs.lines_of(room / "film.steps")


def filmed(runner: Runner, word: str, source: str, line: str) -> List[object]:
    """The steps that the page shows."""
    runner.value("page.session.start(builtIn('forth.blk')); 0")
    runner.idle()
    runner.value(f"page.session.put({SCREEN}, pageOf([{json.dumps(source)}]).page); 0")
    runner.verb("type", f"{SCREEN} LOAD")
    runner.verb("film", line)
    return [step[:4] for step in teaching_runs.steps_of(runner.value("page.film.data"), word)]


def check(runner: Runner, program: pathlib.Path) -> int:
    """Films of all the words: how many steps were compared."""
    runner.verb("forget")
    image, kernel, count = runner.room / "page.img", runner.room / "kernel.blk", 0
    image.write_bytes(base64.b64decode(runner.value("toBase64(DATA.image)")))
    page_modules.run([program, "kernel", kernel])
    for word, source, line in WORDS:
        wanted, got = debugged(program, image, kernel, runner.room, word, source, line), filmed(runner, word, source, line)
        differ = [pair for pair in zip(wanted, got) if pair[0] != pair[1]]
        runner.cases.must(len(wanted) > 3 and wanted == got, f"the film of {word}: {len(wanted)} steps wanted, {len(got)} got, first {differ[:1]}")
        count += len(wanted)
    return count
