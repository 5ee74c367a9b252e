"""The image that a session starts with: the kernel, the language as people type it, and the words that ask the host for services.

It is kept in build/out, named by a sum of all that it is made of. `forth83` itself makes it, as it makes each image.
"""
from __future__ import annotations

import glob
import hashlib
import os
import re
import textwrap
from typing import Any, Callable

import glossary
from served import paging
from served.table import numbers

ROOT = os.path.dirname(os.path.dirname(os.path.dirname(os.path.realpath(__file__))))
TEXTS = sorted(glob.glob(os.path.join(ROOT, "screens", "tools", "*.txt")))
ORDER = os.path.join(ROOT, "screens", "order.txt")  # is loaded over the image, puts its words into their order, and forgets itself
LISTS = [os.fspath(glossary.WORDS), os.path.realpath(glossary.__file__)]  # have the inner words
LIBRARY = os.path.join(ROOT, "screens", "library")  # texts that INCLUDE finds from any folder
DIALECT = os.path.join(ROOT, "screens", "tools", "dialect.txt")
OF_DIALECTS = "( Order: what dialects need"  # how the screen of the order begins that images of programs lack
KERNEL_TEXT = os.path.join(ROOT, "screens", "kernel.txt")
SYSTEM = "system.json"  # the screens of the system's words, by their numbers
BLOCK = 1024
NEW = "kernel.blk"
KERNEL = "1", "20"  # its screens


class NotMade(Exception):
    """The image cannot be made, and why."""


def with_numbers(text: str) -> str:
    """The text with the number of each service in the place of its name between two @."""
    return re.sub(r"@([A-Z?()-]+)@", lambda found: str(numbers()[found[1]]), text)


def inner_lists() -> dict[str, list[str]]:
    """The inner words, which go to TOOLS: of the first two lists one half each; those that dialects need are in the third."""
    inner = [word for word in glossary.read() if word.part == glossary.INNER]
    dialects = [word.name for word in inner if word.section.startswith(os.path.basename(DIALECT))]
    others = [word.name for word in inner if word.name not in dialects]
    return {"INNER1": others[: len(others) // 2], "INNER2": others[len(others) // 2 :], "INNER3": dialects}


def with_lists(order: str) -> str:
    """The text with the lists of inner words in the place of their names between two @."""
    for name, words in inner_lists().items():
        lines = textwrap.wrap(f": {name} ( -- ) {' '.join(words)} ;", 63, break_long_words=False, break_on_hyphens=False)
        order = order.replace(f"@{name}@", "\n".join(lines))
    return order


def sum_of(paths: list[str]) -> str:
    made = hashlib.sha256()
    for path in [*paths, os.path.realpath(__file__), os.path.realpath(paging.__file__)]:
        with open(path, "rb") as file:
            made.update(file.read())
    made.update(repr(numbers()).encode())
    return made.hexdigest()[:16]


def folders() -> list[str]:
    """Where images are kept: in the tree, or for a user who cannot write there among the user's own files."""
    cache = os.environ.get("XDG_CACHE_HOME") or os.path.join(os.path.expanduser("~"), ".cache")
    return [os.path.join(ROOT, "build", "out"), os.path.join(cache, "jaurimet")]


def kept(kind: str, made_of: list[str], make: Callable[[str], None]) -> str:
    """The folder of these images, which are made now if they are not there. What cannot be kept is in a folder that stays until the
    system removes it."""
    name = f"{kind}-{sum_of(made_of)}"
    for folder in folders():
        if os.path.isdir(os.path.join(folder, name)):
            return os.path.join(folder, name)
    import shutil  # images are seldom made

    room, path = new_room(name)
    try:
        make(room)
        os.chmod(room, 0o755)
        if path != room:
            os.rename(room, path)
    except (NotMade, OSError):
        shutil.rmtree(room, ignore_errors=True)
        if not os.path.isdir(path):  # another session has made them meanwhile
            raise
    return path


def new_room(name: str) -> tuple[str, str]:
    """A new folder, and what it is called once its images are whole."""
    import tempfile

    for folder in folders():
        try:
            os.makedirs(folder, exist_ok=True)
            return tempfile.mkdtemp(dir=folder), os.path.join(folder, name)
        except OSError:
            pass
    room = tempfile.mkdtemp()
    return room, room


def find(program: str, kernel: str = "") -> str:
    """The folder with `served.img`, what a session starts with; `small.img`, the same without what dialects need, for programs; and
    `plain.img`, the kernel alone. The kernel is the program's own, or that in screens 1 to 20 of a file."""
    if kernel and not os.path.isfile(kernel):
        raise NotMade(f"{kernel}: it does not exist, or cannot be read: name a file of blocks")
    if not kernel and os.path.isdir(beside(program)):
        return beside(program)
    made_of = [program, *TEXTS, ORDER, KERNEL_TEXT, *LISTS, *([kernel] if kernel else [])]
    return kept("served", made_of, lambda room: make(program, kernel, room))


def sum_beside() -> str:
    """The name of the folder that has images beside a program: a sum of what they are made of, except the program."""
    return sum_of([*TEXTS, ORDER, KERNEL_TEXT, *LISTS])


def beside(program: str) -> str:
    """Where the same images, and a new file of blocks, are beside a program that cannot make them, as a server in C."""
    return os.path.join(os.path.dirname(os.path.realpath(program)), "images", sum_beside())


def run(*words: str) -> str:
    """Runs the program, and returns what it prints; NotMade if it refuses."""
    import subprocess

    done = subprocess.run(words, stdin=subprocess.DEVNULL, capture_output=True, check=False)
    if done.returncode:
        raise NotMade((done.stdout + done.stderr).decode(errors="replace").strip() or f"{words[1]} ended with {done.returncode}")
    return done.stdout.decode(errors="replace")


def read(path: str) -> str:
    with open(path, encoding="utf-8") as file:
        return file.read()


def write(path: str, text: str) -> str:
    with open(path, "w", encoding="utf-8") as file:
        file.write(text)
    return path


def make_kernel(program: str, kernel: str, room: str, blocks: str) -> None:
    """Makes `plain.img`, and the kernel's screens in a file of blocks."""
    if not kernel:
        run(program, "kernel", blocks)
    else:
        with open(kernel, "rb") as given, open(blocks, "wb") as file:
            file.write(given.read())
    try:
        run(program, "build", "--where", "--", kernel or blocks, *KERNEL, os.path.join(room, "plain.img"))
    except NotMade as error:
        if not kernel:
            raise
        launcher = os.path.join(ROOT, "forth83")
        raise NotMade(
            f"{error}\nforth: nothing was changed; ./forth BLOCKS still starts with the program's own kernel\n"
            f"forth: to restore the kernel's screens, run: {launcher} kernel new.blk\n"
            f"forth: then: dd if=new.blk of={kernel} bs=1024 skip=1 seek=1 count=20 conv=notrunc"
        ) from error


def parts_of(program: str, path: str, text: str) -> list[paging.Screen]:
    """What is below each heading of the text in a file."""
    return paging.parts_of(os.path.relpath(path, ROOT), text, paging.headings_in(run(program, "headings", "--", path)))


def screens(program: str) -> list[paging.Screen]:
    """The screens of the tools."""
    return paging.paged([part for path in TEXTS for part in parts_of(program, path, read(path))])


def order_of(program: str) -> list[paging.Screen]:
    """The screens that put the words into their order."""
    import tempfile

    with tempfile.TemporaryDirectory() as room:
        text = with_lists(read(ORDER))
        return parts_of(program, write(os.path.join(room, "order"), text), text)


def system(images: str) -> dict[str, Any]:
    """The screens of the system's words, by their numbers: of each the file that has it, and its lines as a text. IMAGES is a folder of images."""
    import json  # few sessions want it

    found: dict[str, Any] = json.loads(read(os.path.join(images, SYSTEM)))
    return found


def run_over(tools: list[paging.Screen], *words: str) -> None:
    """Runs the program over these screens; NotMade names the file and the line of what it refuses, not those of the files here."""
    try:
        run(*words)
    except NotMade as error:
        first, *rest = str(error).splitlines()
        mark = rest[1:] if len(rest) > 1 else rest
        raise NotMade("\n".join([f"{paging.place_of(tools, first)}: {first}", *mark])) from error


def make_served(program: str, kernel: bytes, tools: list[paging.Screen], order: list[paging.Screen], made: str) -> None:
    """Makes an image of the kernel's screens and these, with its words in their order."""
    import tempfile

    with tempfile.TemporaryDirectory() as room:
        text, blocks, orders, first = (os.path.join(room, name) for name in ("text", "all.blk", "order.blk", "made.img"))
        with open(blocks, "wb") as file:
            file.write(kernel[:BLOCK] + re.sub(rb"BOOT COLD *", lambda found: b" " * len(found[0]), kernel[BLOCK : 21 * BLOCK]))
        last = paging.Screen(tools[-1].number + 1, "", [(1, "BOOT COLD")])
        run_over(tools, program, "screens", write(text, with_numbers(paging.text_of([*tools, last]))), blocks)
        run_over(tools, program, "build", "--where", blocks, "1", str(last.number), first)
        run(program, "screens", write(text, paging.text_of(order)), orders)
        run(program, "load", first, orders, "1", str(order[-1].number), made)


def make(program: str, kernel: str, room: str) -> None:
    """Makes the images of a session in a folder, a new file of blocks, which has the kernel's screens, and a list of the system's screens."""
    import json

    blocks = os.path.join(room, NEW)
    make_kernel(program, kernel, room, blocks)
    with open(blocks, "rb") as file:
        kernel_screens = file.read()
    if kernel:
        os.unlink(blocks)
    tools, order = screens(program), order_of(program)
    make_served(program, kernel_screens, tools, order, os.path.join(room, "served.img"))
    small = [screen for screen in tools if screen.path != os.path.relpath(DIALECT, ROOT)]
    order = [screen for screen in order if not any(line.startswith(OF_DIALECTS) for _, line in screen.lines)]
    make_served(program, kernel_screens, small, order, os.path.join(room, "small.img"))
    listed = {it.number: (it.path, "\n".join(line for _, line in it.lines)) for it in [*parts_of(program, KERNEL_TEXT, read(KERNEL_TEXT)), *tools]}
    write(os.path.join(room, SYSTEM), json.dumps(listed))
