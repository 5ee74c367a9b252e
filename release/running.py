"""What runs on a target with nothing else: images, a file of blocks, the shared library, and the hosts of examples/ in C, compiled if Debian's
compiler for the target is here."""
import os
import pathlib
import re
import shutil
import sys

import lowering
from lowering import called

ROOT = pathlib.Path(__file__).resolve().parent.parent
sys.path[:0] = [str(ROOT / "tests/targets"), str(ROOT / "commands"), str(ROOT / "build/targets/python")]

import forth83  # noqa: E402
import target_runs  # noqa: E402
from served import image  # noqa: E402

ABI = forth83.ABI
SHARED = f"libforth83.so.{ABI}"
# What a shared library gives to others, and what it was made for.
EXPORTS = f"FORTH83_{ABI} {{ global: forth83_*; local: *; }};\n"
# The options of each target's compiler beside those that every program has; they have all that they need in themselves, and no time.
STATIC = {"x86_64-linux": ["-static"], "x86_64-windows": ["-Wl,--no-insert-timestamp"]}
HOSTS = {"terminal": ["-D_DEFAULT_SOURCE"], "serve": ["-D_DEFAULT_SOURCE"]}
# What examples/board makes for a target, and with which options.
BOARDS = {"cortex-m0": "forth.uf2", "cortex-m3": "board.elf"}
BEGIN = """# Jaurimet for {what}

This archive has a Forth-83 system with block storage, as a library in C and, if `bin` is here, as programs.

{programs}
- **A program of your own**: [docs/EMBEDDING.md](docs/EMBEDDING.md) begins with one that runs. `include` and {library} are the library;
  `examples` has hosts in C, C++ and Python.{shared}
- **Images**: `images/kernel.img` is the Forth-83 system, and its source is in `images/kernel.blk`, screens 1 to 20. `images/tools.img` is the Forth of
  a session, for hosts and boards. Images are the same on all targets.
"""
SHARED_SAYS = f" `lib/{SHARED}` is for the Python module in `python`."
FILES_SAY = """- **A Forth at a terminal**: `bin/terminal{suffix} images/kernel.img my.blk`. `images/empty.blk` is a file of 64 blank screens: copy it to `my.blk`
  first. Type `3 4 + .` and return; `BYE` leaves, and changed screens are written then. The program needs nothing else.
- **The session of `./forth`**, with SEE, DEBUG, EDIT and INCLUDE, is a program in Python, which drives `bin/serve`: unpack the release's source
  anywhere, and start `python3 SOURCE/commands/launch --program bin/serve my.blk`.
"""
BOARDS_SAY = {
    "forth.uf2": "- **A Forth on the RP2040**: copy `bin/forth.uf2` to the board as it asks for it, and connect its serial line (GP0, GP1) to a PC.",
    "board.elf": "- **A Forth on a board, in its emulator**: `qemu-system-arm -M mps2-an385 -display none -serial pty -kernel bin/board.elf`.",
}
TARGET_SAYS = " On the PC `./forth --target DEVICE` is a session on the board.\n"
LIBRARY_SAYS = "`lib`, with what pkg-config and CMake find it by,"
NONE_SAYS = "- There are no programs here: compile `examples/terminal.c` with your compiler.\n"


def put_images(folder: pathlib.Path, program: pathlib.Path, launcher: pathlib.Path) -> None:
    """The kernel's image, that of a session, and files of blocks."""
    images = folder / "images"
    images.mkdir()
    called([str(program), "kernel", str(images / "kernel.blk")])
    called([str(program), "build", str(images / "kernel.blk"), "1", "20", str(images / "kernel.img")])
    called([str(launcher), "--image", str(images / "tools.img"), "-e", "REQUIRE board.fs"], env={**os.environ, "PYTHONDONTWRITEBYTECODE": "1"})
    called([str(program), "new", str(images / "empty.blk"), "64"])


def has_compiler(target: str) -> bool:
    """Whether the target's compiler is here; says so if not."""
    runner = target_runs.RUNNERS[target]
    if target_runs.compiler_missing(target):
        lowering.say(f"dist: {target} has no programs, since {runner.compiler[0]} is not installed ({runner.packages})")
        return False
    return True


def compile_to(made: pathlib.Path, *words: object) -> None:
    """Compiles something, without what its makers alone can read."""
    made.parent.mkdir(exist_ok=True)
    called([str(word) for word in (*words, "-s", "-o", made)])


def put_hosts(folder: pathlib.Path, target: str, kept: pathlib.Path) -> str:
    """The hosts in C, compiled over the library, with the images of sessions; what the page says of them."""
    suffix = ".exe" if target.endswith("windows") else ""
    for name, options in HOSTS.items():
        compile_to(
            folder / "bin" / (name + suffix),
            *target_runs.RUNNERS[target].compiler,
            *target_runs.STRICT,
            *STATIC.get(target, []),
            *options,
            f"-I{folder / 'include'}",
            ROOT / f"examples/{name}.c",
            folder / "lib/libforth83.a",
        )
    shutil.copytree(kept, folder / "bin/images" / image.sum_beside())
    return FILES_SAY.format(suffix=suffix)


def put_shared(folder: pathlib.Path, target: str) -> None:
    """The shared library, with the name by which programs find it."""
    exports = folder / "exports"
    exports.write_text(EXPORTS, encoding="ascii")
    compile_to(
        folder / "lib" / SHARED,
        target_runs.RUNNERS[target].compiler[0],
        "-shared",
        f"-Wl,-soname,{SHARED}",
        f"-Wl,--version-script={exports}",
        "-Wl,-z,relro,-z,now,-z,noexecstack",
        "-Wl,--build-id=none",
        "-Wl,--whole-archive",
        folder / "lib/libforth83.a",
        "-Wl,--no-whole-archive",
    )
    exports.unlink()
    (folder / "lib/libforth83.so").symlink_to(SHARED)


def put_board(folder: pathlib.Path, name: str) -> str:
    """The program of a board; what the page says of it."""
    (folder / "bin").mkdir()
    board = ["make", "-C", str(folder / "examples/board")]
    called([*board, f"LIBRARY={folder}", f"IMAGE={folder / 'images/tools.img'}", name])
    (folder / "examples/board" / name).rename(folder / "bin" / name)
    called([*board, "clean"])
    return BOARDS_SAY[name] + TARGET_SAYS


def drop_dead_links(folder: pathlib.Path) -> None:
    """Links to pages that the archive does not have become their words."""
    for page in folder.rglob("*.md"):
        text = re.sub(r"\[([^]]+)\]\((?!https?:)([^)#]+)(#[^)]*)?\)", lambda found: found[0 if (page.parent / found[2]).exists() else 1], page.read_text(encoding="utf-8"))
        page.write_text(text, encoding="utf-8")


def put(folder: pathlib.Path, target: str, what: str, program: pathlib.Path, prefix: pathlib.Path) -> None:
    """All of it, and the page to begin with."""
    put_images(folder, program, prefix / "bin/forth")
    says, has_files = NONE_SAYS, not target_runs.RUNNERS[target].board and target not in ("wasm32", "c")
    if target in BOARDS and has_compiler(target):
        says = put_board(folder, BOARDS[target])
    elif has_files and has_compiler(target):
        says = put_hosts(folder, target, next(prefix.glob("share/jaurimet/build/out/served-*")))
        if target.endswith("linux"):
            put_shared(folder, target)
    shared = SHARED_SAYS if (folder / "lib" / SHARED).exists() else ""
    library = "`src/forth83.c`" if target == "c" else LIBRARY_SAYS
    (folder / "README.md").write_text(BEGIN.format(what=what, programs=says.rstrip(), shared=shared, library=library), encoding="utf-8")
    drop_dead_links(folder)
