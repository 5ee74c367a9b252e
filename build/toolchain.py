#!/usr/bin/env python3
"""The inside of the Rattle toolchain that this repository counts on: TOOLCHAIN.md says what, and what we would ask its makers for.

    build/toolchain.py native TREE PROGRAM [CRATE [WORD..]]
    build/toolchain.py stamp CRATE

`native` compiles a crate of the sources in TREE without its proofs, with optimization, to the file PROGRAM. The crate is forth83 unless another is
named. Before the program is kept it is run once, with these words (forth83: --version). If that can't be done with this toolchain, the status
is 1, it is said why, and nothing is made.

`stamp` lets `rt lib` of CRATE use the libraries below it that `rt ci` has just proved in this tree, so that it does not prove them again. It
is only for the trials that follow the proofs of `./test`. If it can't be done, `rt lib` proves the libraries itself.

Everything else calls the command `rt` as its help describes it. If the toolchain has another layout than this module knows, `Unknown` says what
is missing, and the caller does without: it proves more often, or says that it makes nothing.
"""
import argparse
import importlib.machinery
import importlib.util
import os
import pathlib
import shutil
import subprocess
import sys
import tempfile
import types
from typing import List, Sequence

ROOT = pathlib.Path(__file__).resolve().parent.parent
RATTLE, LINKER, TOOLS, CLANG = "bin/rattle", "bin/rattle-link", "toolchain/bin", "toolchain/bin/clang"
SYSTEM, RUNTIME = "c/libos_c.a", "c/liblibc_c.a"
PARTS = ("bin/rt", "bin/rtlib.py", RATTLE, LINKER, CLANG, SYSTEM, RUNTIME)

# Keeps the module that `rt try` gives clang, and clang's arguments, a line each; then it stops.
KEEPER = """#!/usr/bin/env bash
case " $* " in
  *' -fsanitize=address '*' module.bc '* | *' module.bc '*' -fsanitize=address '*)
    cp -- module.bc "{room}/module.bc" && printf '%s\\n' "$@" > "{room}/words"
    exit 1 ;;
esac
exec "{clang}" "$@"
"""


class Unknown(Exception):
    """Why the toolchain's inside can't be used, or why nothing was made by it."""


def last_line(said: str) -> str:
    """The last line of what a command said."""
    return (said.strip().splitlines() or ["nothing was said"])[-1]


def folder() -> pathlib.Path:
    """The toolchain's folder."""
    found = shutil.which("rt")
    if not found:
        raise Unknown("there is no command rt; install the Rattle toolchain, or put its rt on PATH")
    return pathlib.Path(os.path.realpath(found)).parent.parent


def linked(room: pathlib.Path) -> pathlib.Path:
    """Makes ROOM/kit a folder of links to the toolchain, with an `rt` of its own, which finds what `replaced` puts there; and answers that `rt`."""
    kit, made = folder(), room / "kit"
    missing = [part for part in PARTS if not (kit / part).exists()]
    if missing:
        raise Unknown(f"the toolchain's folder does not have the expected layout: it has no {missing[0]}")
    (made / "bin").mkdir(parents=True)
    for whole in kit.iterdir():
        if whole.name != "bin":
            (made / whole.name).symlink_to(whole)
    for tool in (kit / "bin").iterdir():
        if tool.name in ("rt", "rtlib.py"):
            shutil.copy(tool, made / "bin" / tool.name)
        else:
            (made / "bin" / tool.name).symlink_to(tool)
    return made / "bin/rt"


def replaced(room: pathlib.Path, part: str, script: str) -> None:
    """Puts a script in the place of a command of the linked toolchain: RATTLE or CLANG."""
    made = room / "kit" / part
    if part == CLANG:
        (room / "kit/toolchain").unlink()
        subprocess.run(["cp", "-rs", folder() / "toolchain", room / "kit/toolchain"], check=True)
    made.unlink()
    made.write_text(script, encoding="utf-8")
    made.chmod(0o755)


def optimized(room: pathlib.Path) -> List[str]:
    """The arguments that `rt try` gave clang for the module, with optimization and without the sanitizer."""
    given = (room / "words").read_text(encoding="utf-8").splitlines()
    changed = {"-O0": "-O1"}
    return [changed.get(word, word).replace(str(room / "kit"), str(folder())) for word in given if word != "-fsanitize=address"]


def called(words: Sequence[object], room: pathlib.Path, name: str) -> None:
    """Calls a command of the toolchain in a folder; of one that fails, a line is said."""
    done = subprocess.run([str(word) for word in words], cwd=room, stdin=subprocess.DEVNULL, capture_output=True, text=True, errors="replace", check=False)
    if done.returncode:
        said = done.stdout + done.stderr
        raise Unknown(f"{name}: {next((line for line in said.splitlines() if 'error' in line), last_line(said))}")


def native(tree: pathlib.Path, program: pathlib.Path, crate: str, words: Sequence[str], room: pathlib.Path) -> None:
    """Compiles a crate of the sources in a tree without its proofs, with optimization and with all checks at run time.

    `rt try` translates a program to one module, and has clang compile it for a single slow run. Here clang keeps the module; then the toolchain's
    clang compiles it, and its linker links it. Before the program is kept it is run once, with these words."""
    kit, rt = folder(), linked(room)
    replaced(room, CLANG, KEEPER.format(room=room, clang=kit / CLANG))
    (room / "tried").mkdir()
    done = subprocess.run(
        [rt, "try", "--", *words],
        cwd=tree / "crates" / crate,
        env={**os.environ, "TMPDIR": str(room / "tried")},
        stdin=subprocess.DEVNULL,
        capture_output=True,
        text=True,
        errors="replace",
        check=False,
    )
    if not (room / "words").is_file():
        raise Unknown(f"rt try gave clang no module: {last_line(done.stdout + done.stderr)}")
    called([kit / CLANG, *optimized(room)], room, "clang")
    called([kit / LINKER, "--target", "x86_64-unknown-linux-gnu", "--toolchain", kit / "toolchain", "-o", "made", "module.o", kit / SYSTEM, kit / RUNTIME], room, "rattle-link")
    called(["./made", *words], room, "the program that was compiled does not run")
    shutil.copy(room / "made", program)


def rt_module() -> types.ModuleType:
    """The command `rt` as a module, with its checks of edits (`checked`) and its crates (`rtlib`)."""
    path = str(folder() / "bin/rt")
    loader = importlib.machinery.SourceFileLoader("rt", path)
    spec = importlib.util.spec_from_loader("rt", loader)
    assert spec is not None
    rt = importlib.util.module_from_spec(spec)
    try:
        loader.exec_module(rt)
        is_known = all(map(callable, (rt.checked, rt.rtlib.crates_below, rt.rtlib.guarded, rt.rtlib.Crate, rt.rtlib.root_above)))
    except (AttributeError, OSError, SyntaxError, SystemExit) as error:
        raise Unknown(f"rt is not as it is known here: {error}") from None
    if not is_known:
        raise Unknown("rt is not as it is known here")
    return rt


def stamp_below(crate: pathlib.Path) -> None:
    """Writes the toolchain's own stamp beside each library below a crate that `rt ci` has just proved, so that `rt lib` does not prove it again."""
    rtlib = rt_module().rtlib
    os.chdir(crate)
    try:
        for below in rtlib.Crate(str(crate), rtlib.root_above(str(crate)) or str(crate), {}).below():
            library = pathlib.Path(below.rlib)
            if library.exists():
                library.with_name("stamp").write_text(below.stamp(), encoding="ascii")
    except (AttributeError, TypeError, OSError) as error:
        raise Unknown(f"rt is not as it is known here: {error}") from None


def main() -> int:
    """Does what is asked for."""
    words = argparse.ArgumentParser(prog="build/toolchain.py", description="Compiles a program without its proofs, or spares libraries a second proof.")
    ways = words.add_subparsers(dest="way", required=True)
    compiles = ways.add_parser("native", help="compile a crate without its proofs")
    compiles.add_argument("tree", type=pathlib.Path, metavar="TREE")
    compiles.add_argument("program", type=pathlib.Path, metavar="PROGRAM")
    compiles.add_argument("crate", metavar="CRATE", nargs="?")
    compiles.add_argument("words", metavar="WORD", nargs="*")
    ways.add_parser("stamp", help="let rt lib use the libraries that rt ci has just proved").add_argument("crate", metavar="CRATE")
    asked = words.parse_args()
    try:
        if asked.way == "stamp":
            stamp_below(ROOT / "crates" / asked.crate)
            return 0
        with tempfile.TemporaryDirectory() as room:
            trial = asked.words if asked.crate else ["--version"]
            native(asked.tree.resolve(), asked.program.resolve(), asked.crate or "forth83", trial, pathlib.Path(room))
    except Unknown as error:
        print(f"toolchain: rt lib proves the libraries again ({error})" if asked.way == "stamp" else error, file=sys.stderr)
        return 0 if asked.way == "stamp" else 1
    return 0


if __name__ == "__main__":
    sys.exit(main())
