"""Makes the LLVM text of the machine's C library, which the libraries for other targets and the page's module are made from.

The Rattle toolchain lowers the library to one LLVM module. With proofs `rt lib` does that; without them `rt try` does it, for a
program that calls each function of the library once. Both times `rt` is one of links to the toolchain's (build/toolchain.py) whose clang
keeps the module. The text is kept in build/out/targets with the sum of all that it was made of.
"""
import hashlib
import os
import pathlib
import re
import shutil
import signal
import subprocess
import sys
import tempfile
from typing import Any, Dict, List, Optional

import records

ROOT = pathlib.Path(__file__).resolve().parents[2]
sys.path.insert(0, str(ROOT / "build"))

import toolchain  # noqa: E402
from toolchain import last_line, Unknown as Refused  # noqa: E402

HERE = ROOT / "build/targets"
KEPT = ROOT / "build/out/targets"
MAKERS = (HERE / "lowering.py", HERE / "records.py")
# The prefix of the library's functions in the module of a program without proofs.
PREFIX = "forth83_c::"

# The clang that replaces the toolchain's: it keeps the module, and ends there if nothing more is needed.
KEEPER = """#!/usr/bin/env bash
case " $* " in
  *' module.bc '*)
    if [ "$(wc -c < module.bc)" -gt 10000 ]; then
      cp -- module.bc "{kept}"
      {then}
    fi ;;
esac
exec "{clang}" "$@"
"""


def end_tidily() -> None:
    """A signal ends the process as an exception does, so that its temporary folders are removed."""
    for number in (signal.SIGTERM, signal.SIGHUP):
        signal.signal(number, lambda number, _frame: sys.exit(128 + number))


def say(text: str) -> None:
    """Says what takes long."""
    print(text, file=sys.stderr, flush=True)


def below(name: str, needs: Dict[str, List[str]]) -> List[str]:
    """The crates that a crate needs, those first that need none of the others, and the crate itself."""
    found: List[str] = []
    for need in needs[name]:
        if need in needs:
            found += [it for it in below(need, needs) if it not in found]
    return [*found, name]


def needs_of_crates() -> Dict[str, List[str]]:
    """The crates of crates.txt, with what each of them uses."""
    found = {}
    for line in (ROOT / "crates.txt").read_text(encoding="utf-8").splitlines():
        if ":" in line and not line.startswith("#"):
            name, _, uses = line.partition(":")
            found[name.split()[0]] = uses.split()
    return found


def sum_of_sources(*makers: pathlib.Path) -> str:
    """A sum of the library's sources, specifications and proofs, of the scripts MAKERS besides those here, and of the toolchain."""
    total = hashlib.sha256(called(["rt", "version"]).encode())
    files = [ROOT / "HANDLES", *MAKERS, *makers]
    for name in below("forth83_c", needs_of_crates()):
        folder = ROOT / "crates" / name
        files += sorted(it for part in ("src", "specs", "proofs") for it in (folder / part).rglob("*") if it.is_file())
    for file in files:
        total.update(f"{file.relative_to(ROOT)}\0".encode() + hashlib.sha256(file.read_bytes()).digest())
    return total.hexdigest()


def called(words: List[str], **how: object) -> str:
    """What a command prints; it must succeed."""
    try:
        done = subprocess.run(words, stdin=subprocess.DEVNULL, capture_output=True, text=True, errors="replace", check=False, **how)  # type: ignore
    except OSError as error:
        raise Refused(f"{words[0]} can't be started ({error.strerror})") from None
    if done.returncode:
        raise Refused(f"{pathlib.Path(words[0]).name} failed: {last_line(done.stderr.strip() or done.stdout)}")
    return done.stdout


def linked_rt(room: pathlib.Path, then: str) -> pathlib.Path:
    """The `rt` of links to the toolchain whose clang keeps the module as ROOM/module.bc."""
    rt = toolchain.linked(room)
    toolchain.replaced(room, toolchain.CLANG, KEEPER.format(kept=room / "module.bc", clang=toolchain.folder() / toolchain.CLANG, then=then))
    return rt


def kept_module(room: pathlib.Path, said: str) -> pathlib.Path:
    """The LLVM module that the stand-in kept."""
    module = room / "module.bc"
    if not module.is_file():
        raise Refused(f"rt gave its clang no module: {last_line(said)}")
    return module


def copy_sources(tree: pathlib.Path) -> None:
    """A copy of the library's crates in which the library is a program that calls each of its functions."""
    needs = needs_of_crates()
    names = below("forth83_c", needs)
    for name in names:
        shutil.copytree(ROOT / "crates" / name, tree / "crates" / name, ignore=shutil.ignore_patterns("out", "must-fail", "build.log"))
    shutil.copy(ROOT / "HANDLES", tree)
    (tree / "crates.txt").write_text("".join(f"{name}: {' '.join(needs[name])}\n" for name in names), encoding="utf-8")
    source = tree / "crates/forth83_c/src"
    text = (source / "lib.rt").read_text(encoding="utf-8") + records.main_that_calls_all()
    (source / "main.rt").write_text(text, encoding="utf-8")
    (source / "lib.rt").unlink()


def lower_unproved(room: pathlib.Path) -> pathlib.Path:
    """The LLVM module without proofs, with all checks at run time."""
    rt = linked_rt(room, "exit 1")
    copy_sources(room / "tree")
    (room / "tried").mkdir()
    how = {**os.environ, "TMPDIR": str(room / "tried")}
    done = subprocess.run([str(rt), "try"], cwd=room / "tree/crates/forth83_c", env=how, stdin=subprocess.DEVNULL, capture_output=True, text=True, errors="replace", check=False)
    return kept_module(room, done.stderr)


def lower_proved(room: pathlib.Path) -> pathlib.Path:
    """The LLVM module of the library, which is proved first where it isn't."""
    return kept_module(room, proved_by([str(linked_rt(room, ":")), "lib"], ""))


def proved_by(words: List[str], where: str) -> str:
    """Has `rt lib` prove and build the library; what it says."""
    how: Dict[str, Any] = {"stdin": subprocess.DEVNULL, "stdout": subprocess.PIPE, "stderr": subprocess.STDOUT, "text": True, "errors": "replace"}
    done = subprocess.run(words, cwd=ROOT / "crates/forth83_c", check=False, **how)
    if done.returncode:
        raise Refused(f"the library could not be proved and built{where}; {kept_log(done.stdout)}")
    return str(done.stdout)


def kept_log(said: str) -> str:
    """Keeps what a failed proof said, and says where; or its last line where that can't be kept."""
    log = KEPT / "proof.log"
    try:
        KEPT.mkdir(parents=True, exist_ok=True)
        log.write_text(said, encoding="utf-8")
    except OSError:
        return last_line(said)
    return f"all that was said: {log}"


def kept_content(name: str, total: str = "") -> Optional[bytes]:
    """What was made before of all that has this sum, or of the same sources, and kept under this name."""
    file = KEPT / name
    try:
        content = file.read_bytes()
        said = file.with_name(f"{name}.sum").read_text(encoding="ascii")
        return content if said == f"{total or sum_of_sources()} {hashlib.sha256(content).hexdigest()}\n" else None
    except OSError:
        return None


def keep(name: str, content: bytes, total: str = "") -> None:
    """Keeps what was made for the next library, where the folder can be written."""
    said = f"{total or sum_of_sources()} {hashlib.sha256(content).hexdigest()}\n"
    try:
        KEPT.mkdir(parents=True, exist_ok=True)
        for file, part in ((KEPT / name, content), (KEPT / f"{name}.sum", said.encode())):
            new = file.with_name(f"{file.name}.{os.getpid()}")
            new.write_bytes(part)
            os.replace(new, file)
    except OSError:
        pass


def text_of_library(is_proved: bool) -> str:
    """The LLVM text of the library, proved or without proofs."""
    name = "proved.ll" if is_proved else "unproved.ll"
    found = kept_content(name)
    if found is not None:
        return found.decode()
    say("proving the machine's library; from nothing this takes as long as ./forth --proved" if is_proved else "lowering the machine's library without proofs, about half a minute")
    with tempfile.TemporaryDirectory(prefix="forth83-lowering-") as folder:
        room = pathlib.Path(folder)
        module = lower_proved(room) if is_proved else lower_unproved(room)
        text = called(
            [str(toolchain.folder() / toolchain.CLANG), "-Wno-override-module", "-x", "ir", str(module), "-S", "-emit-llvm", "-O0", "-Xclang", "-disable-llvm-passes", "-o", "-"]
        )
    # The first line names a temporary file.
    text = re.sub(r"\A; ModuleID = .*\n", "", text)
    if is_proved:
        keep("proved.a", built_archive().read_bytes())
    keep(name, text.encode())
    return text


def built_archive() -> pathlib.Path:
    """Where `rt lib` puts the library."""
    return ROOT / "crates/forth83_c/out/libforth83_c.a"


def archive_of_toolchain() -> bytes:
    """The proved library as the toolchain makes it for this computer, with nothing rewritten."""
    text_of_library(True)
    found = kept_content("proved.a")
    return built_archive().read_bytes() if found is None else found


def archive_for(triple: str) -> bytes:
    """The proved library as the toolchain makes it for another target of its own. What it makes for this computer stays in its place."""
    name = f"proved-{triple}.a"
    found = kept_content(name)
    if found is not None:
        return found
    native = archive_of_toolchain()
    say(f"proving the machine's library for {triple}, about half a minute once its crates are proved")
    try:
        proved_by(["rt", "lib", "--target", triple], f" for {triple}")
        made = built_archive().read_bytes()
    finally:
        built_archive().parent.mkdir(exist_ok=True)
        built_archive().write_bytes(native)
    keep(name, made)
    return made


def layout_of(triple: str) -> str:
    """The data layout that the toolchain's clang has for a target."""
    text = called([str(toolchain.folder() / toolchain.CLANG), f"--target={triple}", "-S", "-emit-llvm", "-x", "c", "/dev/null", "-o", "-"])
    found = re.search(r'target datalayout = "(.*)"', text)
    if not found:
        raise Refused(f"clang says no data layout for {triple}")
    return found[1]
