"""The targets of the machine's C library, and how the library is made for each of them: see `build/targets/make --help`.

The Rattle toolchain itself compiles a proved library for Linux on x86-64 and on ARM of 64 bits. For any other target the library's
LLVM text (lowering.py) is rewritten (retarget.py), and the toolchain's own clang compiles it. So a library needs no other compiler;
only programs that use it do.
"""
import concurrent.futures
import hashlib
import os
import pathlib
import tempfile
from typing import Dict, List, NamedTuple, Sequence

import in_c
import lowering
import records
import retarget
import toolchain
from lowering import Refused, called

HERE = lowering.HERE
STACK = 1 << 20


class Target(NamedTuple):
    """A target: its triple, the options of clang for it, what it is in words, whether the toolchain compiles a proved library for it, and whether
    all but the machine is compiled to few bytes."""

    triple: str
    options: Sequence[str]
    what: str
    is_own: bool = False
    is_small: bool = False


TARGETS: Dict[str, Target] = {
    "x86_64-linux": Target("x86_64-unknown-linux-gnu", ["-O3", "-fPIC", "-march=x86-64"], "Linux on x86-64 processors, any of them"),
    "aarch64-linux": Target("aarch64-unknown-linux-gnu", ["-O3", "-fPIC"], "Linux on ARM processors of 64 bits", True),
    "armv7-linux": Target("armv7-unknown-linux-gnueabihf", ["-O3", "-fPIC"], "Linux on ARM processors of 32 bits, with hard floats"),
    "riscv64-linux": Target("riscv64-unknown-linux-gnu", ["-O3", "-fPIC", "-march=rv64gc", "-mabi=lp64d"], "Linux on RISC-V of 64 bits"),
    "x86_64-windows": Target("x86_64-w64-windows-gnu", ["-O3", "-march=x86-64"], "Windows, for MinGW's compilers"),
    "cortex-m0": Target("thumbv6m-none-eabi", ["-Os"], "boards with Cortex-M0 and M0+, as the RP2040"),
    "cortex-m3": Target("thumbv7m-none-eabi", ["-Os"], "boards with Cortex-M3 and M4, soft floats"),
    "cortex-m7": Target("thumbv7em-none-eabihf", ["-O2", "-mcpu=cortex-m7"], "boards with Cortex-M7, hard floats"),
    "wasm32": Target("wasm32-unknown-unknown", ["-O3"], "WebAssembly; lib/forth83.wasm is the linked module", is_small=True),
    "c": Target("", [], "any other processor, as one file of C99, src/forth83.c"),
}


def tool(name: str) -> str:
    """A tool of the Rattle toolchain."""
    return str(toolchain.folder() / toolchain.TOOLS / name)


def sum_of(name: str, text: str) -> str:
    """A sum of all that a target's object file is made of."""
    total = hashlib.sha256(f"{name}\0{TARGETS[name]}\0{text}\0".encode())
    total.update((HERE / "retarget.py").read_bytes() + called([tool("clang"), "--version"]).encode())
    return total.hexdigest()


def compiled(room: pathlib.Path, name: str, is_proved: bool, takes_kept: bool = True) -> pathlib.Path:
    """The library for the target as an object file; one that was made of the same before is taken."""
    if is_proved and TARGETS[name].is_own:
        return own(room, name)
    text, made = lowering.text_of_library(is_proved), room / f"{name}.o"
    kept, total = f"{name}-{'proved' if is_proved else 'unproved'}.o", sum_of(name, text)
    content = lowering.kept_content(kept, total) if takes_kept else None
    if content is None:
        compile_text(room, name, text, is_proved, made)
        lowering.keep(kept, made.read_bytes(), total)
    else:
        made.write_bytes(content)
    return made


def own(room: pathlib.Path, name: str) -> pathlib.Path:
    """The proved library that the toolchain compiles for the target, with the heap's calls, as one object file."""
    target, made = TARGETS[name], room / f"{name}.o"
    library, heap, text = room / f"{name}-library.a", room / f"{name}-heap.o", room / f"{name}-heap.ll"
    library.write_bytes(lowering.archive_for(target.triple))
    text.write_text(retarget.heap(64), encoding="utf-8")
    compile_ir(text, heap, f"--target={target.triple}", *target.options)
    called([tool("ld.lld"), "-r", "--whole-archive", str(library), str(heap), "-o", str(made)])
    return made


def compile_text(room: pathlib.Path, name: str, text: str, is_proved: bool, made: pathlib.Path) -> None:
    """Rewrites the library's text for the target, and compiles it."""
    target, other = TARGETS[name], room / f"{name}.ll"
    machine = lowering.below("inner_interpreter", lowering.needs_of_crates()) if target.is_small else None
    try:
        with open(other, "w", encoding="utf-8") as out:
            retarget.retarget(text.splitlines(), out, lowering.layout_of(target.triple), target.triple, None if is_proved else lowering.PREFIX, machine)
    except retarget.Unknown as error:
        raise Refused(f"build/targets/retarget.py: {error}") from None
    compile_ir(other, made, f"--target={target.triple}", *target.options, "-ffunction-sections", "-fdata-sections")


def compile_ir(text: pathlib.Path, made: pathlib.Path, *options: str) -> None:
    """Compiles a text of LLVM. Its name is in what clang makes, so it is the same in every folder."""
    called([tool("clang"), *options, "-Wno-override-module", "-x", "ir", text.name, "-c", "-o", str(made.resolve())], cwd=text.parent)


def portable(made: pathlib.Path, is_proved: bool) -> None:
    """The library as one file of C."""
    made.parent.mkdir(parents=True, exist_ok=True)
    try:
        with open(made, "w", encoding="ascii") as out:
            in_c.write(lowering.text_of_library(is_proved), out, None if is_proved else lowering.PREFIX)
    except retarget.Unknown as error:
        raise Refused(f"build/targets/in_c.py: {error}") from None


def compile_all(names: Sequence[str], is_proved: bool) -> None:
    """Compiles the library for these targets, on half of the processors, and keeps what was made."""
    lowering.text_of_library(is_proved)
    with tempfile.TemporaryDirectory(prefix="forth83-library-") as name, concurrent.futures.ThreadPoolExecutor(max(1, (os.cpu_count() or 1) // 2)) as pool:
        list(pool.map(lambda target: compiled(pathlib.Path(name), target, is_proved), names))


def archived(room: pathlib.Path, objects: List[pathlib.Path]) -> pathlib.Path:
    """An archive of object files, with no times and owners in it."""
    archive = room / "libforth83.a"
    archive.unlink(missing_ok=True)
    called([tool("llvm-ar"), "rcsD", str(archive), *map(str, objects)])
    return archive


def web_linked(room: pathlib.Path, objects: List[pathlib.Path], exports: Sequence[str]) -> pathlib.Path:
    """The WebAssembly module of object files, with a heap."""
    linker, heap, module = room / "wasm-ld", room / "heap.o", room / "forth83.wasm"
    if not linker.is_symlink():
        linker.symlink_to(tool("ld.lld"))
    called([tool("clang"), f"--target={TARGETS['wasm32'].triple}", "-O3", "-ffreestanding", "-c", str(HERE / "heap.c"), "-o", str(heap)])
    called(
        [
            str(linker),
            "--no-entry",
            "--gc-sections",
            "--strip-all",
            "-z",
            f"stack-size={STACK}",
            *(f"--export={it}" for it in exports),
            *map(str, objects),
            str(heap),
            "-o",
            str(module),
        ]
    )
    return module


def web_module(room: pathlib.Path, library: pathlib.Path, calls: Sequence[str] = ()) -> pathlib.Path:
    """The WebAssembly module of the compiled library, with these calls, or with all."""
    return web_linked(room, [library], ["malloc", "free", *(calls or [it.name for it in records.calls()])])


def native(room: pathlib.Path, is_proved: bool) -> pathlib.Path:
    """The library of this computer with nothing rewritten: the archive that `rt lib` makes, or the module without proofs as it is."""
    plain, made, runtime = room / "native.a", room / "libnative.a", toolchain.folder() / toolchain.RUNTIME
    if is_proved:
        plain.write_bytes(lowering.archive_of_toolchain())
    else:
        text = room / "native.ll"
        with open(text, "w", encoding="utf-8") as out:
            for line in retarget.without_main(lowering.text_of_library(False).splitlines(), lowering.PREFIX):
                line = retarget.rename(line, lowering.PREFIX)
                out.write((retarget.attributes_for(line) if line.startswith("attributes") else line) + "\n")
        compile_ir(text, room / "native.o", "-fPIC", "-O2")
        plain.unlink(missing_ok=True)
        called([tool("llvm-ar"), "rcsD", str(plain), str(room / "native.o")])
    made.unlink(missing_ok=True)
    called([tool("llvm-ar"), "qcsDL", str(made), str(plain), str(runtime)])
    return made
