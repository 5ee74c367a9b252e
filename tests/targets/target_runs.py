"""Compiles C programs over the library for each target, and runs them: natively, or with an emulator."""
import os
import pathlib
import shlex
import shutil
import subprocess
import sys
from typing import Dict, List, NamedTuple, Optional, Sequence

ROOT = pathlib.Path(__file__).resolve().parents[2]
sys.path.insert(0, str(ROOT / "build/targets"))

import libraries  # noqa: E402

TRIAL = ROOT / "build/targets/trial"
STRICT = ["-std=c11", "-O2", "-Wall", "-Wextra", "-Werror"]
WINE = "/usr/lib/wine/wine64"


class Runner(NamedTuple):
    """How programs for a target are compiled and run, and which Debian packages these commands are in."""

    compiler: Sequence[str]
    runs: Sequence[str]
    packages: str
    board: str = ""
    ram: int = 0


def board(processor: str, machine: str, ram: int, *options: str) -> Runner:
    """A bare board, of which the emulator has its files and words."""
    compiler = ["arm-none-eabi-gcc", f"-mcpu={processor}", "-mthumb", *options]
    return Runner(compiler, ["qemu-system-arm"], "gcc-arm-none-eabi, libnewlib-arm-none-eabi and qemu-system-arm", machine, ram)


def emulator(processor: str) -> List[str]:
    """The emulator of a processor, by one of the names that Debian's packages give it."""
    names = [f"qemu-{processor}", f"qemu-{processor}-static"]
    return [next(filter(shutil.which, names), names[0])]


RUNNERS: Dict[str, Runner] = {
    "native": Runner(["cc"], [], "gcc"),
    "x86_64-linux": Runner(["cc"], [], "gcc"),
    "c": Runner(["cc"], [], "gcc"),
    "aarch64-linux": Runner(["aarch64-linux-gnu-gcc", "-static"], emulator("aarch64"), "gcc-aarch64-linux-gnu and qemu-user"),
    "armv7-linux": Runner(["arm-linux-gnueabihf-gcc", "-static"], emulator("arm"), "gcc-arm-linux-gnueabihf and qemu-user"),
    "riscv64-linux": Runner(["riscv64-linux-gnu-gcc", "-static"], emulator("riscv64"), "gcc-riscv64-linux-gnu and qemu-user"),
    "x86_64-windows": Runner(["x86_64-w64-mingw32-gcc", "-static", "-D__USE_MINGW_ANSI_STDIO=1"], [WINE], "gcc-mingw-w64-x86-64 and wine64"),
    "cortex-m0": board("cortex-m0", "mps2-an385", 0x21000000),
    "cortex-m3": board("cortex-m3", "mps2-an385", 0x21000000),
    "cortex-m7": board("cortex-m7", "mps2-an500", 0x60000000, "-mfloat-abi=hard", "-mfpu=fpv5-sp-d16"),
    "wasm32": Runner([], ["node"], "nodejs"),
}


def compiler_missing(target: str) -> bool:
    compiler = RUNNERS[target].compiler
    return bool(compiler) and shutil.which(compiler[0]) is None


def is_missing(target: str) -> bool:
    """Whether a program for the target can't be compiled, or not be run."""
    return compiler_missing(target) or any(shutil.which(word) is None for word in RUNNERS[target].runs[:1])


def build(words: Sequence[object]) -> None:
    """Calls a compiler; it must have nothing to say."""
    done = subprocess.run([str(word) for word in words], stdin=subprocess.DEVNULL, stdout=subprocess.PIPE, stderr=subprocess.STDOUT, text=True, check=False)
    if done.returncode:
        sys.exit(f"check-targets: {' '.join(map(str, words))}:\n{done.stdout}")


class Place:
    """A folder with the library for one target, and what is compiled over it."""

    def __init__(self, target: str, room: pathlib.Path, is_proved: bool) -> None:
        self.target, self.room, self.runner = target, room / target, RUNNERS[target]
        self.settings = {"WINEPREFIX": str(self.room / "wine"), "WINEDEBUG": "-all"} if target.endswith("windows") else {}
        self.room.mkdir()
        if target == "native":
            self.library = libraries.native(self.room, is_proved)
        elif target == "c":
            libraries.portable(self.room / "forth83.c", is_proved)
            build(["cc", "-std=c99", "-O1", "-Wall", "-Wno-unused", "-Werror", "-c", self.room / "forth83.c", "-o", self.room / "forth83.o"])
            self.library = libraries.archived(self.room, [self.room / "forth83.o"])
        else:
            self.objects = [libraries.compiled(self.room, target, is_proved)]
            self.library = libraries.archived(self.room, self.objects)

    def compile(self, name: str, sources: Sequence[pathlib.Path], *options: str) -> pathlib.Path:
        """Compiles a program for a system with files; the program."""
        made = self.room / (f"{name}.exe" if self.target.endswith("windows") else name)
        build([*self.runner.compiler, *STRICT, *options, f"-I{ROOT / 'build/targets/include'}", *sources, self.library, "-o", made])
        return made

    def compile_trial(self) -> pathlib.Path:
        """Compiles the trial."""
        if self.target == "wasm32":
            return self.compile_for_web()
        if not self.runner.board:
            return self.compile("trial", [TRIAL / "trial.c"], *(["-Wl,--stack,2097152"] if self.target.endswith("windows") else []))
        strict = ["-DSTRICT"] if self.target == "cortex-m0" else []
        script = ["--specs=rdimon.specs", "-nostartfiles", "-T", str(ROOT / "examples/board/board.ld")]
        linked = f"-Wl,--defsym=RAM_BEGIN={self.runner.ram:#x} -Wl,--defsym=RAM_SIZE=15M -Wl,--gc-sections -Wl,--no-warn-rwx-segments"
        return self.compile("trial", [TRIAL / "trial.c", TRIAL / "start.c"], *strict, *script, *linked.split())

    def compile_for_web(self) -> pathlib.Path:
        """Compiles the trial as a WebAssembly module."""
        made, exports = self.room / "trial.o", ["malloc", "trial_digest", "trial_record", "trial_continue", "trial_shown"]
        clang = [libraries.tool("clang"), f"--target={libraries.TARGETS['wasm32'].triple}", *STRICT, "-ffreestanding", "-DBARE"]
        build([*clang, "-isystem", TRIAL / "include", f"-I{ROOT / 'build/targets/include'}", "-c", TRIAL / "trial.c", "-o", made])
        return libraries.web_linked(self.room, [made, *self.objects], exports)

    def command(self, program: pathlib.Path, words: Sequence[object]) -> List[str]:
        """What runs the program with these words."""
        text = [str(word) for word in words]
        if self.target == "wasm32":
            return ["node", str(TRIAL / "trial.mjs"), str(program), *text]
        if self.runner.board:
            asked = "".join(f",arg={word}" for word in ["trial", *text])
            options = f"-M {self.runner.board} -nographic -monitor none -serial none".split()
            return ["qemu-system-arm", *options, "-semihosting-config", f"enable=on,target=native{asked}", "-kernel", str(program)]
        return [*self.runner.runs, str(program), *text]

    def starter(self, program: pathlib.Path) -> pathlib.Path:
        """A command that runs the program with the words that it is given."""
        made = self.room / f"{program.name}.sh"
        settings = [f"{name}={value}" for name, value in self.settings.items()]
        made.write_text(f'#!/bin/sh\nexec {shlex.join(["env", *settings, *self.command(program, [])])} "$@"\n', encoding="utf-8")
        made.chmod(0o755)
        return made

    def run(self, program: pathlib.Path, words: Sequence[object], typed: bytes = b"", room: Optional[pathlib.Path] = None) -> bytes:
        """What a program shows."""
        done = subprocess.run(
            self.command(program, words), input=typed, stdout=subprocess.PIPE, stderr=subprocess.PIPE, cwd=room or self.room, env={**os.environ, **self.settings}, check=False
        )
        if done.returncode:
            said = (done.stdout + done.stderr).decode(errors="replace")[-500:]
            sys.exit(f"check-targets: {self.target}: {program.name} {' '.join(map(str, words))}: status {done.returncode}: {said}")
        return done.stdout.replace(b"\r\n", b"\n") if self.target.endswith("windows") else done.stdout
