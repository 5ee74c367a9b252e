"""Makes the machine's WebAssembly module, as build/targets/make makes it for the target wasm32, and keeps it in build/out/page. As a program, it
makes and keeps that of the proved library."""
import hashlib
import json
import pathlib
import shutil
import sys
import tempfile
from typing import Dict, NamedTuple, Optional

ROOT = pathlib.Path(__file__).resolve().parent.parent
sys.path[:0] = [str(ROOT / "build/targets"), str(ROOT / "commands")]

import libraries  # noqa: E402
import lowering  # noqa: E402
import records  # noqa: E402
import whole  # noqa: E402
from lowering import Refused  # noqa: E402

KEPT = ROOT / "build/out/page"
MAKERS = [lowering.HERE / name for name in ("libraries.py", "retarget.py", "heap.c")]


PROVED = (
    "The machine in this page is Jaurimet's: its primitives are rows of a written table, and it is proved, in Rattle, to do exactly what "
    "that table says. What runs here was compiled from the proved library to WebAssembly, by a compiler that isn't proved. The page around it "
    "is only tested."
)
UNPROVED = (
    "The machine in this page is not proved: it was made from the library without its proofs, with checks at run time. ./forth page --proved makes a page of the proved library."
)


class Module(NamedTuple):
    """A WebAssembly module, whether the library was proved that it was made from, and where the fields of its records are."""

    code: bytes
    is_proved: bool
    layout: Dict[str, object]

    def sha256(self) -> str:
        return hashlib.sha256(self.code).hexdigest()

    def version(self) -> str:
        """What a page with it is called."""
        return f"forth83 {(ROOT / 'data/VERSION').read_text(encoding='utf-8').strip()} in a page, {'proved' if self.is_proved else 'unproved'}"

    def claim(self) -> str:
        """What is proved of it, in sentences."""
        return PROVED if self.is_proved else UNPROVED


# The calls that a page makes.
CALLS = (
    "forth83_load_3", "forth83_serve", "forth83_survey", "forth83_text", "forth83_screens", "forth83_unpack", "forth83_guess_format", "forth83_judge",
    "forth83_advise",
)  # fmt: skip


def file_of(is_proved: bool) -> pathlib.Path:
    return KEPT / ("proved.wasm" if is_proved else "unproved.wasm")


def kept(is_proved: bool, total: Optional[str]) -> Optional[Module]:
    """The module that was made of the same sources before; of any sources where TOTAL is None."""
    file = file_of(is_proved)
    try:
        code, record = file.read_bytes(), json.loads(file.with_suffix(".json").read_text(encoding="utf-8"))
        module = Module(code, is_proved, record["layout"])
        return module if module.sha256() == record["module"] and total in (None, record["sources"]) else None
    except (OSError, ValueError, KeyError):
        return None


def keep(module: Module, total: str) -> None:
    """Keeps a module for the next page, if the folder can be written."""
    file = file_of(module.is_proved)
    record = {"sources": total, "module": module.sha256(), "layout": module.layout}
    try:
        KEPT.mkdir(parents=True, exist_ok=True)
        for name, content in ((file, module.code), (file.with_suffix(".json"), json.dumps(record).encode())):
            whole.replace(name, content)
    except OSError:
        pass


def say(text: str) -> None:
    print(f"forth: {text}", file=sys.stderr, flush=True)


def copy_to(tree: pathlib.Path) -> None:
    """Copies the module to a tree without sources."""
    folder, file = tree / KEPT.relative_to(ROOT), file_of(module_of(None).is_proved)
    folder.mkdir(parents=True, exist_ok=True)
    for one in (file, file.with_suffix(".json")):
        shutil.copy(one, folder / one.name)


def made(is_proved: bool, total: str) -> Module:
    """A new module."""
    with tempfile.TemporaryDirectory(prefix="forth83-page-") as name:
        room = pathlib.Path(name)
        module = Module(libraries.web_module(room, libraries.compiled(room, "wasm32", is_proved), CALLS).read_bytes(), is_proved, records.layout())
    keep(module, total)
    return module


def installed() -> Module:
    """The module that is kept, where none can be made: in a copy without sources, or without the toolchain."""
    found = kept(True, None) or kept(False, None)
    if found is None:
        raise Refused(
            "no module was made here, and none can be made without the sources and the Rattle toolchain's rt: tools/use-release takes that of "
            "a release, and ./forth page --proved -o x.html makes one in the repository, before ./install"
        )
    return found


def module_of(wanted: Optional[str]) -> Module:
    """The module: the proved one if it is kept or wanted, else the one without proofs."""
    if not records.LIBRARY.is_dir() or not shutil.which("rt"):
        return installed()
    total = lowering.sum_of_sources(*MAKERS)
    found = kept(True, total) if wanted != "unproved" else None
    if found is None and wanted != "proved":
        found = kept(False, total)
    if found is not None:
        return found
    if wanted == "proved":
        say("making the module of the proved library")
        return made(True, total)
    say("making the machine's module without proofs, about half a minute; ./forth page --proved makes the proved one")
    return made(False, total)


if __name__ == "__main__":
    try:
        module_of("proved")
    except Refused as why:
        say(str(why))
        sys.exit(1)
