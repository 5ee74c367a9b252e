"""The page's modules in node, for cases that need no browser: what they export has its name there."""
import json
import pathlib
import shutil
import subprocess
import tempfile
from typing import Any, Dict, List

# Answers each line, an expression as JSON, with a line: [its value], or [null, why there is none].
DRIVER = """
import { createInterface } from "node:readline";
import { readdirSync, readFileSync } from "node:fs";
import * as zlib from "node:zlib";
import { constants, deflateRawSync } from "node:zlib";
Object.assign(globalThis, { readFileSync, zlib, constants, deflateRawSync, unloaded: {}, folder: import.meta.dirname });
let loading = "";
for (const event of ["unhandledRejection", "uncaughtException"]) process.on(event, (error) => { unloaded[loading] = String(error); });
for (const name of readdirSync(import.meta.dirname).filter((it) => it.endsWith(".js"))) {
  loading = name;
  try { Object.assign(globalThis, await import(`./${name}`)); } catch (error) { unloaded[name] = String(error); }
}
for await (const line of createInterface({ input: process.stdin })) {
  const { expression } = JSON.parse(line);
  const answer = await Promise.resolve().then(() => (0, eval)(`(${expression})`)).then((value) => [value ?? null], (error) => [null, String(error)]);
  console.log(JSON.stringify(answer));
}
"""


def node() -> str:
    """The program's path, or an empty text."""
    return shutil.which("node") or ""


class Node:
    """A process with these modules, and with the page's data."""

    has_looks = False

    def __init__(self, files: List[pathlib.Path], data: Dict[str, object]) -> None:
        self.errors: List[str] = []
        self.asked: List[str] = []
        self.folder = tempfile.TemporaryDirectory()
        room = pathlib.Path(self.folder.name)
        for file in files:
            shutil.copy(file, room / file.name)
        (room / "data.js").write_text(f"export const DATA = {json.dumps(data)};\n", encoding="utf-8")
        (room / "package.json").write_text('{"type": "module"}', encoding="utf-8")
        (room / "driver.mjs").write_text(DRIVER, encoding="utf-8")
        self.running = subprocess.Popen([node(), room / "driver.mjs"], stdin=subprocess.PIPE, stdout=subprocess.PIPE, encoding="utf-8")

    def value(self, expression: str) -> Any:
        """The value of an expression, or of what it promises."""
        assert self.running.stdin and self.running.stdout
        self.running.stdin.write(json.dumps({"expression": expression}) + "\n")
        self.running.stdin.flush()
        line = self.running.stdout.readline()
        if not line:
            raise RuntimeError("node ended")
        found = json.loads(line)
        if len(found) > 1:
            raise RuntimeError(found[1])
        return found[0]

    def __enter__(self) -> "Node":
        return self

    def __exit__(self, *_: object) -> None:
        self.running.kill()
        self.running.communicate()
        self.folder.cleanup()
