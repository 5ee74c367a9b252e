"""Compares the page's WebAssembly module with the native library: random scripts in random pieces, and each record byte for byte."""
import base64
import ctypes
import json
import pathlib
import random
import subprocess
import sys
import tempfile
from typing import List, Tuple

ROOT = pathlib.Path(__file__).resolve().parents[2]
sys.path[:0] = [str(ROOT / "build/targets"), str(ROOT / "build/targets/python")]

import forth83  # noqa: E402
import libraries  # noqa: E402
import records  # noqa: E402

import browser as browsers  # noqa: E402
import random_scripts  # noqa: E402
from tally import Tally  # noqa: E402

BLOCKS, ALL_BLOCKS, PAGE, ROOM, BATCH = 16, 65536, 1024, 131072, 25
Plan = List[Tuple[str, int]]

# What the page does with the same plans: the driver below, in JavaScript, over the page's own Machine.
IN_PAGE = """
function runPlan(plan) {
  const blocks = new Uint8Array(%(blocks)d * 1024), shown = [], pending = [];
  window.tried ??= new Machine(page.session.machine.calls, DATA.layout);
  tried.bytes(tried.record, DATA.layout.size).fill(0);
  tried.load(window.plain);
  let stop = { how: "-" };
  const give = (kind, ...body) => { stop = tried.move(kind, Uint8Array.from(body)); shown.push(...stop.shown); };
  const serve = ({ how, number }) => {
    const at = number * 1024;
    if (number >= %(blocks)d) give(how === "r" ? "f" : "g");
    else if (how === "r") give("p", ...blocks.subarray(at, at + 1024));
    else {
      blocks.set(tried.buffers.find((one) => one.block === number).bytes, at);
      give("w");
    }
  };
  const line = (most) => {
    const end = pending.indexOf(10), size = Math.min(end < 0 ? pending.length : end, most), isWhole = end === size && size < most;
    give("l", isWhole ? 1 : 0, ...pending.splice(0, size));
    if (isWhole) pending.shift();
  };
  for (const [piece, limit] of plan) {
    pending.push(...piece.split("").map((letter) => letter.charCodeAt(0)));
    for (let calls = 0; calls < 400 && !"bxyh".includes(stop.how); calls++) {
      if (stop.how === "k" && !pending.length || stop.how === "l" && !pending.includes(10) && pending.length < stop.number) break;
      if (stop.how === "k") give("k", pending.shift());
      else if (stop.how === "l") line(stop.number);
      else if ("rw".includes(stop.how)) serve(stop);
      else give("r", limit & 255, (limit >> 8) & 255, limit >> 16, 0);
    }
  }
  return [toBase64(Uint8Array.from(shown)), toBase64(tried.copy()), toBase64(blocks)];
}
""" % {
    "blocks": BLOCKS
}


class Native:
    """The native library, loaded into this process."""

    def __init__(self, library: pathlib.Path, image: bytes) -> None:
        self.image, self.calls = image, ctypes.CDLL(str(library))

    def run_plan(self, plan: Plan) -> Tuple[bytes, bytes, bytes]:
        """What is shown, the record and the blocks after a plan."""
        self.machine, self.blocks, self.shown, self.pending = forth83.Record(), bytearray(BLOCKS * PAGE), b"", b""
        self.how, self.number = "-", 0
        status = self.calls.forth83_load_3(self.image, ctypes.c_size_t(len(self.image)), ALL_BLOCKS, ctypes.byref(self.machine))
        assert status == 0, f"load: status {status}"
        for piece, limit in plan:
            self.pending += piece.encode("latin-1")
            self.drive(limit)
        return self.shown, bytes(self.machine), bytes(self.blocks)

    def give(self, kind: str, body: bytes = b"") -> None:
        """A request, and what the machine does then."""
        room, size = ctypes.create_string_buffer(ROOM), ctypes.c_uint64()
        status = self.calls.forth83_serve(ctypes.byref(self.machine), ctypes.c_uint8(ord(kind)), body, ctypes.c_uint64(len(body)), room, ctypes.c_uint64(ROOM), ctypes.byref(size))
        assert status == 0, f"serve: status {status}"
        reply = room.raw[: size.value]
        while reply:
            end = 3 + int.from_bytes(reply[1:3], "little")
            if reply[:1] == b"s":
                self.shown += reply[3:end]
            else:
                self.how, self.number = chr(reply[7]), int.from_bytes(reply[8:10], "little")
            reply = reply[end:]

    def drive(self, limit: int) -> None:
        """Goes on until more bytes are needed."""
        for _ in range(400):
            is_short = b"\n" not in self.pending and len(self.pending) < self.number
            if self.how in "bxyh" or self.how == "k" and not self.pending or self.how == "l" and is_short:
                break
            if self.how == "k":
                key, self.pending = self.pending[:1], self.pending[1:]
                self.give("k", key)
            elif self.how == "l":
                self.line(self.number)
            elif self.how in "rw":
                self.serve(self.how == "r", self.number)
            else:
                self.give("r", limit.to_bytes(4, "little"))

    def line(self, most: int) -> None:
        """Answers a line."""
        end = self.pending.find(b"\n")
        size = min(len(self.pending) if end < 0 else end, most)
        is_whole = end == size < most
        line, self.pending = self.pending[:size], self.pending[size + is_whole :]
        self.give("l", bytes([is_whole]) + line)

    def serve(self, is_read: bool, block: int) -> None:
        """Answers a request for a block."""
        at = block * PAGE
        if block >= BLOCKS:
            self.give("f" if is_read else "g")
        elif is_read:
            self.give("p", bytes(self.blocks[at : at + PAGE]))
        else:
            slots = [one.slot for one in self.machine.buffers[: self.machine.buffer_count] if one.has_block and one.block == block]
            place = 65536 - PAGE * (self.machine.buffer_count - slots[0])
            self.blocks[at : at + PAGE] = bytes(self.machine.memory[place : place + PAGE])
            self.give("w")


def plans(count: int) -> List[Plan]:
    """Random scripts, each in random pieces with random limits."""
    dice, made = random.Random(83), []
    for _ in range(count):
        text, plan = random_scripts.script(dice), []
        while text:
            size = dice.randrange(1, 1 + len(text))
            plan.append((text[:size], dice.choice((7, 100, 5000, 100000))))
            text = text[size:]
        made.append(plan)
    return made


def native_library(room: pathlib.Path, is_proved: bool) -> pathlib.Path:
    """The library for this process, from the same lowered code as the module."""
    archive, shared = libraries.native(room, is_proved), room / "libforth83.so"
    run(["cc", "-shared", "-o", shared, "-Wl,--whole-archive", archive, "-Wl,--no-whole-archive"])
    return shared


def run(words: List[object]) -> None:
    subprocess.run([str(word) for word in words], stdin=subprocess.DEVNULL, stdout=subprocess.DEVNULL, check=True)


def plain_image(program: pathlib.Path, room: pathlib.Path) -> bytes:
    """The kernel's image, whose output is exactly what the machine shows."""
    run([program, "kernel", room / "plain.blk"])
    run([program, "build", room / "plain.blk", 1, 20, room / "plain.img"])
    return (room / "plain.img").read_bytes()


def compare(cases: Tally, browser: browsers.Browser, program: pathlib.Path, is_proved: bool, count: int) -> None:
    """Runs the plans on both sides."""
    with tempfile.TemporaryDirectory() as name:
        room = pathlib.Path(name)
        image = plain_image(program, room)
        native = Native(native_library(room, is_proved), image)
        browser.value(IN_PAGE)
        browser.value(f"window.plain = fromBase64({json.dumps(base64.b64encode(image).decode())}); 0")
        wanted = plans(count)
        for at in range(0, count, BATCH):
            batch = wanted[at : at + BATCH]
            answers = browser.value(f"{json.dumps(batch)}.map(runPlan)")
            for number, (plan, answer) in enumerate(zip(batch, answers), at):
                got = tuple(base64.b64decode(part) for part in answer)
                cases.must(got == native.run_plan(plan), f"script {number}, {plan}: the module and the native library differ")
        cases.must(len(bytes(native.machine)) == records.records()["Forth83"].size, "the record has another size in examples/embed")
