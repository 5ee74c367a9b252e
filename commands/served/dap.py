"""The Debug Adapter Protocol over standard input and output: an editor's breakpoints, steps, stacks and memory, over a session.

Breakpoints are lines of texts and names of words. A stop is before a token of a thread; a step is a token. The protocol is described at
https://microsoft.github.io/debug-adapter-protocol.
"""
from __future__ import annotations

import base64
import json
import os
import select
from typing import Any, Callable, Dict, List, Optional, Set

from served import image
from served.debuggee import Debuggee
from served.faults import plain
from served.past import calls, Frame
from served.prompt import Ended, Signals
from served.script import Script
from served.target import TOP, signed
from served.texts import FIRST as FIRST_TEXT, Line, lines_of, read_file, Unreadable
from served.wire import cell_at, Refused
from system_cells import BASE, BLK, COLON, CONSTANT, DP, SCR, STATE, TO_IN, VARIABLE

THREAD = 1
STACK, RETURNS, CELLS = 1, 2, 3  # references of variables
SYSTEM_CELLS = {"STATE": STATE, "BASE": BASE, ">IN": TO_IN, "BLK": BLK, "HERE": DP, "SCR": SCR}
ABILITIES = {
    "supportsConfigurationDoneRequest": True,
    "supportsFunctionBreakpoints": True,
    "supportsReadMemoryRequest": True,
    "supportsEvaluateForHovers": True,
    "supportsTerminateRequest": True,
}
Body = Dict[str, Any]


class Messages:
    """Messages of the protocol: a length, an empty line, and JSON."""

    def __init__(self) -> None:
        self._come, self._number = b"", 0

    def has_one(self) -> bool:
        """Whether a message has come, or a part of one."""
        return bool(self._come) or bool(select.select([0], [], [], 0)[0])

    def take(self) -> Body:
        """The next message; Ended at the end of the input."""
        while b"\r\n\r\n" not in self._come:
            self._read()
        head, _, self._come = self._come.partition(b"\r\n\r\n")
        size = int(next(line for line in head.split(b"\r\n") if line.lower().startswith(b"content-length")).split(b":")[1])
        while len(self._come) < size:
            self._read()
        body, self._come = self._come[:size], self._come[size:]
        found = json.loads(body)
        assert isinstance(found, dict)
        return found

    def _read(self) -> None:
        piece = os.read(0, 65536)
        if not piece:
            raise Ended(0)
        self._come += piece

    def send(self, kind: str, **body: Any) -> None:
        self._number += 1
        content = json.dumps({"seq": self._number, "type": kind, **body}).encode()
        whole = b"Content-Length: %d\r\n\r\n%b" % (len(content), content)
        try:
            while whole:
                whole = whole[os.write(1, whole) :]
        except BrokenPipeError:
            raise Ended(0) from None


class Console(Script):
    """Where the session's lines and keys come from: the debugger gives them."""

    def __init__(self, signals: Signals, next_line: Callable[[], Optional[Line]], typed: Callable[[], Optional[bytes]]) -> None:
        super().__init__(signals, [], False, False)
        self._next_line, self._typed, self._left = next_line, typed, b""

    def next(self) -> Optional[Line]:
        return self._next_line()

    def line(self, before: bytes, keeps: bool) -> Optional[bytes]:
        return self._typed()

    def key(self) -> Optional[int]:
        if not self._left:
            typed = self._typed()
            if typed is None:
                return None
            self._left = typed + b"\r"
        key, self._left = self._left[0], self._left[1:]
        return key

    def has_key(self, seconds: float = 0) -> bool:
        return bool(self._left)


def nothing(_: Debuggee) -> None:
    """The program goes on without a step."""


# The requests that let the program go on, with what each prepares.
STEPS: Dict[str, Callable[[Debuggee], None]] = {
    "continue": nothing,
    "next": Debuggee.step_over,
    "stepIn": Debuggee.step_into,
    "stepOut": Debuggee.step_out,
}
ENDS = ("disconnect", "terminate")  # after the answer to these the session ends


class NotStarted(Exception):
    """What is asked is about a program that is not started yet."""


class Program:
    """The program that is debugged, once it is started."""

    def __init__(self) -> None:
        self.started: Optional[Debuggee] = None
        self.is_loaded = False

    @property
    def debuggee(self) -> Debuggee:
        if self.started is None:
            raise NotStarted
        return self.started


class Breakpoints:
    """Where the editor wants the program to stop."""

    def __init__(self, program: Program) -> None:
        self._program = program
        self._wanted: Dict[str, List[int]] = {}
        self._names: List[str] = []

    def on_setBreakpoints(self, asked: Body) -> Body:
        path = os.path.abspath(asked["source"]["path"])
        self._wanted[path] = [one["line"] for one in asked.get("breakpoints", [])]
        if self._program.is_loaded:
            return {"breakpoints": self.place_all()[path]}
        return {"breakpoints": [{"verified": False, "message": "when the program is loaded"} for _ in self._wanted[path]]}

    def on_setFunctionBreakpoints(self, asked: Body) -> Body:
        self._names = [one["name"] for one in asked.get("breakpoints", [])]
        if self._program.is_loaded:
            self.place_all()
        return {"breakpoints": [{"verified": self._program.is_loaded and self._place_of(name) is not None} for name in self._names]}

    def place_all(self) -> Dict[str, List[Body]]:
        """Sets a trap for each breakpoint that has a place; what each came to, by file."""
        debuggee = self._program.debuggee
        answers: Dict[str, List[Body]] = {}
        debuggee.traps.lift()
        places = {place for place in map(self._place_of, self._names) if place}
        for path, numbers in self._wanted.items():
            answers[path] = []
            for number in numbers:
                found = [place for name in self._spelled(path) for place in debuggee.places_of(name, number)]
                places.update(found)
                answers[path].append({"verified": bool(found), "line": number})
        debuggee.traps.places = places
        return answers

    def _place_of(self, name: str) -> Optional[int]:
        """Where the thread of a word begins."""
        found = self._program.debuggee.target.look_up(name)
        if found is None:
            return None
        try:
            return self._program.debuggee.wire.thread(found).start
        except Refused:
            return None

    def _spelled(self, path: str) -> Set[str]:
        """How the texts of the session name this file."""
        texts = self._program.debuggee.target.texts
        lines = [texts.place(block) for _, block in self._program.debuggee.lines]
        return {line.name for line in lines if line and os.path.abspath(line.name) == path}


class Looks:
    """What the editor shows of a program that has stopped."""

    def __init__(self, program: Program) -> None:
        self._program = program

    def on_threads(self, _: Body) -> Body:
        return {"threads": [{"id": THREAD, "name": "the Forth"}]}

    def on_stackTrace(self, _: Body) -> Body:
        frames = [self._frame(number, frame) for number, frame in enumerate(calls(self._program.debuggee.view()))]
        return {"stackFrames": frames, "totalFrames": len(frames)}

    def on_source(self, asked: Body) -> Body:
        page = self._program.debuggee.target.page(asked["sourceReference"]) or b""
        return {"content": "\n".join(plain(page[at : at + 64]).rstrip() for at in range(0, len(page), 64))}

    def on_scopes(self, _: Body) -> Body:
        named = {"Data stack": STACK, "Return stack": RETURNS, "System cells": CELLS}
        return {"scopes": [{"name": name, "variablesReference": number, "expensive": False} for name, number in named.items()]}

    def on_variables(self, asked: Body) -> Body:
        view, which = self._program.debuggee.view(), asked["variablesReference"]
        if which == CELLS:
            found = [(name, cell_at(view.memory, at)) for name, at in SYSTEM_CELLS.items()]
        else:
            cells = view.state.stack if which == STACK else view.state.returns
            found = [("top" if not at else f"{at} below", number) for at, number in enumerate(reversed(cells))]
        shown = [{"name": name, "value": str(signed(number)), "variablesReference": 0, "memoryReference": str(number)} for name, number in found]
        return {"variables": shown}

    def on_readMemory(self, asked: Body) -> Body:
        begin = int(str(asked["memoryReference"]), 0) + int(asked.get("offset", 0))
        begin, count = max(0, begin), int(asked["count"])
        content = self._program.debuggee.view().memory[begin : begin + count]
        return {"address": hex(begin), "data": base64.b64encode(content).decode(), "unreadableBytes": count - len(content)}

    def _frame(self, number: int, frame: Frame) -> Body:
        header = frame.header
        line = self._program.debuggee.line_of(header, frame.address)
        found: Body = {"id": number, "name": plain(header.name), "line": 0, "column": 0, "instructionPointerReference": str(frame.address)}
        if line and line.name:
            found["line"], found["column"] = line.number, 1
            found["source"] = {"name": os.path.basename(line.name), "path": os.path.abspath(line.name)}
        elif 0 < header.view < FIRST_TEXT:
            found["line"], found["column"] = self._line_in_screen(header.view, header.name), 1
            found["source"] = {"name": f"screen {header.view}", "sourceReference": header.view}
        return found

    def _line_in_screen(self, screen: int, name: bytes) -> int:
        """The line of a screen that makes a name, from 1 on."""
        page = self._program.debuggee.target.page(screen) or b""
        rows = [page[at : at + 64].split() for at in range(0, len(page), 64)]
        return next((number for number, row in enumerate(rows, 1) if name in row), 1)

    def meaning(self, text: str) -> str:
        """What a name or an address means, as a person would ask for it."""
        view = self._program.debuggee.view()
        if text.isdigit():
            return f"{text} @ is {signed(cell_at(view.memory, int(text) % TOP))}"
        found = [header for header in view.headers if header.name.upper() == text.upper().encode()]
        if not found:
            return f"{text} is unknown"
        header = found[-1]
        if header.code in (VARIABLE, CONSTANT):
            return str(signed(cell_at(view.memory, header.token + 2)))
        if header.code == COLON:
            return self._program.debuggee.wire.see(header.name).decode(errors="replace")
        return f"{plain(header.name)} is at {header.token}"


class Adapter:
    """What an editor asks, and the answers and events that it gets."""

    def __init__(self, program: str) -> None:
        self._path, self._messages, self._program = program, Messages(), Program()
        self._breakpoints, self._looks = Breakpoints(self._program), Looks(self._program)
        self._asked: Body = {}
        self._lines: List[Line] = []
        self._typed: List[bytes] = []
        self._goes_on = self._pauses = self._is_ready = False
        self._step: Callable[[Debuggee], None] = nothing

    # The loop

    def run(self) -> int:
        """Serves an editor until it leaves, or the program has ended; the status."""
        try:
            while not self._is_ready:
                self._serve(self._messages.take())
            return self._debug()
        except Ended:
            return 0

    def _debug(self) -> int:
        try:
            self._begin()
        except (Unreadable, OSError, image.NotMade) as error:
            self._tell("stderr", f"{error}\n")
            self._event("terminated")
            return 1
        status = self._program.debuggee.run()
        self._event("exited", exitCode=status)
        self._event("terminated")
        return status

    def _begin(self) -> None:
        """Starts the session, and has it load the program."""
        asked = self._asked
        os.chdir(asked.get("cwd") or ".")
        words = [self._path, "serve", os.path.join(image.find(self._path), "served.img"), *([asked["blocks"]] if asked.get("blocks") else [])]
        signals = Signals()
        console = Console(signals, self._next_line, self._next_typed)
        self._program.started = Debuggee(words, asked.get("blocks"), signals, console, list(map(str, asked.get("args", []))))
        self._program.started.attach(self._stopped, self._poll, self._tell)
        if asked.get("program"):
            self._lines = lines_of(asked["program"], read_file(asked["program"]))
        if asked.get("load"):
            self._lines.append(Line("", 0, f"{int(asked['load'])} LOAD".encode()))

    def _poll(self) -> bool:
        """Serves what has come; whether the program is to pause."""
        while self._messages.has_one():
            self._serve(self._messages.take())
        pauses = self._pauses and self._program.is_loaded
        self._pauses = self._pauses and not pauses
        return pauses

    def _next_line(self) -> Optional[Line]:
        """The next line that the session does: of the program, then the one that the launch names."""
        if self._lines:
            return self._lines.pop(0)
        if self._program.is_loaded:
            return None
        self._program.is_loaded = True
        self._breakpoints.place_all()
        return Line("", 0, str(self._asked.get("line", "")).encode())

    def _next_typed(self) -> Optional[bytes]:
        """What is typed for the program: the debug console's next line."""
        while not self._typed:
            self._serve(self._messages.take())
        return self._typed.pop(0)

    def _stopped(self, reason: str, text: str) -> None:
        """The session has stopped; this returns when it is to go on."""
        self._goes_on, self._step = False, nothing
        self._event("stopped", reason=reason, threadId=THREAD, allThreadsStopped=True, **({"text": text, "description": text} if text else {}))
        while not self._goes_on:
            self._serve(self._messages.take())
        self._step(self._program.debuggee)

    # Messages

    def _event(self, name: str, **body: Any) -> None:
        self._messages.send("event", event=name, body=body)

    def _tell(self, where: str, text: str) -> None:
        self._event("output", category=where, output=text)

    def _serve(self, message: Body) -> None:
        """Answers a request."""
        name = str(message.get("command"))
        answer: Body = {"request_seq": message.get("seq"), "command": name}
        try:
            body = self._answer(name, message.get("arguments") or {})
            self._messages.send("response", **answer, success=True, body=body or {})
        except (Refused, NotStarted, LookupError) as error:
            why = "the program is not started" if isinstance(error, NotStarted) else f"{name} is refused"
            self._messages.send("response", **answer, success=False, message=why)
        if name == "initialize":
            self._event("initialized")
        if name in ENDS:
            raise Ended(0)

    def _answer(self, name: str, asked: Body) -> Optional[Body]:
        """Does what a request asks; the body of its answer."""
        if name in ENDS:
            return None
        if name in STEPS:
            self._step, self._goes_on = STEPS[name], True
            return {"allThreadsContinued": True}
        for part in (self, self._looks, self._breakpoints):
            function: Optional[Callable[[Body], Optional[Body]]] = getattr(part, f"on_{name}", None)
            if function:
                return function(asked)
        raise LookupError(name)

    # Requests

    def on_initialize(self, _: Body) -> Body:
        return ABILITIES

    def on_launch(self, asked: Body) -> None:
        self._asked = asked

    def on_configurationDone(self, _: Body) -> None:
        self._is_ready = True

    def on_evaluate(self, asked: Body) -> Body:
        """The meaning of a name; in the debug console, a line for the program that waits for one."""
        text = asked["expression"].strip()
        is_stopped = self._program.is_loaded and not self._goes_on
        if asked.get("context") == "repl" and not is_stopped:
            self._typed.append(text.encode())
            return {"result": "", "variablesReference": 0}
        return {"result": self._looks.meaning(text), "variablesReference": 0}

    def on_pause(self, _: Body) -> None:
        self._pauses = True


def main(program: str) -> int:
    """Speaks with an editor over standard input and output; the status of the program."""
    return Adapter(program).run()
