"""A headless Firefox for trials of pages, driven by Marionette; it has the calls of browser.Browser that page_keeping.py uses."""
import json
import pathlib
import shutil
import socket
import subprocess
import tempfile
import time
from typing import Any, Dict, List

NAMES = ("firefox-esr", "firefox")
SETTINGS = {
    "marionette.port": 0,
    "browser.shell.checkDefaultBrowser": False,
    "datareporting.policy.dataSubmissionEnabled": False,
    "app.update.enabled": False,
    "toolkit.telemetry.enabled": False,
    "browser.startup.page": 0,
    "dom.disable_beforeunload": True,
    "browser.tabs.remote.autostart": True,
}

# The keys of the WebDriver standard that have names.
KEYS = {
    "Enter": 0xE007,
    "Tab": 0xE004,
    "Shift": 0xE008,
    "Control": 0xE009,
    "Escape": 0xE00C,
    "PageUp": 0xE00E,
    "PageDown": 0xE00F,
    "End": 0xE010,
    "Home": 0xE011,
    "ArrowLeft": 0xE012,
    "ArrowUp": 0xE013,
    "ArrowRight": 0xE014,
    "ArrowDown": 0xE015,
    "F1": 0xE031,
    "F6": 0xE036,
    "Space": 32,
}


def strokes(*names: str) -> List[Dict[str, object]]:
    """Keys by their names, as a driver presses them; `Control+z` holds a key."""
    made = []
    for name in names:
        keys = [chr(KEYS[one]) if one in KEYS else one for one in (name.split("+") if len(name) > 1 else [name])]
        made += [{"type": "keyDown", "value": key} for key in keys] + [{"type": "keyUp", "value": key} for key in reversed(keys)]
    return [{"type": "key", "id": "keys", "actions": made}]


def letters(text: str) -> List[str]:
    """The keys of a text."""
    return ["Enter" if letter == "\n" else letter for letter in text]


def firefox() -> str:
    """The browser's path, or an empty text."""
    return next((path for path in (shutil.which(name) for name in NAMES) if path), "")


def free_port() -> int:
    with socket.socket() as one:
        one.bind(("127.0.0.1", 0))
        return int(one.getsockname()[1])


class Firefox:
    """A browser, which may be killed and started again with what it has kept."""

    keeps_after_crash, has_looks = True, False

    def __init__(self) -> None:
        self.room = tempfile.TemporaryDirectory()
        self.errors: List[str] = []
        self.asked: List[str] = []
        self.start()

    def start(self) -> None:
        """Starts the browser with the profile of this room."""
        port = free_port()
        lines = [f"user_pref({json.dumps(name)}, {json.dumps(value)});" for name, value in {**SETTINGS, "marionette.port": port}.items()]
        (pathlib.Path(self.room.name) / "user.js").write_text("\n".join(lines), encoding="ascii")
        nowhere = {"stdin": subprocess.DEVNULL, "stdout": subprocess.DEVNULL, "stderr": subprocess.DEVNULL}
        words = [firefox(), "--headless", "--marionette", "--no-remote", "--profile", self.room.name]
        self.running = subprocess.Popen(words, **nowhere)  # type: ignore
        self.number, self.rest = 0, b""
        self.line = self.connected(port)
        self.receive()
        self.call("WebDriver:NewSession", capabilities={"alwaysMatch": {"pageLoadStrategy": "normal"}})
        self.call("WebDriver:SetTimeouts", script=120000)
        self.target = str(self.call("WebDriver:GetWindowHandle")["value"])

    @staticmethod
    def connected(port: int) -> socket.socket:
        until = time.monotonic() + 60
        while True:
            try:
                return socket.create_connection(("127.0.0.1", port), timeout=180)
            except OSError:
                if time.monotonic() > until:
                    raise
                time.sleep(0.1)

    def receive(self) -> Any:
        """A message: its length, a colon, and JSON."""
        while b":" not in self.rest or len(self.rest) < self.rest.index(b":") + 1 + int(self.rest.split(b":", 1)[0]):
            piece = self.line.recv(1 << 16)
            if not piece:
                raise RuntimeError("the browser ended")
            self.rest += piece
        size, _, rest = self.rest.partition(b":")
        text, self.rest = rest[: int(size)], rest[int(size) :]
        return json.loads(text)

    def call(self, method: str, **values: object) -> Any:
        self.number += 1
        text = json.dumps([0, self.number, method, values]).encode()
        self.line.sendall(b"%d:%s" % (len(text), text))
        _, number, error, answer = self.receive()
        if error:
            raise RuntimeError(f"{method}: {error.get('message')}")
        return answer

    def value(self, expression: str) -> Any:
        """The value of an expression, or of what it promises."""
        script = (
            f"const done = arguments[arguments.length - 1]; Promise.resolve().then(() => window.eval ? ({expression}) : 0)"
            ".then((value) => done([value]), (error) => done([null, String(error)]));"
        )
        found = self.call("WebDriver:ExecuteAsyncScript", script=script, args=[], sandbox=None, newSandbox=False)["value"]
        if len(found) > 1:
            raise RuntimeError(found[1])
        return found[0]

    def open(self, path: pathlib.Path) -> None:
        self.call("WebDriver:Navigate", url=f"file://{path.resolve()}")

    def press(self, *names: str) -> None:
        """Presses keys by their names."""
        self.call("WebDriver:PerformActions", actions=strokes(*names))

    def write(self, text: str) -> None:
        """Types a text where the focus is."""
        self.press(*letters(text))

    def window(self, handle: str = "") -> str:
        """Goes to a window, or opens another one; its name."""
        self.target = handle or self.call("WebDriver:NewWindow", type="tab")["handle"]
        self.call("WebDriver:SwitchToWindow", handle=self.target, focus=True)
        return self.target

    def close(self, handle: str) -> None:
        """Closes another window."""
        here = self.target
        self.window(handle)
        self.call("WebDriver:CloseWindow")
        self.window(here)

    def kill(self) -> None:
        """Ends it as a crash does."""
        self.line.close()
        self.running.kill()
        self.running.wait()

    def __enter__(self) -> "Firefox":
        return self

    def __exit__(self, *_: object) -> None:
        self.kill()
        time.sleep(0.5)
        self.room.cleanup()
