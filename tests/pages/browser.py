"""A headless Chromium for trials of pages: it opens a file, presses keys, evaluates and takes pictures.

It is spoken to through two pipes (`--remote-debugging-pipe`), so that no port is open. A page of ours may load nothing: what it
asks of the network is kept in `asked`.
"""
import base64
import json
import os
import pathlib
import select
import shutil
import subprocess
import tempfile
import time
from typing import Any, Dict, List, Optional, Tuple

OPTIONS = ("--headless", "--no-sandbox", "--disable-gpu", "--hide-scrollbars", "--remote-debugging-pipe", "--disable-background-networking")
NAMES = ("chromium", "chromium-browser", "google-chrome")
CODES = {
    "ArrowLeft": 37,
    "ArrowUp": 38,
    "ArrowRight": 39,
    "ArrowDown": 40,
    "PageUp": 33,
    "PageDown": 34,
    "End": 35,
    "Home": 36,
    "Tab": 9,
    "Enter": 13,
    "Escape": 27,
    "F1": 112,
    " ": 32,
}
MODIFIERS = {"Control": 2, "Shift": 8}
LONGEST = 180  # seconds without a message


def chromium() -> str:
    """The browser's path, or an empty text."""
    return next((path for path in (shutil.which(name) for name in NAMES) if path), "")


class Browser:
    """A browser with one page."""

    keeps_after_crash = has_looks = True

    def __init__(self, width: int = 1280, height: int = 900) -> None:
        self.room, self.shape = tempfile.TemporaryDirectory(), (width, height)
        self.errors: List[str] = []
        self.asked: List[str] = []
        self.preferred: List[Dict[str, str]] = []
        self.medium = "screen"
        self.start()

    def start(self) -> None:
        """Starts the browser with the profile of this room."""
        to_read, self.out = os.pipe()
        self.back, to_write = os.pipe()
        os.set_inheritable(to_read, True)
        os.set_inheritable(to_write, True)
        words = [chromium(), *OPTIONS, f"--user-data-dir={self.room.name}", f"--window-size={self.shape[0]},{self.shape[1]}", "about:blank"]
        command = ["bash", "-c", f'exec "$@" 3<&{to_read} 4>&{to_write}', "browser", *words]
        nowhere = subprocess.DEVNULL
        self.running = subprocess.Popen(command, pass_fds=(to_read, to_write), stdin=nowhere, stdout=nowhere, stderr=nowhere)
        os.close(to_read)
        os.close(to_write)
        self.rest, self.number, self.session = b"", 0, ""
        self.events: List[Optional[str]] = []
        self.window(next(one for one in self.call("Target.getTargets")["targetInfos"] if one["type"] == "page")["targetId"])

    def window(self, target: str = "") -> str:
        """Goes to a window, or opens another one; its name."""
        self.session = ""
        self.target = target or self.call("Target.createTarget", url="about:blank")["targetId"]
        self.session = self.call("Target.attachToTarget", targetId=self.target, flatten=True)["sessionId"]
        for domain in ("Page", "Runtime", "Network", "Log"):
            self.call(f"{domain}.enable")
        return self.target

    def close(self, target: str) -> None:
        """Closes another window."""
        self.call("Target.closeTarget", targetId=target)

    def kill(self) -> None:
        """Ends it as a crash does."""
        self.running.kill()
        self.running.wait()
        os.close(self.out)
        os.close(self.back)

    def __enter__(self) -> "Browser":
        return self

    def __exit__(self, *_: object) -> None:
        self.kill()
        self.remove_room()

    def remove_room(self) -> None:
        """Removes the browser's folder, into which its processes may write a moment longer than it lives."""
        for _ in range(50):
            try:
                self.room.cleanup()
                return
            except OSError:
                time.sleep(0.1)

    def receive(self) -> Dict[str, Any]:
        while b"\0" not in self.rest:
            if not select.select([self.back], [], [], LONGEST)[0]:
                raise RuntimeError(f"the browser says nothing for {LONGEST} seconds")
            piece = os.read(self.back, 1 << 16)
            if not piece:
                raise RuntimeError("the browser ended")
            self.rest += piece
        message, _, self.rest = self.rest.partition(b"\0")
        return json.loads(message)

    def note(self, event: Dict[str, Any]) -> None:
        """Keeps what went wrong in the page, and what it asked of the network."""
        method, values = event.get("method"), event.get("params", {})
        self.events.append(method)
        if method == "Runtime.exceptionThrown":
            self.errors.append(values["exceptionDetails"].get("exception", {}).get("description", "an exception"))
        elif method == "Log.entryAdded" and values["entry"]["level"] == "error":
            self.errors.append(values["entry"]["text"])
        elif method == "Network.requestWillBeSent" and not values["request"]["url"].startswith(("file:", "data:", "about:")):
            self.asked.append(values["request"]["url"])

    def call(self, method: str, **values: object) -> Dict[str, Any]:
        self.number += 1
        message = {"id": self.number, "method": method, "params": values}
        if self.session:
            message["sessionId"] = self.session
        os.write(self.out, json.dumps(message).encode() + b"\0")
        while True:
            answer = self.receive()
            if answer.get("id") == self.number:
                if "error" in answer:
                    raise RuntimeError(f"{method}: {answer['error']['message']}")
                return answer["result"]
            self.note(answer)

    def open(self, path: pathlib.Path, mark: str = "") -> None:
        """Opens a file, and waits until it is loaded. It starts from a blank page, because a browser does not load a page again for a new mark."""
        for url in ("about:blank", f"file://{os.path.abspath(path)}{mark}"):
            self.events.clear()
            self.call("Page.navigate", url=url)
            while "Page.loadEventFired" not in self.events:
                self.note(self.receive())

    def size(self, width: int, height: int, scale: int = 1) -> None:
        """The window's size in pixels of the page; SCALE is how many pixels of the screen one of these is, as a browser zooms."""
        self.call("Emulation.setDeviceMetricsOverride", width=width, height=height, deviceScaleFactor=scale, mobile=False)

    def prefers(self, **features: str) -> None:
        """What the reader prefers: `prefers(color_scheme="dark", reduced_motion="reduce")`."""
        self.preferred = [{"name": f"prefers-{name.replace('_', '-')}", "value": value} for name, value in features.items()]
        self.media(self.medium)

    def media(self, medium: str) -> None:
        """As on a screen, or as it is printed: `print`."""
        self.medium = medium
        self.call("Emulation.setEmulatedMedia", media=medium, features=self.preferred)

    def press(self, *names: str) -> None:
        """Presses keys by their names; `Shift+End` holds the shift key."""
        for name in names:
            *held, name = name.split("+") if len(name) > 1 else [name]
            name = "\x20" if name == "Space" else name
            one = {"key": name, "code": name, "windowsVirtualKeyCode": CODES.get(name, ord(name[0].upper())), "modifiers": sum(MODIFIERS[it] for it in held)}
            if name == "Enter" or len(name) == 1 and not held:
                one["text"] = "\r" if name == "Enter" else name
            self.call("Input.dispatchKeyEvent", type="keyDown" if "text" in one else "rawKeyDown", **one)
            self.call("Input.dispatchKeyEvent", type="keyUp", **one)

    def write(self, text: str) -> None:
        """Types a text where the focus is."""
        self.call("Input.insertText", text=text)

    def value(self, expression: str) -> Any:
        done = self.call("Runtime.evaluate", expression=expression, returnByValue=True, awaitPromise=True)
        if "exceptionDetails" in done:
            raise RuntimeError(str(done["exceptionDetails"]))
        return done["result"].get("value")

    def wait(self, expression: str, seconds: int = 10) -> None:
        """Waits until an expression is true; an error if it doesn't become so."""
        end = time.monotonic() + seconds
        while not self.value(expression):
            if time.monotonic() > end:
                raise RuntimeError(f"this didn't come true in {seconds} seconds: {expression}")
            time.sleep(0.02)

    def picture(self, path: pathlib.Path) -> None:
        with open(path, "wb") as file:
            file.write(base64.b64decode(self.call("Page.captureScreenshot")["data"]))

    def nameless(self, roles: Tuple[str, ...]) -> List[str]:
        """The accessible elements of these roles that have no name, as a screen reader finds them."""
        nodes = [node for node in self.call("Accessibility.getFullAXTree")["nodes"] if not node.get("ignored")]
        return [node["role"]["value"] for node in nodes if node.get("role", {}).get("value") in roles and not node.get("name", {}).get("value")]

    def paper(self, path: pathlib.Path) -> None:
        done = self.call("Page.printToPDF", preferCSSPageSize=True)
        with open(path, "wb") as file:
            file.write(base64.b64decode(done["data"]))
