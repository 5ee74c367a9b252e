"""A WebKit browser for trials of pages, driven by WebKitWebDriver within a display of its own; it has the calls of browser.Browser that
page_keeping.py uses. What an automated WebKit keeps lasts as long as it runs."""
import json
import os
import pathlib
import shutil
import subprocess
import time
import urllib.error
import urllib.request
from typing import Any, List

from firefox import free_port, letters, strokes

DRIVER = "WebKitWebDriver"
MINI_BROWSERS = ("/usr/lib/x86_64-linux-gnu/webkit2gtk-4.1/MiniBrowser", "/usr/lib/x86_64-linux-gnu/webkit2gtk-4.0/MiniBrowser")


def mini_browser() -> str:
    """The browser's path, or an empty text if something is missing that drives it."""
    found = next((path for path in MINI_BROWSERS if os.access(path, os.X_OK)), "")
    return found if shutil.which(DRIVER) and shutil.which("Xvfb") else ""


class WebKit:
    """A browser; a crash ends all that it kept."""

    keeps_after_crash = has_looks = False

    def __init__(self) -> None:
        self.errors: List[str] = []
        self.asked: List[str] = []
        nowhere = {"stdin": subprocess.DEVNULL, "stderr": subprocess.DEVNULL}
        reader, writer = os.pipe()
        self.display = subprocess.Popen(
            ["Xvfb", "-displayfd", str(writer), "-screen", "0", "1280x900x24", "-nolisten", "tcp"], pass_fds=[writer], stdout=subprocess.DEVNULL, **nowhere
        )  # type: ignore
        os.close(writer)
        with os.fdopen(reader) as number:
            name = ":" + number.readline().strip()
        self.port = free_port()
        self.driver = subprocess.Popen(
            [DRIVER, f"--port={self.port}"], env={**os.environ, "DISPLAY": name, "WEBKIT_DISABLE_COMPOSITING_MODE": "1"}, stdout=subprocess.DEVNULL, **nowhere
        )  # type: ignore
        self.begin()

    def begin(self) -> None:
        """A session of the driver."""
        options = {"binary": mini_browser(), "args": ["--automation"]}
        wanted = {"capabilities": {"alwaysMatch": {"browserName": "MiniBrowser", "webkitgtk:browserOptions": options, "timeouts": {"script": 120000}}}}
        until = time.monotonic() + 60
        while True:
            try:
                self.session = str(self.call("POST", "/session", wanted)["sessionId"])
                break
            except (ConnectionError, urllib.error.URLError):
                if time.monotonic() > until:
                    raise
                time.sleep(0.2)
        self.target = str(self.on("GET", "/window"))

    def call(self, method: str, path: str, body: Any = None) -> Any:
        """An answer of the driver; RuntimeError with its message."""
        data = None if method == "GET" else json.dumps(body or {}).encode()
        asked = urllib.request.Request(f"http://127.0.0.1:{self.port}{path}", data=data, method=method)
        try:
            with urllib.request.urlopen(asked, timeout=180) as answer:
                return json.load(answer)["value"]
        except urllib.error.HTTPError as error:
            raise RuntimeError(f"{path}: {json.load(error)['value'].get('message')}") from None

    def on(self, method: str, path: str, **body: object) -> Any:
        """An answer about this session."""
        return self.call(method, f"/session/{self.session}{path}", body)

    def value(self, expression: str) -> Any:
        """The value of an expression, or of what it promises."""
        script = (
            f"const done = arguments[arguments.length - 1]; Promise.resolve().then(() => ({expression})).then((value) => done([value]), (error) => done([null, String(error)]));"
        )
        found = self.on("POST", "/execute/async", script=script, args=[])
        if len(found) > 1:
            raise RuntimeError(found[1])
        return found[0]

    def open(self, path: pathlib.Path) -> None:
        self.on("POST", "/url", url=f"file://{path.resolve()}")

    def press(self, *names: str) -> None:
        """Presses keys by their names."""
        self.on("POST", "/actions", actions=strokes(*names))

    def write(self, text: str) -> None:
        """Types a text where the focus is."""
        self.press(*letters(text))

    def window(self, handle: str = "") -> str:
        """Goes to a window, or opens another one; its name."""
        self.target = handle or str(self.on("POST", "/window/new", type="tab")["handle"])
        self.on("POST", "/window", handle=self.target)
        return self.target

    def close(self, handle: str) -> None:
        """Closes another window."""
        here = self.target
        self.window(handle)
        self.on("DELETE", "/window")
        self.window(here)

    def __enter__(self) -> "WebKit":
        return self

    def __exit__(self, *_: object) -> None:
        try:
            self.on("DELETE", "")
        except (RuntimeError, OSError):
            pass
        for one in (self.driver, self.display):
            one.terminate()
            one.wait()
