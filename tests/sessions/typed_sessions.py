"""Sessions of the Forth over its server, in which lines are typed at a terminal that is none: as fast as they are read, and what is shown
is kept. `tests/sessions/check-served` and `tests/sessions/check-screen-editor` try the terminal itself."""
import pathlib
import sys
from typing import Optional

ROOT = pathlib.Path(__file__).resolve().parents[2]
sys.dont_write_bytecode = True
sys.path.insert(0, str(ROOT / "commands"))

from served import image, prompt, session, start  # noqa: E402


class Typist:
    """The terminal at which these bytes are typed."""

    is_script = False

    def __init__(self, typed: bytes, owner: "Typed") -> None:
        self._typed, self._owner, self.draft, self.row = typed, owner, "", b""

    def line(self, before: bytes, _: bool) -> Optional[bytes]:
        """The next line, which the terminal shows, and a blank after it."""
        if not self._typed:
            return None
        line, self._typed = self._typed.partition(b"\n")[::2]
        self._owner.write(1, line + b" ")
        self.row = before + line + b" "
        return line

    def key(self) -> Optional[int]:
        """The next byte."""
        byte, self._typed = self._typed[:1], self._typed[1:]
        return byte[0] if byte else None

    whole_key = key

    def has_key(self, _: float = 0) -> bool:
        """Whether a byte has come."""
        return bool(self._typed)

    def raw(self) -> None:
        """Nothing has to be set."""

    cook = close = raw


class Typed(session.Session):
    """A session in which these bytes are typed; what it shows is kept."""

    def __init__(self, program: str, blocks: Optional[str], typed: bytes) -> None:
        self.shown, self._typed = b"", typed
        words = [program, "serve", f"{image.find(program)}/served.img", *([blocks] if blocks else [])]
        super().__init__(words, blocks, SIGNALS, None, [])
        if blocks:
            start.screens_first(self)

    def terminal(self) -> Typist:  # type: ignore[override]
        """The typist."""
        return Typist(self._typed, self)

    def write(self, _: int, text: bytes) -> None:
        """Keeps what is shown."""
        self.shown += text


def shown_by(program: str, blocks: Optional[str], typed: str) -> str:
    """What a session shows, together with the lines that are typed in it."""
    one = Typed(program, blocks, typed.encode())
    one.run()
    return one.shown.decode("utf-8", "replace")


SIGNALS = prompt.Signals()
