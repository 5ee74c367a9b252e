"""A serial line between a board and a host that loses, adds and changes bytes."""
import os
import pty
import random
import select
import threading
import tty


class NoisyLine:
    """Carries bytes between a board, which writes to one file and reads from another, and a pseudo terminal named `name`. Of `one_in`
    bytes one is lost, changed, or followed by another one; none if that is 0."""

    def __init__(self, from_board: int, to_board: int, one_in: int, seed: int) -> None:
        self.screen, line = pty.openpty()
        tty.setraw(line)
        self._kept = line  # open, so that sessions may come and go
        self.name, self.carried, self.damaged = os.ttyname(line), 0, 0
        self._one_in, self._dice = one_in, random.Random(seed)
        for come, to in ((from_board, self.screen), (self.screen, to_board)):
            threading.Thread(target=self._carry, args=(come, to), daemon=True).start()

    def _carry(self, come: int, to: int) -> None:
        try:
            while True:
                select.select([come], [], [])
                piece = os.read(come, 4096)
                if not piece:
                    return
                os.write(to, self._spoiled(piece))
        except OSError:
            return

    def _spoiled(self, piece: bytes) -> bytes:
        self.carried += len(piece)
        if not self._one_in:
            return piece
        return b"".join(self._after(byte) for byte in piece)

    def _after(self, byte: int) -> bytes:
        """What becomes of a byte."""
        how, noise = self._dice.randrange(3 * self._one_in), self._dice.randrange(256)
        self.damaged += how < 3
        return {0: b"", 1: bytes([noise]), 2: bytes([byte, noise])}.get(how, bytes([byte]))
