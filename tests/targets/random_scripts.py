"""Random scripts for the kernel, which the checks of the C library, of its targets and of the page's module type in pieces."""
import random

WORDS = "1 2 -3 300 DUP DROP SWAP OVER + - * / . .S NOWORD CR SPACE 2DUP BASE HEX DECIMAL ' EXIT".split()
WORDS += ["2 BLOCK C@ .", "3 BLOCK 9 65 FILL UPDATE", "EMPTY-BUFFERS", "SAVE-BUFFERS", "77 BLOCK", "65 EMIT", "HERE ."]
WORDS += [": W DUP . ;", "W", ": V 3 0 DO I . LOOP ;", "V", "ABORT", "FORGET W", "7 BUFFER DROP UPDATE", "KEY x .", "FLUSH"]


def script(dice: random.Random) -> str:
    """A random script of lines."""
    return "".join(" ".join(dice.choice(WORDS) for _ in range(dice.randrange(1, 8))) + "\n" for _ in range(dice.randrange(1, 12)))
