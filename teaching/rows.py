"""The numbers of the primitives that films and maps know. tools/make-words writes this file from docs/primitives.txt."""

COLON = 1  # colon
VARIABLE = 2  # variable
CONSTANT = 3  # constant
VOCABULARY = 4  # vocabulary
EXIT = 5  # EXIT
LITERAL = 6  # (LIT)
BRANCH = 7  # BRANCH
ZERO_BRANCH = 8  # ?BRANCH
DO = 9  # (DO)
LOOP = 10  # (LOOP)
PLUS_LOOP = 11  # (+LOOP)
EXECUTE = 15  # EXECUTE
TEXT = 16  # (.")
REFUSAL = 17  # (ABORT")
DOES = 18  # (DOES>)
COMPILE = 19  # COMPILE
RCLEAR = 24  # RCLEAR
BYTE_FETCH = 98  # C@
BYTE_STORE = 99  # C!
COUNT = 106  # COUNT
