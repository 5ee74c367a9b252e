"""Numbers of the machine that the terminal and the page know. tools/make-words writes this file from the crates."""

# Addresses in the memory of a machine, which the system keeps for itself (crates/memory/src/system.rt).
STATE = 16
BASE = 18
TO_IN = 20
BLK = 22
NUMBER_TIB = 24
SPAN = 26
DP = 28
LAST = 30
CONTEXT = 32
CURRENT = 34
HLD = 36
SCR = 38
FAULT = 40
FORTH_VOC = 42
VOC_LINK = 52
FENCE = 54
RUNTIME_CELLS = 64
TIB = 128

# What a word's code field has that a defining word made (crates/dictionary/src/code_fields.rt).
COLON = 1
VARIABLE = 2
CONSTANT = 3
VOCABULARY = 4

# Faults of the machine (crates/machine_parts/src/faults.rt).
DATA_UNDERFLOW = 1
DATA_OVERFLOW = 2
RETURN_UNDERFLOW = 3
RETURN_OVERFLOW = 4
DIVISION = 5
UNKNOWN_CODE = 6
NO_BLOCK = 7
DICTIONARY_FULL = 8
READ_FAILED = 9
WRITE_FAILED = 10
CHAIN_TOO_LONG = 11
BAD_BASE = 12
NOT_FOUND = 13
BAD_LENGTH = 15
BLOCK_ZERO = 16
ABORTED = 17
