\ memory.fs: the log in memory, so that tests need no file

REQUIRE later.fs
REQUIRE readings.fs

CREATE MEMORY 3 1024 * ALLOT   MEMORY 3 1024 * BLANK
: MEMORY-BLOCK ( u -- a ) 1024 * MEMORY + ;
' MEMORY-BLOCK IS LOG-BLOCK   ' NOOP IS CHANGED
