\ Words for programs on a board, or of another host. REQUIRE board.fs loads them, from any folder; docs/EMBEDDING.md describes them.

\ saves all that is compiled in the flash of the board, which starts with it at its next reset
: SAVE-IMAGE ( -- ) [ TOOLS ] @SAVE-IMAGE@ SERVE ;
\ asks the host for a service of its own, which finds its numbers on the stack; 58 @ and 60 @ are what it leaves
: CALL-HOST ( n -- ) [ TOOLS ] SERVE ;
\ reads port n of the host
: PORT@ ( n -- x ) [ TOOLS ] @PORT-FETCH@ SERVE DROP 58 @ ;
\ writes port n
: PORT! ( x n -- ) [ TOOLS ] @PORT-STORE@ SERVE 2DROP ;
