\ Tests in the manner of Hayes: T{ 3 4 + -> 7 }T. ./forth test FILES.. runs files of them.

\ how many tests were done, and how many of them were wrong
VARIABLE #TESTS   VARIABLE #WRONG
\ how deep the stack was when a test began, and what the test left, the top first
VARIABLE START-DEPTH   VARIABLE #LEFT   CREATE LEFT 64 ALLOT

: T{ ( -- ) DEPTH START-DEPTH ! ;
: -> ( .. -- )
  DEPTH START-DEPTH @ - DUP 0< OVER 32 > OR ABORT"  a test leaves 0 to 32 cells"
  DUP #LEFT ! 0 ?DO I 2* LEFT + ! LOOP ;
: LEFT? ( .. n -- f ) \ whether the n cells on the stack are what the test left
  DUP #LEFT @ = SWAP 0 ?DO I #LEFT @ < IF SWAP I 2* LEFT + @ = AND ELSE NIP THEN LOOP ;
: .LEFT ( -- ) #LEFT @ 0= IF ." nothing " THEN
  #LEFT @ 0 ?DO #LEFT @ I - 1- 2* LEFT + @ . LOOP ;
: .WRONG ( -- ) [ TOOLS ] 1 #WRONG +! ." left " .LEFT ." at " @PLACE@ SERVE ;
: }T ( .. -- ) 1 #TESTS +!
  DEPTH START-DEPTH @ - DUP 0< ABORT"  a test took cells from under it"
  LEFT? 0= IF .WRONG THEN ;
\ ends the session: its last line has the counts, its status is 1 if a test was wrong
: TESTED ( -- ) CR #TESTS @ . ." tests, " #WRONG @ . ." wrong" CR #WRONG @ 0= 1+ BYE-WITH ;
