\ text.fs: words and numbers of a line

REQUIRE later.fs

\ the text without the blanks at its front
: SKIP-BLANKS ( a u -- a2 u2 )
  BEGIN DUP WHILE OVER C@ BL = WHILE 1 /STRING REPEAT THEN ;

\ what comes after the first character c, and what comes before it
: SPLIT ( a u c -- a2 u2 a u3 )
  >R 2DUP BEGIN DUP WHILE OVER C@ R@ <> WHILE 1 /STRING REPEAT THEN
  R> DROP 2SWAP 2 PICK -  2SWAP DUP 1 MIN /STRING 2SWAP ;

\ whether a text is a number, and which
: NUMBER? ( a u -- n f )
  OVER C@ [CHAR] - = OVER 0> AND  DUP >R NEGATE /STRING
  DUP 0= >R  0 0 2SWAP >NUMBER NIP NIP R> OR 0=
  SWAP R> IF NEGATE THEN SWAP ;

\ the fields of a line, one after another
2VARIABLE REST
: FIELD ( -- a u ) REST 2@ SKIP-BLANKS BL SPLIT 2SWAP REST 2! ;

\ the next n fields as numbers, at ARGUMENTS; whether they all are numbers
4 CONSTANT MOST-ARGUMENTS
CREATE ARGUMENTS MOST-ARGUMENTS CELLS ALLOT
: ARGUMENTS? ( n -- f )
  -1 SWAP 0 ?DO FIELD NUMBER? SWAP I CELLS ARGUMENTS + ! AND LOOP ;
: PUSH-ARGUMENTS ( n -- .. ) 0 ?DO I CELLS ARGUMENTS + @ LOOP ;
