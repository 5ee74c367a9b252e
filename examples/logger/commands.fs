\ commands.fs: what the lines of the input mean

REQUIRE later.fs
REQUIRE text.fs
REQUIRE report.fs

\ whether a text such as 07:30 is a time, and the minutes since midnight
: MINUTE? ( a u -- n f )
  [CHAR] : SPLIT NUMBER? >R >R  NUMBER? R> SWAP R> AND >R
  2DUP 24 U< SWAP 60 U< AND R> AND >R  60 * + R> ;

: IS-SENSOR? ( n -- f ) #SENSORS U< ;
: .ALARM ( sensor value -- )
  2DUP SWAP LIMIT > IF ." ALARM: sensor " OVER .NUMBER ."  has " DUP .NUMBER CR THEN 2DROP ;
: NEW-READING ( minute -- )
  2 ARGUMENTS? 0= IF DROP ." a sensor and a value are missing" CR EXIT THEN
  2 PUSH-ARGUMENTS OVER IS-SENSOR? 0= IF 2DROP DROP ." no such sensor" CR EXIT THEN
  IS-FULL? IF 2DROP DROP ." the log is full" CR EXIT THEN
  2DUP .ALARM ADD-READING SAVE-BUFFERS ;

\ A command has a link to the one before it, the count of its numbers, its word, and its name.
VARIABLE COMMANDS
: COMMAND: ( w n -- ) HERE COMMANDS @ , COMMANDS ! , , BL WORD C@ 1+ ALLOT ;
: ARGUMENTS-OF ( c -- n ) CELL+ @ ;
: WORD-OF ( c -- w ) 2 CELLS + @ ;
: NAME-OF ( c -- a u ) 3 CELLS + COUNT ;

\ the command of this name, or 0
: COMMAND ( a u -- c )
  COMMANDS @ BEGIN DUP WHILE
    >R 2DUP R@ NAME-OF COMPARE 0= IF 2DROP R> EXIT THEN R> @
  REPEAT NIP NIP ;
: OBEY ( c -- )
  DUP ARGUMENTS-OF ARGUMENTS? 0= IF DROP ." a number is missing" CR EXIT THEN
  DUP >R ARGUMENTS-OF PUSH-ARGUMENTS R> WORD-OF EXECUTE ;
: HELP-COMMANDS ( -- ) ." TIME SENSOR VALUE, as in 07:30 2 845; or" 
  COMMANDS @ BEGIN ?DUP WHILE SPACE DUP NAME-OF TYPE @ REPEAT CR ;

\ a line of the input
: TAKE-LINE ( a u -- )
  REST 2!  FIELD DUP 0= IF 2DROP EXIT THEN
  2DUP MINUTE? IF NIP NIP NEW-READING EXIT THEN DROP
  2DUP COMMAND ?DUP IF NIP NIP OBEY ELSE ." no command: " TYPE CR THEN ;

VARIABLE IS-DONE
: QUIT-LOG ( -- ) IS-DONE ON ;
: CHANGE-LIMIT ( sensor n -- ) OVER IS-SENSOR? IF !LIMIT ELSE 2DROP ." no such sensor" CR THEN ;
' REPORT 0 COMMAND: report     ' .LAST 1 COMMAND: last
' CHART 1 COMMAND: chart       ' HOURS 1 COMMAND: hours
' CHANGE-LIMIT 2 COMMAND: limit   ' !DAY 1 COMMAND: day
' CSV 0 COMMAND: csv           ' HELP-COMMANDS 0 COMMAND: help
' QUIT-LOG 0 COMMAND: quit
