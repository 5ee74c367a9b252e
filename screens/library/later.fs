\ Words of later Forths (Forth-94, Forth-2012) that this Forth-83 does not have by itself.
\ INCLUDE later.fs loads them, from any folder. docs/WORDS.md describes each of them.

\ What the others are made of

TOOLS DEFINITIONS
\ the digit that a character is, or a number that is no digit in any base
: >DIGIT ( c -- u )
  DUP 97 - 26 U< 32 AND - 48 - DUP 9 > IF DUP 17 < IF DROP -1 ELSE 7 - THEN THEN ;
\ the next character of the input and true, or false at its end
: NEXT-CHAR ( -- c -1, 0 ) >IN @ LENGTH U< IF SOURCE >IN @ + C@ -1 ELSE 0 THEN ;
FORTH DEFINITIONS

\ Numbers

: INVERT ( x -- y ) NOT ;
: S>D ( n -- d ) DUP 0< ;
: D>S ( d -- n ) DROP ;
: 0<> ( x -- f ) 0= NOT ;
: U> ( u1 u2 -- f ) SWAP U< ;
: LSHIFT ( x u -- y ) 16 MIN 0 ?DO 2* LOOP ;
: RSHIFT ( x u -- y ) 16 MIN 0 ?DO 2/ 32767 AND LOOP ;
: M* ( n1 n2 -- d ) 2DUP XOR >R ABS SWAP ABS UM* R> 0< IF DNEGATE THEN ;
\ rounds towards zero
: SM/REM ( d n -- rem quot )
  2DUP XOR >R OVER >R ABS >R DABS R> UM/MOD
  SWAP R> 0< IF NEGATE THEN SWAP R> 0< IF NEGATE THEN ;
\ rounds down, as / and MOD do
: FM/MOD ( d n -- rem quot )
  DUP >R SM/REM OVER IF OVER R@ XOR 0< IF 1- SWAP R@ + SWAP THEN THEN R> DROP ;

\ Memory; an address needs no alignment here

: ALIGN ( -- ) ;
: ALIGNED ( a -- a ) ;
: CHAR+ ( a -- a2 ) 1+ ;
: MOVE ( a1 a2 u -- ) >R 2DUP U< IF R> CMOVE> ELSE R> CMOVE THEN ;
: PLACE ( a1 u a2 -- ) 2DUP C! 1+ SWAP MOVE ;
: BUFFER: ( u -- ) CREATE ALLOT ;

\ The return stack, structures

: 2>R ( x y -- ) R> ROT ROT SWAP >R >R >R ;
: 2R> ( -- x y ) R> R> R> SWAP ROT >R ;
: 2R@ ( -- x y ) R> R> R@ OVER >R SWAP ROT >R ;
\ drops the loop's three cells, before EXIT in a DO loop
: UNLOOP ( -- ) R> R> R> R> 2DROP DROP >R ;

WARNING @ WARNING OFF \ the next two words are redefined on purpose
\ a loop may have several WHILE; each but the last one has its THEN after REPEAT or UNTIL
: WHILE ( a x -- b y a x ) [ TOOLS ] ?COMP BEGIN# ?PAIRED >R [COMPILE] IF R> BEGIN# ; IMMEDIATE
: REPEAT ( b y a x -- ) [COMPILE] AGAIN [COMPILE] THEN ; IMMEDIATE
WARNING !

\ Texts

: /STRING ( a u n -- a2 u2 ) >R SWAP R@ + SWAP R> - ;
\ n is -1, 0 or 1, as the first text comes before the second one, is the same, or comes after it
: COMPARE ( a1 u1 a2 u2 -- n )
  ROT 2DUP U< >R 2DUP = >R MIN 0 ?DO
    OVER I + C@ OVER I + C@ - ?DUP IF
      NIP NIP 0< 2* 1+ UNLOOP R> R> 2DROP EXIT THEN
  LOOP 2DROP R> R> SWAP IF DROP 0 ELSE 2* 1+ NEGATE THEN ;
: ACCEPT ( a n -- n2 ) EXPECT SPAN @ ;
: >NUMBER ( ud a u -- ud2 a2 u2 ) [ TOOLS ]
  BEGIN DUP IF OVER C@ >DIGIT DUP BASE @ U< ELSE 0 0 THEN WHILE
    >R 2SWAP BASE @ UM* DROP SWAP BASE @ UM* ROT + R> 0 D+ 2SWAP 1 /STRING
  REPEAT DROP ;

\ The input

: SOURCE ( -- a u ) [ TOOLS ] SOURCE LENGTH ;
: PARSE ( c -- a u ) [ TOOLS ]
  SOURCE >IN @ + SWAP 0 BEGIN NEXT-CHAR IF 1 >IN +! 2 PICK = ELSE -1 THEN 0= WHILE 1+ REPEAT NIP ;
: PARSE-NAME ( -- a u ) [ TOOLS ] BEGIN NEXT-CHAR IF BL = ELSE 0 THEN WHILE 1 >IN +! REPEAT BL PARSE ;
\ interprets a text of at most 1,024 characters
: EVALUATE ( a u -- ) [ TOOLS ] @EVALUATE@ SERVE 2DROP 60 @ ?DUP IF LOAD THEN ;
\ nothing is known of the environment by these names
: ENVIRONMENT? ( a u -- f ) 2DROP 0 ;

\ Definitions

: POSTPONE ( -- ) [ TOOLS ] BL ?WORD FIND-ANY ?DUP 0= IF REJECT THEN
  0< IF COMPILE COMPILE THEN , ; IMMEDIATE
: :NONAME ( -- w ) [ TOOLS ] HERE 1 , DEPTH CSP ! ] ;
: DEFER@ ( w -- w2 ) >BODY @ ;
: DEFER! ( w w2 -- ) >BODY ! ;
: [DEFINED] ( -- f ) [ TOOLS ] BL ?WORD FIND-ANY SWAP DROP 0= NOT ; IMMEDIATE
: [UNDEFINED] ( -- f ) [COMPILE] [DEFINED] 0= ; IMMEDIATE
\ leaves out what follows, up to the [ELSE] or [THEN] that belongs to it, also over lines of a text
: [ELSE] ( -- ) [ TOOLS ] @SKIP@ SERVE ; IMMEDIATE
: [IF] ( f -- ) [ TOOLS ] 0= IF @SKIP@ SERVE THEN ; IMMEDIATE
: [THEN] ( -- ) ; IMMEDIATE
\ makes a word that forgets itself and all words after it
: MARKER ( -- ) CREATE LAST @ , DOES> @ 2+ COUNT 31 AND
  S" FORGET " PAD PLACE 2DUP PAD COUNT + SWAP MOVE SWAP DROP PAD C@ + PAD 1+ SWAP EVALUATE ;

\ What is thrown

\ executes w; leaves 0, or the number that was thrown in it or of the fault that happened in it
: CATCH ( w -- 0, n ) [ TOOLS ] @CATCH@ SERVE EXECUTE @CAUGHT@ SERVE 0 ;
: THROW ( 0 -- , n -- ) [ TOOLS ] ?DUP IF @THROW@ SERVE THEN ;

\ Time, measuring

\ the second, minute, hour, day, month and year
: TIME&DATE ( -- sec min hour day month year ) [ TOOLS ]
  PAD @DATE@ SERVE DROP PAD 12 + PAD DO I @ 2 +LOOP ;
\ how many milliseconds a clock shows that only goes forward
: MS@ ( -- d ) [ TOOLS ] @CLOCK@ SERVE 58 @ 60 @ ;
\ how many ticks the machine has done since the session began
: TICKS ( -- d ) [ TOOLS ] @TICKS@ SERVE 58 @ 60 @ ;
