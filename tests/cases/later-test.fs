\ Tests of screens/library/later.fs. The cases are those of Forth 2012's appendix F, for cells of 16 bits, and of its glossary's words.
INCLUDE later.fs

\ F.6.1.1720 INVERT, F.6.1.1805 LSHIFT, F.6.1.2162 RSHIFT
T{ 0 INVERT -> -1 }T
T{ -1 INVERT -> 0 }T
T{ 1 0 LSHIFT -> 1 }T
T{ 1 1 LSHIFT -> 2 }T
T{ 1 2 LSHIFT -> 4 }T
T{ 1 15 LSHIFT -> 32768 }T
T{ -1 1 LSHIFT 1 XOR -> -1 }T
T{ 1 0 RSHIFT -> 1 }T
T{ 1 1 RSHIFT -> 0 }T
T{ 4 2 RSHIFT -> 1 }T
T{ 32768 15 RSHIFT -> 1 }T
T{ 32768 1 RSHIFT 1 LSHIFT -> 32768 }T

\ F.6.1.2170 S>D, F.6.1.1810 M*
T{ 0 S>D -> 0 0 }T
T{ 1 S>D -> 1 0 }T
T{ -1 S>D -> -1 -1 }T
T{ -32768 S>D -> -32768 -1 }T
T{ 0 0 M* -> 0 S>D }T
T{ 3 -3 M* -> -9 S>D }T
T{ -3 -3 M* -> 9 S>D }T
T{ 0 32768 M* -> 0 S>D }T
T{ 32767 32767 M* -> 1 16383 }T
T{ -32768 -32768 M* -> 0 16384 }T
T{ -32768 32767 M* -> -32768 -16384 }T

\ F.6.1.2214 SM/REM, F.6.1.1561 FM/MOD
T{ 5 S>D 1 SM/REM -> 0 5 }T
T{ -5 S>D 1 SM/REM -> 0 -5 }T
T{ -1 S>D -1 SM/REM -> 0 1 }T
T{ 7 S>D 3 SM/REM -> 1 2 }T
T{ 7 S>D -3 SM/REM -> 1 -2 }T
T{ -7 S>D 3 SM/REM -> -1 -2 }T
T{ -7 S>D -3 SM/REM -> -1 2 }T
T{ 5 S>D 5 FM/MOD -> 0 1 }T
T{ -5 S>D 5 FM/MOD -> 0 -1 }T
T{ 7 S>D 3 FM/MOD -> 1 2 }T
T{ -7 S>D 3 FM/MOD -> 2 -3 }T
T{ 7 S>D -3 FM/MOD -> -2 -3 }T
T{ -7 S>D -3 FM/MOD -> -1 2 }T

\ Memory, the return stack
: MOVED HERE 100 + ;
T{ 65 MOVED C! 66 MOVED 1+ C! 67 MOVED 2+ C! MOVED MOVED 1+ 3 MOVE -> }T
T{ MOVED C@ MOVED 1+ C@ MOVED 2+ C@ MOVED 3 + C@ -> 65 65 66 67 }T
T{ MOVED 1+ MOVED 3 MOVE MOVED C@ MOVED 1+ C@ MOVED 2+ C@ -> 65 66 67 }T
: R2 1 2 2>R 2R@ 2R> ;
T{ R2 -> 1 2 1 2 }T
\ F.6.1.2380 UNLOOP
: GD6 ( pattern: {0 0} {0 0} {1 0} {1 1} {1 2} {1 3} {2 0} .. )
  0 SWAP 0 DO I 1+ 0 DO I J + 3 = IF I UNLOOP I UNLOOP EXIT THEN 1+ LOOP LOOP ;
T{ 1 GD6 -> 1 }T
T{ 2 GD6 -> 3 }T
T{ 3 GD6 -> 4 1 2 }T

\ F.6.1.2430 WHILE
: GI3 BEGIN DUP 5 < WHILE DUP 1+ REPEAT ;
T{ 0 GI3 -> 0 1 2 3 4 5 }T
T{ 4 GI3 -> 4 5 }T
T{ 6 GI3 -> 6 }T
: GI5 BEGIN DUP 2 > WHILE DUP 5 < WHILE DUP 1+ REPEAT 123 ELSE 345 THEN ;
T{ 1 GI5 -> 1 345 }T
T{ 2 GI5 -> 2 345 }T
T{ 3 GI5 -> 3 4 5 123 }T
T{ 4 GI5 -> 4 5 123 }T
T{ 5 GI5 -> 5 123 }T

\ F.17.6.1.0935 COMPARE, F.17.6.1.0245 /STRING
: S1 S" abcdefghijklmnopqrstuvwxyz" ;
T{ S1 S1 COMPARE -> 0 }T
T{ S1 PAD SWAP CMOVE -> }T
T{ S1 PAD OVER COMPARE -> 0 }T
T{ S1 PAD 6 COMPARE -> 1 }T
T{ PAD 10 S1 COMPARE -> -1 }T
T{ S1 PAD 0 COMPARE -> 1 }T
T{ PAD 0 S1 COMPARE -> -1 }T
: "abdde" S" abdde" ;
: "abbde" S" abbde" ;
: "abcdf" S" abcdf" ;
: "abcdee" S" abcdee" ;
T{ S1 "abdde" COMPARE -> -1 }T
T{ S1 "abbde" COMPARE -> 1 }T
T{ S1 "abcdf" COMPARE -> -1 }T
T{ S1 "abcdee" COMPARE -> 1 }T
T{ S1 5 /STRING -> S1 SWAP 5 + SWAP 5 - }T
T{ S1 10 /STRING -4 /STRING -> S1 6 /STRING }T
T{ S1 0 /STRING -> S1 }T

\ F.6.1.0570 >NUMBER
T{ 0 0 S" 0" >NUMBER NIP -> 0 0 0 }T
T{ 0 0 S" 1" >NUMBER NIP -> 1 0 0 }T
T{ 1 0 S" 1" >NUMBER NIP -> BASE @ 1+ 0 0 }T
T{ 0 0 S" -" >NUMBER NIP -> 0 0 1 }T
T{ HEX 0 0 S" 2G" >NUMBER NIP DECIMAL -> 2 0 1 }T
T{ 0 0 S" 65536" >NUMBER NIP -> 0 1 0 }T

\ F.6.1.1360 EVALUATE, F.6.1.2216 SOURCE, F.6.2.2008 PARSE
: GE1 S" 123" ; IMMEDIATE
: GE2 S" 123 1+" ; IMMEDIATE
: GE3 S" : GE4 345 ;" ;
: GE5 EVALUATE ; IMMEDIATE
T{ GE1 EVALUATE -> 123 }T
T{ GE2 EVALUATE -> 124 }T
T{ GE3 EVALUATE -> }T
T{ GE4 -> 345 }T
T{ : GE6 GE1 GE5 ; -> }T
T{ GE6 -> 123 }T
T{ S" " EVALUATE -> }T
T{ SOURCE NIP 0> -> -1 }T
T{ CHAR | PARSE 1234| DUP ROT ROT EVALUATE -> 4 1234 }T
T{ CHAR ^ PARSE  23 45 ^ DUP ROT ROT EVALUATE -> 7 23 45 }T
T{ PARSE-NAME abcd S" abcd" COMPARE -> 0 }T

\ F.6.1.2033 POSTPONE, F.6.2.0455 :NONAME
: GT1 123 ;
: GT4 POSTPONE GT1 ; IMMEDIATE
: GT5 GT4 ;
T{ GT5 -> 123 }T
: GT6 345 ; IMMEDIATE
: GT7 POSTPONE GT6 ;
T{ GT7 -> 345 }T
VARIABLE NN1
T{ :NONAME 1234 ; NN1 ! -> }T
T{ NN1 @ EXECUTE -> 1234 }T
DEFER DEFER1
T{ ' * DEFER1 -> ' * }T
T{ ' * ' DEFER1 DEFER! 2 3 DEFER1 ' DEFER1 DEFER@ -> 6 ' * }T

\ F.15.6.2.2532 [IF], F.15.6.2.2530.30 [DEFINED]
T{ -1 [IF] 111 [ELSE] 222 [THEN] -> 111 }T
T{ 0 [IF] 111 [ELSE] 222 [THEN] -> 222 }T
T{ -1 [IF] 1     \ Code spread over more than 1 line
     2
   [ELSE]
     3
     4
   [THEN] -> 1 2 }T
T{ 0 [IF]
     1 2
   [ELSE]
     3
     4
   [THEN] -> 3 4 }T
T{ -1 [IF] 1 -1 [IF] 2 [ELSE] 3 [THEN] [ELSE] 4 [THEN] -> 1 2 }T
T{ 0 [IF] 1 -1 [IF] 2 [ELSE] 3 [THEN] [ELSE] 4 [THEN] -> 4 }T
T{ 0 [IF] 1 0 [IF] 2 [ELSE] 3 [THEN] 4 [ELSE] 5 [THEN] 6 -> 5 6 }T
T{ [DEFINED] GE6 -> -1 }T
T{ [UNDEFINED] GE6 -> 0 }T
T{ [DEFINED] NO-SUCH-WORD -> 0 }T
MARKER GONE
: AFTER-IT 5 ;
GONE
T{ [DEFINED] AFTER-IT [DEFINED] GONE -> 0 0 }T

\ F.9.6.1.2275 THROW
: T1 9 ;
: C1 1 2 3 ['] T1 CATCH ;
T{ C1 -> 1 2 3 9 0 }T
: T2 8 0 THROW ;
: C2 1 2 ['] T2 CATCH ;
T{ C2 -> 1 2 8 0 }T
: T3 7 8 9 99 THROW ;
: C3 1 2 ['] T3 CATCH ;
T{ C3 -> 1 2 99 }T
: T4 1- DUP 0> IF RECURSE ELSE 999 THROW -222 THEN ;
: C4 3 4 5 10 ['] T4 CATCH -111 ;
T{ C4 -> 3 4 5 0 999 -111 }T
: T5 2DROP 2DROP 9999 THROW ;
: C5 1 2 3 4 ['] T5 CATCH DEPTH >R DROP 2DROP 2DROP R> ;
T{ C5 -> 5 }T
\ a fault is thrown, too, and in a text that is interpreted
: T7 S" 333 $$QWEQWEQWERT$$ 334" EVALUATE 335 ;
: T8 S" 222 T7 223" EVALUATE 224 ;
: T9 S" 111 112 T8 113" EVALUATE 114 ;
: C9 ['] T9 CATCH ;
T{ C9 -> 13 }T
: DIVIDES 1 SWAP / ;
T{ 0 ' DIVIDES CATCH NIP -> 5 }T
T{ 1 ' DIVIDES CATCH -> 1 0 }T
T{ 0 >IN @ DROP 77 -> 0 77 }T

\ F.10.6.2.2292 TIME&DATE
: DATED ( -- f1 .. f6 ) TIME&DATE 2000 3000 WITHIN >R 1 13 WITHIN >R 1 32 WITHIN >R 0 24 WITHIN >R 0 60 WITHIN >R 0 61 WITHIN R> R> R> R> R> ;
T{ DATED -> -1 -1 -1 -1 -1 -1 }T
T{ MS@ 20 MS MS@ 2SWAP D- 20. D< -> 0 }T
