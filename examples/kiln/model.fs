\ A model of the kiln in Forth, for fig-FORTH: it warms by 80 degrees in a step, or cools by 25
0 VARIABLE HEATING   45 VARIABLE WARMTH
: PASS ( -- ) HEATING @ IF 80 ELSE -25 ENDIF WARMTH +! ;
\ the converter: C0E0 starts it, C0E1 is ready, C0E2 is read
: CONVERTER@ ( a -- c ) 49376 - DUP 1 = IF DROP 128 ELSE 2 = IF PASS WARMTH @ 5 / ELSE 0 ENDIF ENDIF ;
: CONVERTER! ( c a -- ) DROP DROP ;
: RELAY@ ( a -- c ) DROP HEATING @ ;
: RELAY! ( c a -- ) DROP HEATING ! ;
HEX C0E0 C0E2 DEVICE CONVERTER@ CONVERTER!
C0F1 C0F1 DEVICE RELAY@ RELAY! DECIMAL
