\ report.fs: what the log shows

REQUIRE later.fs
REQUIRE readings.fs

: .NUMBER ( n -- ) DUP ABS 0 <# #S ROT SIGN #> TYPE ;
: .TWO ( u -- ) 0 <# # # #> TYPE ;
: .MINUTE ( n -- ) 60 /MOD .TWO ." :" .TWO ;

\ the count, least, greatest and mean value of one sensor
VARIABLE COUNTED   VARIABLE LEAST   VARIABLE GREATEST   2VARIABLE SUM
: NONE ( -- ) 0 COUNTED !  32767 LEAST !  -32768 GREATEST !  0 0 SUM 2! ;
: TAKE ( n -- )
  1 COUNTED +!  DUP LEAST @ MIN LEAST !  DUP GREATEST @ MAX GREATEST !
  S>D SUM 2@ D+ SUM 2! ;
: MEAN ( -- n ) SUM 2@ COUNTED @ FM/MOD NIP ;

\ does w for each reading of a sensor: ( u -- )
: EACH ( sensor w -- )
  READINGS 0 ?DO OVER I SENSOR-OF = IF I OVER EXECUTE THEN LOOP 2DROP ;
: TAKE-READING ( u -- ) VALUE-OF TAKE ;
: MEASURED ( sensor -- ) NONE ['] TAKE-READING EACH ;

: .SENSOR ( sensor -- )
  DUP MEASURED COUNTED @ IF
    6 .R  COUNTED @ 9 .R  LEAST @ 9 .R  GREATEST @ 9 .R  MEAN 9 .R CR
  ELSE DROP THEN ;
: REPORT ( -- )
  ." sensor readings    least greatest     mean" CR
  #SENSORS 0 DO I .SENSOR LOOP ;

: .READING ( u -- )
  ." day " DUP DAY-OF .NUMBER SPACE  DUP MINUTE-OF .MINUTE
  ."  sensor " DUP SENSOR-OF .NUMBER  VALUE-OF 7 .R CR ;
: .LAST ( n -- ) READINGS SWAP - 0 MAX  READINGS SWAP ?DO I .READING LOOP ;

\ a bar of 40 characters for the greatest value, and none for the least
: BAR ( n -- )
  LEAST @ -  40 GREATEST @ LEAST @ - 1 MAX */  0 ?DO [CHAR] * EMIT LOOP ;
: .BAR ( u -- ) DUP MINUTE-OF .MINUTE  VALUE-OF DUP 7 .R SPACE BAR CR ;
: CHART ( sensor -- ) DUP MEASURED ['] .BAR EACH ;

\ the mean of each hour that has readings
VARIABLE HOUR
: TAKE-IN-HOUR ( u -- )
  DUP MINUTE-OF 60 / HOUR @ = IF VALUE-OF TAKE ELSE DROP THEN ;
: MEASURED-IN ( sensor hour -- ) HOUR ! NONE ['] TAKE-IN-HOUR EACH ;
: .HOUR ( hour -- ) COUNTED @ IF .TWO ." :00" MEAN 7 .R CR ELSE DROP THEN ;
: HOURS ( sensor -- ) 24 0 DO DUP I MEASURED-IN I .HOUR LOOP DROP ;

\ lines that a spreadsheet reads
: COMMA ( -- ) [CHAR] , EMIT ;
: CSV ( -- )
  ." day,time,sensor,value" CR
  READINGS 0 ?DO I DAY-OF .NUMBER COMMA  I MINUTE-OF .MINUTE COMMA
    I SENSOR-OF .NUMBER COMMA  I VALUE-OF .NUMBER CR LOOP ;
