\ readings.fs: the log: readings in blocks, which outlive the program

REQUIRE later.fs

\ The log is in blocks 30 to 61. Its first block has a mark, the number of readings, the day, and the limit of each sensor.
: DISK-BLOCK ( u -- a ) 30 + BLOCK ;
DEFER LOG-BLOCK ( u -- a )   ' DISK-BLOCK IS LOG-BLOCK
DEFER CHANGED ( -- )         ' UPDATE IS CHANGED

27719 CONSTANT MARK
10 CONSTANT #SENSORS
31 CONSTANT #BLOCKS
8 CONSTANT /READING
1024 /READING / CONSTANT PER-BLOCK
#BLOCKS PER-BLOCK * CONSTANT MOST-READINGS

: HEAD ( u -- a ) CELLS 0 LOG-BLOCK + ;
: IS-LOG? ( -- f ) 0 HEAD @ MARK = ;
: READINGS ( -- u ) 1 HEAD @ ;
: DAY ( -- n ) 2 HEAD @ ;
: LIMIT ( sensor -- n ) 3 + HEAD @ ;
: !HEAD ( x u -- ) HEAD ! CHANGED ;
: !READINGS ( u -- ) 1 !HEAD ;
: !DAY ( n -- ) 2 !HEAD ;
: !LIMIT ( sensor n -- ) SWAP 3 + !HEAD ;

\ an empty log, of which no sensor has a limit
: NEW-LOG ( -- )
  MARK 0 !HEAD  0 !READINGS  1 !DAY  #SENSORS 0 DO I 32767 !LIMIT LOOP ;
\ begins a log, unless there is one
: OPEN-LOG ( -- ) IS-LOG? 0= IF NEW-LOG THEN ;

\ a reading has a day, a minute, a sensor and a value
: READING ( u -- a ) PER-BLOCK /MOD 1+ LOG-BLOCK SWAP /READING * + ;
: DAY-OF ( u -- n ) READING @ ;
: MINUTE-OF ( u -- n ) READING CELL+ @ ;
: SENSOR-OF ( u -- n ) READING 2 CELLS + @ ;
: VALUE-OF ( u -- n ) READING 3 CELLS + @ ;

: IS-FULL? ( -- f ) READINGS MOST-READINGS = ;
: ADD-READING ( minute sensor value -- )
  IS-FULL? ABORT" the log is full"
  DAY READINGS READING >R
  R@ !  R@ 3 CELLS + !  R@ 2 CELLS + !  R> CELL+ !  CHANGED
  READINGS 1+ !READINGS ;
