\ Devices at addresses of memory. INCLUDE devices.fs loads it after a dialect and before the program; docs/CONTROLLERS.md describes it.
WARNING @ 0 WARNING !
\ the newest range: the one before it, its first address, how many it has, the word that fetches, and the one that stores
CREATE RANGES 0 ,
\ the range in which address a is, or 0
: RANGE-OF ( a -- a r, a 0 ) RANGES BEGIN @ DUP WHILE 2DUP 2+ @ - OVER 4 + @ U< IF EXIT THEN REPEAT ;
\ gives the addresses from one to another to two words: first last DEVICE FETCHING STORING
: DEVICE ( a a -- ) [ TOOLS ] HERE RANGES @ , RANGES ! OVER - 1+ SWAP , , TICK , TICK , ;
: C@ ( a -- c ) RANGE-OF ?DUP IF 6 + @ EXECUTE 255 AND ELSE C@ THEN ;
: C! ( c a -- ) RANGE-OF ?DUP IF 8 + @ EXECUTE ELSE C! THEN ;
\ a cell of a device is two of its bytes, the low one first
: @ ( a -- x ) RANGE-OF IF DUP C@ SWAP 1+ C@ 256 * + ELSE @ THEN ;
: ! ( x a -- ) RANGE-OF IF 2DUP C! 1+ SWAP 0 256 UM/MOD SWAP DROP SWAP C! ELSE ! THEN ;
WARNING !
