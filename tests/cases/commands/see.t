What SEE shows of words, and why it refuses others. The definitions are built, and SEE must give them back, in one line with one blank between words:
its text compiles to the same thread again (docs/PROGRAM.md, "Looking at words"), which is worked out by hand for what is changed in an image.

With the environment's SEE another command shows words, `$SEE IMAGE NAME`: tests/targets/check-embed tries the C library so.

  $ . "$TESTDIR/lib.sh"

The image of a source in the lines of screen 1; a cell of that image; what is shown of words. (The C library does not say which cell has no name.)

  $ image() {
  >   { printf %1024s ''; printf %-64s "$@"; printf %1024s ''; } | head -c 2048 > own.blk
  >   forth83 build own.blk 1 1 own.img > built || cat built
  > }
  $ set_cell() { printf %b "$(printf '\\x%02x\\x%02x' $(($2 % 256)) $(($2 / 256)))" | dd of=own.img bs=1 seek=$((16 + $1)) conv=notrunc status=none; }
  $ sees() {
  >   local name shown status
  >   for name; do
  >     status=
  >     shown=$(${SEE:-forth83 see} own.img "$name") || status=" [$?]"
  >     echo "${shown/%: Nameless */: Nameless}$status"
  >   done
  > }

Words of an image. Z's thread is at 334: DUP, ?BRANCH 348, (LIT) 1, BRANCH 352, (LIT) -1, EXIT.

  $ choice=('5 PRIM EXIT 6 PRIM (LIT) 7 PRIM BRANCH 8 PRIM ?BRANCH' '23 PRIM BYE 32 PRIM DUP' ': Z DUP IF 1 ELSE -1 THEN ; : GO 0 Z BYE ; BOOT GO')
  $ image "${choice[@]}"
  $ sees Z GO DUP z ''
  : Z DUP IF 1 ELSE -1 THEN ;
  : GO 0 Z BYE ;
  DUP: NotColon [1]
  z: NotFound [1]
  : NotFound [1]
  $ printf GTH > own.img
  $ sees Z
  image: BadMagic [1]

Z where a cell of memory is another.

  $ changed() { image "${choice[@]}"; set_cell "$1" "$2"; sees "${3-Z}"; }

No header has an address:

  $ changed 334 999
  Z: Nameless [1]
  $ forth83 see own.img Z
  Z: Nameless 999
  [1]

A branch goes between cells, leaves the thread at its end, or far away:

  $ changed 338 335
  Z: NotStructured [1]
  $ changed 352 0
  Z: NotStructured [1]
  $ changed 338 60000
  Z: NotStructured [1]

A chain has a circle:

  $ changed 258 258
  Z: ChainTooLong [1]

Two controls have the same address:

  $ changed 78 277
  Z: NotStructured [1]

The code field is not that of colon words:

  $ changed 332 2
  Z: NotColon [1]

The name of DUP has a blank:

  $ changed 322 20512
  Z: Nameless [1]
  $ forth83 see own.img Z
  Z: Nameless 324
  [1]

DUP is hidden:

  $ changed 320 17571
  Z: Shadowed [1]

GO's thread is the last one: it is from 363 to HERE, which is in cell 28. It has no EXIT with less, half a cell, or nothing.

  $ changed 28 373 GO
  : GO 0 Z BYE ;
  $ changed 28 372 GO
  GO: NotStructured [1]
  $ changed 28 371 GO
  GO: NotStructured [1]
  $ changed 28 364 GO
  GO: NotStructured [1]
  $ changed 28 363 GO
  GO: NotStructured [1]
  $ changed 28 300 GO
  GO: NotStructured [1]

A number's control in the last cell before EXIT:

  $ changed 369 277 GO
  GO: NotStructured [1]

A text, which gets a quote, and then is longer than its thread.

  $ image '5 PRIM EXIT 16 PRIM (.") : Q ." Hi" ; BOOT Q'
  $ sees Q
  : Q ." Hi" ;
  $ set_cell 289 $((0x2248)) && sees Q
  Q: BadText [1]
  $ set_cell 288 $((0x48C8)) && sees Q
  Q: NotStructured [1]

A number whose text is the name of a word, that word itself, and a word whose name means a newer one.

  $ image '5 PRIM EXIT 6 PRIM (LIT) 23 PRIM BYE' ': T 10 ; : 10 2 ; : 2 2 ; : X BYE ; : Y X ; : X Y ; BOOT T'
  $ sees T 10 2 Y X
  T: Shadowed [1]
  10: Shadowed [1]
  : 2 2 ;
  Y: Shadowed [1]
  : X Y ;

Loops: one of each kind, several at one place, after a THEN, and with nothing in them.

  $ image '5 PRIM EXIT 7 PRIM BRANCH 8 PRIM ?BRANCH 32 PRIM DUP 57 PRIM 1-' \
  >   ': L BEGIN DUP WHILE 1- REPEAT ; : GO L ; BOOT GO' ': M BEGIN BEGIN DUP UNTIL UNTIL IF THEN' 'BEGIN AGAIN BEGIN WHILE REPEAT ;'
  $ sees L GO M
  : L BEGIN DUP WHILE 1- REPEAT ;
  : GO L ;
  : M BEGIN BEGIN DUP UNTIL UNTIL IF THEN BEGIN AGAIN BEGIN WHILE REPEAT ;

Every keyword; a word that is immediate, one named as a keyword, and one named as the beginning of a comment. A double is two numbers, 70000 being
4464 and 1 times 65,536; 32768 is shown with its sign.

  $ keywords=('5 PRIM EXIT 6 PRIM (LIT) 7 PRIM BRANCH 8 PRIM ?BRANCH' '9 PRIM (DO) 10 PRIM (LOOP) 11 PRIM (+LOOP) 16 PRIM (.")' \
  >   '17 PRIM (ABORT")' '18 PRIM (DOES>) 19 PRIM COMPILE 32 PRIM DUP IMMEDIATE' '23 PRIM BYE')
  $ image "${keywords[@]}" ': IF BYE ; : ( BYE ;' ': A DO LOOP DO BYE +LOOP BEGIN BYE UNTIL' 'BEGIN BEGIN AGAIN AGAIN ;' \
  >   ': B ." Hi" ABORT" no" COMPILE BYE COMPILE [COMPILE] DUP ;' ": C 70000. DOES> -1 32768 ['] BYE IF ELSE THEN ;" \
  >   ': D [COMPILE] DUP [COMPILE] IF [COMPILE] (' 'COMPILE [COMPILE] IF ;' 'BOOT A'
  $ sees A B C D IF '('
  : A DO LOOP DO BYE +LOOP BEGIN BYE UNTIL BEGIN BEGIN AGAIN AGAIN ;
  : B ." Hi" ABORT" no" COMPILE BYE COMPILE [COMPILE] DUP ;
  : C 4464 1 DOES> -1 -32768 416 IF ELSE THEN ;
  : D [COMPILE] DUP [COMPILE] IF [COMPILE] ( COMPILE [COMPILE] IF ;
  : IF BYE ;
  : ( BYE ;

Each structure in others, before and after DOES>.

  $ image "${keywords[@]}" ': N BEGIN BEGIN BYE WHILE IF BEGIN BYE IF THEN AGAIN ELSE' 'DO 7 DO LOOP +LOOP THEN REPEAT UNTIL ." Hi" COMPILE (LIT)' \
  >   'DOES> BEGIN ABORT" " AGAIN IF IF THEN THEN ;' 'BOOT N'
  $ sees N
  : N BEGIN BEGIN BYE WHILE IF BEGIN BYE IF THEN AGAIN ELSE DO 7 DO LOOP +LOOP THEN REPEAT UNTIL ." Hi" COMPILE (LIT) DOES> BEGIN ABORT" " AGAIN IF IF THEN THEN ;
