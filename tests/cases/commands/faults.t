Faults in a pipe.

  $ . "$TESTDIR/lib.sh"

A fault is reported with its word and place, stops the script with status 3, and saves the changed screens.

An unknown word:

  $ printf '5 .\n6 . FOO 7 .\n8 .\n' | forth
  forth: forth.blk is a new file
  5 . 5  ok
  6 . FOO 7 . 6\x20 (esc)
  FOO is unknown (fault 13)
  line 2
  6 . FOO 7 .
      ^
  forth: a fault stopped the script
  [3]

The same with --quiet:

  $ printf '5 .\n6 . FOO 7 .\n8 .\n' | forth --quiet
  5 6\x20 (esc)
  FOO is unknown (fault 13)
  line 2
  6 . FOO 7 .
      ^
  forth: a fault stopped the script
  [3]

The kernel alone, which goes on after it:

  $ printf 'FOO\n8 .\n' | forth --kernel
  FOO  fault 13\x20 (esc)
  8 . 8  ok

A division:

  $ printf ': X 1 0 / ;\n2 X\n' | forth
  : X 1 0 / ;  ok
  2 X\x20 (esc)
  division by zero, or a quotient too large (fault 5) at X
  line 2
  2 X
    ^
  forth: a fault stopped the script
  [3]

A text of one's own:

  $ printf ': X ABORT" too cold" ; 5 X\n' | forth --quiet
  too cold
  too cold (fault 17) at X
  line 1
  : X ABORT" too cold" ; 5 X
                           ^
  forth: a fault stopped the script
  [3]

A definition over lines:

  $ printf ': x\n  dup\n  foo ;\n' | forth --quiet
  foo is unknown (fault 13)
  line 3
    foo ;
    ^
  forth: a fault stopped the script
  [3]

A structure over lines:

  $ printf ': x\n  BEGIN 1 UNTIL BEGIN\n DUP WHILE 1-\n  DROP ( REPEAT ) ;\n' | forth --quiet
   a structure is unfinished
  a structure is unfinished: WHILE of line 3 has no REPEAT (fault 17) at ;
  line 4
    DROP ( REPEAT ) ;
                    ^
  forth: a fault stopped the script
  [3]

A text without its quote:

  $ printf ': x\n  ." no end\n;\n' | forth --quiet
  the text has no closing quote (fault 15) at ."
  line 2
    ." no end
    ^
  forth: a fault stopped the script
  [3]

HERE within the Forth:

  $ printf -- '-10000 ALLOT\n5 .\n' | forth --quiet
  HERE is inside the Forth, so what is compiled now overwrites it
  forth: a fault stopped the script
  [3]

EXIT in a loop is reported once, also if the definition goes on:

  $ printf ': X 5 0 DO EXIT\n LOOP\n ; 7 .\n' | forth --quiet
  EXIT in a DO loop leaves the cells of the loop: write UNLOOP before it (INCLUDE later.fs has it), in line 1
  7  (no-eol)

No such screen:

  $ printf '9999 LIST\n' | forth --quiet
  there is no screen 9999 in this session, which has no file of blocks (fault 9) at LIST
  line 1
  9999 LIST
       ^
  forth: a fault stopped the script
  [3]

An abort:

  $ printf '5 . ABORT\n' | forth
  5 . ABORT 5  aborted
  5 . ABORT 5  aborted (fault 17) at ABORT
  line 1
  5 . ABORT
      ^
  forth: a fault stopped the script
  [3]

Umlauts before a fault:

  $ printf '.( \303\244\303\266) FOO\n' | forth --quiet
  \xc3\xa4\xc3\xb6 (esc)
  FOO is unknown (fault 13)
  line 1
  .( \xc3\xa4\xc3\xb6) FOO (esc)
         ^
  forth: a fault stopped the script
  [3]

The editor:

  $ printf '21 EDIT\nx' | forth --quiet forth.blk
  EDIT needs a terminal (fault 17) at EDIT
  line 1
  21 EDIT
     ^
  forth: a fault stopped the script
  [3]

DEBUG in a pipe:

  $ printf ': A 1 ; DEBUG A\n' | forth --quiet
  DEBUG needs a terminal; ./forth film NAME shows steps (fault 17) at A
  line 1
  : A 1 ; DEBUG A
                ^
  forth: a fault stopped the script
  [3]

INCLUDE of no file:

  $ printf 'INCLUDE a.fs\n' | forth --quiet
  cannot read a.fs: No such file or directory (fault 17) at a.fs
  line 1
  INCLUDE a.fs
          ^
  forth: a fault stopped the script
  [3]

A screen that is changed before a fault is kept:

  $ printf '22 SCR ! 0 PUT kept\nFOO\n' | forth --quiet forth.blk
  FOO is unknown (fault 13)
  line 2
  FOO
  ^
  forth: a fault stopped the script
  [3]

  $ forth83 text forth.blk 22 22 | tail -n 1
  kept

If a fault finds a screen that cannot be written, that is reported. A limit of no bytes for a file imitates a full disk.

  $ printf '22 SCR ! 0 PUT x\nFOO\n' | (trap '' XFSZ; ulimit -f 0; forth --quiet forth.blk)
  FOO is unknown (fault 13)
  line 2
  FOO
  ^
  forth: a fault stopped the script
  1 changed screen cannot be written: make room on the disk, then SAVE
  [3]

The report of a full dictionary writes nothing after the dictionary, because the block buffers follow it and are saved then.

  $ typed=
  > for block in 30 31 32 33; do
  >   typed+="$block BLOCK DROP\n"
  >   forth83 kernel full.blk
  >   printf "${typed}22 SCR ! 0 PUT mine\n23 BLOCK DROP 24 BLOCK DROP 25 BLOCK DROP 22 BLOCK DROP\n: FULL HERE 1 AND ALLOT BEGIN 0 , AGAIN ;\nFULL\n" |
  >     forth full.blk 2> said > shown
  >   grep -qx "the dictionary is full; bytes left: 0; FORGET makes room (fault 8) at FULL" said || cat said
  >   forth83 text full.blk 22 22 | tail -n +2
  > done
  mine
  mine
  mine
  mine

  $ screens own.blk '% screen 2\n: A CASE 1 OF\n  2 ENDOF 3 OF 4\n  ;\n'

A structure of a screen:

  $ printf '2 load\n' | forth --quiet own.blk
   a structure is unfinished
  a structure is unfinished: OF of line 1 has no ENDOF (fault 17)
  screen 2 line 2
    ;
    ^
  loaded by line 1
  forth: a fault stopped the script
  [3]

  $ screens own.blk '% screen 2\n: A 1 ;\n\n: B hmm ;\n% screen 3\n( load )\n2 load\n'

A screen:

  $ printf 'decimal\n3 load\n' | forth --quiet own.blk
  hmm is unknown (fault 13)
  screen 2 line 2
  : B hmm ;
      ^
  loaded by screen 3 line 1
  loaded by line 2
  forth: a fault stopped the script
  [3]

No handler:

  $ printf '0 FAULT ! DROP\n' | forth 2> said
  0 FAULT ! DROP\x20 (esc)
  [3]
  $ said 'no fault thread handled it, so the Forth has stopped'
