The subcommand `load` on the kernel's image. Sizes are worked out by hand from the table of what each word writes: a header takes 7 bytes and its
name, a word 2, a number 4, each jump of a structure 4. tests/trials/check-load compares random sources with what `build` makes of them.

  $ . "$TESTDIR/lib.sh"
  $ forth83 kernel kernel.blk
  $ forth83 build kernel.blk 1 20 kernel.img > built
  $ cp kernel.img before.img
  $ read -r _ size _ entry < built
  $ x255=$(printf 'x%.0s' {1..255}) n31=$(printf 'N%.0s' {1..31})

A file of 64 blocks with the kernel's screens, and these from 21 on:

  $ write() {
  >   { head -c 21504 kernel.blk; for text; do printf '%-1024s' "$text"; done; tail -c +$((21505 + 1024 * $#)) kernel.blk; } > own.blk
  > }

The line of an image that is greater than the kernel's by so many bytes:

  $ line() { echo "size $((size + $1)) entry $entry"; }

These screens are loaded. Printed is by how many bytes the image grows, or why there is none. BLK and >IN are 0 then, and the old image is as it was.

  $ loads() {
  >   write "$@"
  >   rm -f new.img
  >   if forth83 load kernel.img own.blk 21 $((20 + $#)) new.img --limit 100000 > shown; then
  >     grown=$(($(stat -c %s new.img) - 16 - size))
  >     echo $grown
  >     line $grown | cmp - shown
  >     cmp -n 4 -i 36:0 new.img /dev/zero
  >     cmp kernel.img before.img
  >   else
  >     status=$?
  >     cat shown
  >     cmp kernel.img before.img
  >     [ ! -e new.img ] || echo new.img was made
  >     return $status
  >   fi
  > }

A definition:

  $ loads ': SQ DUP * ;'
  15

One over a screen's end:

  $ loads ': B 1' '2 + ;'
  20

Three screens:

  $ loads ': B 1' '' '2 + ;'
  20

Comments between and within:

  $ loads '( one ) : A ( two ) ; ( three )' '( four ) : C ( five ) A A ; ( six'
  24

Nothing:

  $ loads ''
  0

No screens:

  $ loads
  0

Choices (8 + 16 + 8 + 2 bytes):

  $ loads ': K IF 1 ELSE 2 THEN IF 3 THEN ;'
  34

Repetitions (8 + 6 + 12 + 2 + 14 bytes):

  $ loads ': K BEGIN DUP UNTIL BEGIN DUP WHILE DROP REPEAT ; : L BEGIN AGAIN ;'
  42

Counted loops (8 + 10 + 10 + 18 + 2 bytes):

  $ loads ': K DO I LOOP DO J +LOOP DO DO LEAVE LOOP LOOP ;'
  48

Names that are compiled (8 + 4 + 2 + 4 + 4 + 2 bytes):

  $ loads ': K ['\''] DUP [COMPILE] IF COMPILE DUP COMPILE [COMPILE] ; ;'
  24

Texts (8 + 5 + 4 + 3 + 2 bytes):

  $ loads ': K ." AB" ABORT" C" ." " ;'
  22

A defining word (8 + 8 + 8 bytes):

  $ loads ': K CREATE DOES> @ ; K A'
  24

An immediate word (14 + 12 bytes):

  $ loads ': K 5 ; IMMEDIATE : L K DROP ;'
  26

Doubles (8 + 16 + 2 bytes):

  $ loads ': K 70000. -1. ;'
  26

64 structures (8 + 256 + 2 bytes):

  $ loads ": D $(printf 'IF %.0s' {1..64})$(printf 'THEN %.0s' {1..64});"
  266

A text of 255 bytes (8 + 3 + 255 + 2 bytes):

  $ loads ": T .\" $x255\" ;"
  268

A text of 256 bytes:

  $ loads ": T .\" ${x255}x\" ;"
  load: Fault 15
  [1]

A name of 31 bytes (7 + 31 + 2 + 12 bytes):

  $ loads ": $n31 ; : K $n31 ;"
  52

A name of 32 bytes:

  $ loads ": ${n31}N ;"
  load: Fault 15
  [1]

Words outside definitions (10 + 10 + 2 + 1 + 5 bytes):

  $ loads 'VARIABLE V 7 V ! 3 CONSTANT T 1 , 2 C, 5 ALLOT'
  28

Two vocabularies (18 + 18 + 14 + 12 bytes):

  $ loads 'VOCABULARY A VOCABULARY B A DEFINITIONS : X 1 ; B : Y X ;'
  62

One that forgets:

  $ loads ': A 1 ; : B 2 ;' 'FORGET A : C 3 ;'
  14

One that goes on in another (18 + 18 bytes):

  $ loads "22 BLK !  : A 1 ;$(printf %980s): B 2 ;" '         : C 3 4 ;'
  36

One that ends itself:

  $ loads ': A 1 ; 1024 >IN ! : B 2 ;' ': C 3 ;'
  28

One that writes a block (8 + 4 + 2 + 4 + 8 + 2 bytes):

  $ loads ': W 30 BLOCK 65 SWAP C! UPDATE SAVE-BUFFERS ; W'
  28

One that loads another (14 + 14 + 14 bytes):

  $ loads '22 LOAD : B 2 ;' ': A 1 ;'
  42

One that redefines INTERPRET (22 + 14 bytes):

  $ loads ': INTERPRET 5 ;' ': Q 6 ;'
  36

One that executes it:

  $ loads ': A 1 ; INTERPRET : B 2 ;'
  28

A definition that isn't ended:

  $ loads ': C 1'
  load: Unfinished
  [1]

An unknown word:

  $ loads 'NOPE'
  load: Fault 13
  [1]

An unknown word after a definition:

  $ loads ': A 1 ; NOPE'
  load: Fault 13
  [1]

Too few cells:

  $ loads 'DROP'
  load: Fault 1
  [1]

Too many cells:

  $ loads "$(printf '1 %.0s' {1..300})"
  load: Fault 2
  [1]

A structure that isn't open:

  $ loads ': A THEN ;'
  load: Fault 1
  [1]

A division:

  $ loads '1 0 /'
  load: Fault 5
  [1]

A block that does not exist:

  $ loads '64 LOAD'
  load: Fault 7
  [1]

A full dictionary:

  $ loads '30000 ALLOT 30000 ALLOT'
  load: Fault 8
  [1]

A bad BASE:

  $ loads '99 BASE ! 1'
  load: Fault 12
  [1]

Screen 0:

  $ loads '0 LOAD'
  load: Fault 16
  [1]

A fault with its text:

  $ loads ': A 1 ABORT" no" ; A'
  load: Fault 17
  [1]

A text outside a definition:

  $ loads '1 ABORT" no"'
  5

A key:

  $ loads 'KEY DROP'
  load: Asked
  [1]

A line:

  $ loads '300 5 EXPECT'
  load: Asked
  [1]

The end:

  $ loads 'BYE'
  load: Halted
  [1]

A loop without an end:

  $ loads ': A BEGIN AGAIN ; A'
  load: Limit
  [1]

HERE below an image's least size:

  $ loads '100 28 !'
  load: BadSize
  [1]

HERE above its greatest value:

  $ loads '61442 28 !'
  load: BadSize
  [1]

What SEE, VIEW and a run say of what was compiled.

  $ write ': SQ DUP * ;' ': B 1' '2 + ;' 'VARIABLE V 7 V !'
  $ forth83 load kernel.img own.blk 21 24 new.img > shown
  $ forth83 see new.img SQ
  : SQ DUP * ;
  $ forth83 view new.img SQ
  21
  $ forth83 see new.img B
  : B 1 2 + ;
  $ forth83 view new.img B
  22
  $ echo '7 SQ . B . V @ .' | forth83 run new.img
  7 SQ . B . V @ . 49 3 7  ok

The ticks that a definition takes: one enters INTERPRET, and (INTERPRET), which asks for the screen, is done twice; `:` and `;` take eight, the
words that are compiled six, and the end of the screen four: 1 + 1 + 8 + 6 + 6 + 8 + 4. With fewer, and with none if there is no screen:

  $ write ': SQ DUP * ;'
  $ forth83 load kernel.img own.blk 21 21 new.img --limit 34 > shown
  $ line 15 | cmp - shown
  $ for few in 33 3 2 1 0; do
  >   rm -f new.img
  >   forth83 load kernel.img own.blk 21 21 new.img --limit $few
  >   echo $?
  >   [ ! -e new.img ] || echo new.img was made
  > done
  load: Limit
  1
  load: Limit
  1
  load: Limit
  1
  load: Limit
  1
  load: Limit
  1
  $ forth83 load kernel.img own.blk 22 21 new.img --limit 0 > shown
  $ line 0 | cmp - shown
  $ cmp new.img kernel.img

The first fault is reported, and no file is made then.

  $ : > empty && mkdir folder && rm -f new.img
  $ { printf 'FTH83IMG\1\0\0\0\0\1'; head -c 256 /dev/zero; } > one.img
  $ write
  $ forth83 load missing nothing 1 1 new.img
  cannot open missing
  [1]
  $ forth83 load empty nothing 1 1 new.img
  cannot open nothing
  [1]
  $ forth83 load empty own.blk 0 1 new.img
  image: Truncated
  [1]
  $ forth83 load one.img own.blk 0 1 new.img
  load: NotFound
  [1]
  $ forth83 load kernel.img own.blk 0 1 new.img
  load: Fault 16
  [1]
  $ forth83 load kernel.img own.blk 64 64 new.img
  load: Fault 7
  [1]
  $ forth83 load kernel.img own.blk 22 21 folder > shown
  [1]
  $ { line 0; echo 'cannot open folder'; } | cmp - shown
  $ [ ! -e new.img ]
  $ printf kept > new.img
  $ write NOPE
  $ forth83 load kernel.img own.blk 21 21 new.img > shown
  [1]
  $ cat new.img
  kept (no-eol)

What stays after a screen: the block that it wrote, the vocabularies (CURRENT is A, CONTEXT is B), an INTERPRET of its own, which compiles nothing.

  $ rm new.img
  $ write ': W 30 BLOCK 65 SWAP C! UPDATE SAVE-BUFFERS ; W NOPE'
  $ forth83 load kernel.img own.blk 21 21 new.img > shown
  [1]
  $ tail -c +30721 own.blk | head -c 1
  A (no-eol)
  $ write 'VOCABULARY A VOCABULARY B A DEFINITIONS : X 1 ; B : Y X ; B'
  $ forth83 load kernel.img own.blk 21 21 new.img > shown
  $ read -r context current < <(od -An -tu2 --endian=little -j 48 -N 4 new.img)
  $ echo $((context - current))
  18
  $ write ': INTERPRET 5 ;' ': Q 6 ;'
  $ forth83 load kernel.img own.blk 21 21 five.img > shown
  $ forth83 load five.img own.blk 22 22 new.img > shown
  $ line 22 | cmp - shown

The place at which a load stopped is shown on standard error, if that is asked for. The last screen blanks its own first line, so trying it again
would do something else.

  $ places() {
  >   forth83 load kernel.img own.blk "$@" new.img 2>&1 > shown
  >   forth83 load kernel.img own.blk "$@" new.img --where 2>&1 > shown
  > }
  $ write "$(printf %64s): ROWS 0 DO CR LOP ;" && places 21 21
  own.blk: screen 21, line 1, column 15: Fault 13
  : ROWS 0 DO CR LOP ;
                 ^
  [1]
  $ write '  1 0 / 5' && places 21 21
  own.blk: screen 21, line 0, column 6: Fault 5
    1 0 / 5
        ^
  [1]
  $ write KEY && places 21 21
  own.blk: screen 21, line 0, column 0: Asked
  KEY
  ^
  [1]
  $ write 'FORGET X' && places 21 21
  own.blk: screen 21, line 0, column 7: Fault 13
  FORGET X
         ^
  [1]
  $ write '22 LOAD' '1 0 /' && places 21 21
  own.blk: screen 22, line 0, column 4: Fault 5
  1 0 /
      ^
  [1]
  $ writes=$(printf %-64s ': W 21 BLOCK 9 32 FILL UPDATE SAVE-BUFFERS ; W')
  $ write "${writes}1 0 /"
  $ forth83 load kernel.img own.blk 21 21 new.img --where 2>&1 > shown
  own.blk: screen 21, line 1, column 4: Fault 5
  1 0 /
      ^
  [1]
  $ forth83 load kernel.img own.blk 21 21 new.img 2>&1 > shown
  [1]
  $ write && places 64 64
  own.blk: screen 64 does not exist or cannot be read
  [1]
  $ places 0 0
  [1]
