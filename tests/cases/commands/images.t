Images of programs, and how a fault in one is reported.

  $ . "$TESTDIR/lib.sh"

A program of one's own as an image: it starts with its word, needs no host, is small, and ends.

  $ screens own.blk '% screen 1\n2 4 thru\nboot go\n% screen 2\n: stars ( n -- ) 0 ?do 42 emit loop ;  \\ none for 0\n: kind ( n -- ) case 1 of ." one" endof\n  ." many" endcase ;\n% screen 3\n: number ( -- n ) pad 1+ 8 expect bl pad 1+ span @ + c!\n  0. pad convert 2drop ;\n% screen 4\n: go ( -- ) begin number ?dup while\n  dup stars 100 over / . kind cr repeat ." none" ;\n'

An image:

  $ forth --image own.img 1 1 own.blk
  *own.img starts with go* (glob)

A program:

  $ printf '1\n3\n0\n4\n' | forth83 run own.img
  *100 one
  ***33 many
  none (no-eol)

It has fewer than 12,000 bytes:

  $ [ "$(stat -c %s own.img)" -lt 12000 ]

An image over an image:

  $ forth --image own.img 1 1 own.blk
  *own.img starts with go* (glob)

  $ cp own.img first.img

An image:

  $ forth --image own.img 1 1 own.blk
  *own.img starts with go* (glob)

It has the same bytes:

  $ cmp own.img first.img

  $ screens own.blk '% screen 1\n: ASK ( n -- ) PAD SWAP EXPECT ." <" PAD SPAN @ TYPE ." >" ;\n: GO 9 ASK 2 ASK 2 ASK KEY? . 60000 MS 9 ASK 9 ASK ; BOOT GO\n'

A program that asks:

  $ forth --image own.img 1 1 own.blk
  *own.img starts with GO* (glob)
  $ printf 'Ada\nGrace\r\r' | forth83 run own.img
  <Ada><Gr><ac>0 <e><> (no-eol)

The end of what it asks:

  $ printf 'Ada\nGra' | forth83 run own.img
  <Ada><Gr> (no-eol)

  $ screens own.blk '% screen 1\n: LAST-BLOCK 31 BLOCK DUP C@ 1+ SWAP C! UPDATE ;\n: GO ( n -- ) ." started " LAST-BLOCK FLUSH 1 0 / ;\nBOOT GO\n'

A program that writes:

  $ forth --image two.img 1 1 own.blk
  *two.img starts with GO* (glob)

A fault in a program:

  $ forth83 run two.img own.blk < /dev/null
  started  fault 5  (no-eol)
  [3]

What it changed:

  $ dd if=own.blk bs=1024 skip=31 count=1 status=none | head -c 1
  ! (no-eol)

A program without blocks:

  $ forth83 run two.img < /dev/null
  started  fault 7  (no-eol)
  [3]

  $ screens own.blk '% screen 1\n: GO 21 EDIT ; BOOT GO\n'

A program that wants a host:

  $ forth --image two.img 1 1 own.blk
  *two.img starts with GO* (glob)
  $ forth83 run two.img < /dev/null
   it needs the host's tools fault 17  (no-eol)
  [3]

  $ screens own.blk '% screen 1\n: STARS ( n -- ) 0 ?DO 42 EMIT LOOP ;\n'

An image without BOOT:

  $ forth --image three.img 1 1 own.blk
  *three.img starts with the Forth; BOOT NAME* (glob)
  $ printf '3 stars\nFOO\n5 .\n' | forth83 run three.img
  3 stars *** ok
  FOO  fault 13  (no-eol)
  [3]

The way to a fault of an image.

  $ screens own.blk '% screen 2\n: half ( n -- n ) 2 / ;\n: share ( n -- ) half 100 swap / . ;\n% screen 3\n2 load : half ( n -- n ) half ;\n: go ( -- ) begin key 48 -\n  3 0 do dup half drop loop share again ;\nboot go\n'

A program with a fault:

  $ forth --image own.img 3 3 own.blk
  *own.img starts with go* (glob)

The way to a fault:

  $ printf 481 | forth where own.img
  50 25  fault 5\x20 (esc)
  forth: division by zero, or a quotient too large (fault 5)
  /                a word of the system
  share            screen 2
  go               screen 3
  stack: 100 0
  [3]

A way without a fault:

  $ printf 48 | forth where own.img
  50 25  (no-eol)

  $ screens own.blk '% screen 1\n: deep ( n -- ) dup 100 swap / drop 1- recurse ;\n: go ( -- ) 7 block dup c@ 1+ swap c! update flush\n  7 block c@ 71 - deep ; boot go\n% screen 7\nIt\n'

  $ cp own.blk before.blk

A program that calls itself:

  $ forth --image own.img 1 1 own.blk
  *own.img starts with go* (glob)

A word that calls itself:

  $ forth where own.img own.blk < /dev/null
   fault 5\x20 (esc)
  forth: division by zero, or a quotient too large (fault 5)
  /                a word of the system
  deep             screen 1, 4 times
  go               screen 1
  stack: 0 100 0
  [3]

Its blocks are as they were:

  $ cmp own.blk before.blk

A file that is no image:

  $ forth where own.blk < /dev/null
  image: BadMagic
  [1]

A file of blocks that does not exist:

  $ forth where own.img missing.blk < /dev/null
  cannot open missing.blk
  [1]

An image from text files: no word of it is in a screen.

  $ printf '( two\n  lines )\ninclude lib.fs\n: main ( -- ) mid @ stars ; boot main\n' > main.fs

  $ printf 'variable mid  3 mid !\n: stars ( n -- ) 0 ?do 42 emit loop ;\n' > lib.fs

An image from texts:

  $ forth --image text.img main.fs
  *text.img starts with main* (glob)
  $ forth83 run text.img < /dev/null
  *** (no-eol)

Where a word of a text is:

  $ forth83 view text.img stars
  0

An image with -e:

  $ forth --image text.img lib.fs -e 'boot stars'
  *text.img starts with stars* (glob)

  $ printf ': x\n  hmm ;\n' > bad.fs

An unknown word in a text:

  $ forth --image no.img bad.fs
  hmm is unknown (fault 13)
  bad.fs:2:3
    hmm ;
    ^
  *no.img was not made* (glob)
  [1]

A text that is not there:

  $ forth --image no.img none.fs
  *cannot read none.fs* (glob)
  [1]

  $ forth83 new fig.blk 32 && forth83 screens "$TREE/screens/dialects/fig.txt" fig.blk

An image with a dialect:

  $ forth --image fig.img fig.blk -e "$(sed -n 's/^% screen //p;T;q' "$TREE/screens/dialects/fig.txt") LOAD" -e ': GO 5 0 DO I . LOOP ;' -e 'BOOT GO'
  *fig.img starts with GO* (glob)
  $ forth83 run fig.img < /dev/null
  0 1 2 3 4  (no-eol)

What no image is made of, and what none is written over.

  $ screens own.blk '% screen 1\n2 LOAD\n% screen 2\n: A 1 ;\n: B ." text"\n  hmm ;\n% screen 5\n: C 5\n% screen 6\nKEY DROP\n% screen 7\nBYE\n% screen 8\n1000 0 DO LOOP 5 ABORT\n% screen 9\n: D 1 IF 2 ;\n'

An unknown word:

  $ forth --image no.img 1 1 own.blk
  hmm is unknown (fault 13)
  screen 2 line 2
    hmm ;
    ^
  loaded by screen 1 line 0
  *no.img was not made* (glob)
  [1]

A structure:

  $ forth --image no.img 9 9 own.blk
  a structure is unfinished: IF of line 0 has no THEN (fault 17)
  screen 9 line 0
  : D 1 IF 2 ;
             ^
  *no.img was not made* (glob)
  [1]

A definition without its end:

  $ forth --image no.img 5 5 own.blk
  *the definition of C has no ;* (glob)
  [1]

A screen that asks:

  $ forth --image no.img 6 6 own.blk
  *what it loads asks for a key* (glob)
  [1]

A screen that leaves:

  $ forth --image no.img 7 7 own.blk
  *what it loads leaves the Forth* (glob)
  [1]

A screen that there is not:

  $ forth --image no.img 30 40 own.blk
  *own.blk has screens 0 to 31* (glob)
  [1]

No screens:

  $ forth --image no.img 3 2 own.blk
  *there are no screens from 3 to 2* (glob)
  [1]

No blocks:

  $ forth --image no.img 1 1 none.blk
  *there is no none.blk* (glob)
  [1]

No folder:

  $ forth --image none/no.img 2 2 own.blk
  *there is no folder none* (glob)
  [1]

A folder:

  $ forth --image .. 3 3 own.blk
  *.. is a folder* (glob)
  [1]

Words that are no numbers:

  $ forth --image no.img 1 x.fs
  *FROM and TO are numbers of screens* (glob)
  *usage* (glob)
  [2]

No name:

  $ forth --image '' 1 1 own.blk
  * (glob)
  *usage* (glob)
  [2]

A word less:

  $ forth --image no.img 1
  * (glob)
  *usage* (glob)
  [2]

What is no number:

  $ forth --image no.img 1 x own.blk
  forth: name one file of blocks: x own.blk
  *usage* (glob)
  [2]

A number too large:

  $ forth --image no.img 1 65536 own.blk
  *FROM and TO are numbers of screens, 0 to 65535* (glob)
  *usage* (glob)
  [2]

An image that cannot be written:

  $ forth --image /proc/no.img 3 3 own.blk
  *forth: /proc/no.img was not made: it cannot be written: No such file or directory* (glob)
  [1]

  $ sha256sum own.blk text "$TREE"/build/out/*/*.img > before

Blocks in the way:

  $ forth --image own.blk 3 3 own.blk
  *own.blk exists already, and is not an image* (glob)
  [1]

A text in the way:

  $ forth --image text 3 3 own.blk
  *text exists already, and is not an image* (glob)
  [1]

An image of the launcher:

  $ served=("$TREE"/build/out/served-*/kernel.blk)
  $ forth --image "$(dirname "${served[0]}")/served.img" 3 3 own.blk
  *one of the launcher's own images* (glob)
  [1]

What was in the way is as it was, and no image was made:

  $ sha256sum --quiet --check before
  $ [ ! -e no.img ]

Each beginning of an image's file is refused, in the form of today and in that of before.

  $ source_screen good 1 '5 PRIM EXIT 23 PRIM BYE : GO BYE ; BOOT GO' && forth83 build good 1 1 today
  size 290 entry 284
  $ { head -c 8 today; printf '\001\000'; tail -c +13 today; } > before && stat -c %s today before
  306
  304
  $ beginnings() { for ((n = 0; n < $(stat -c %s "$1"); n++)); do head -c "$n" "$1" > beginning; forth83 run beginning < /dev/null; echo "[$?]"; done | sort | uniq -c; }
  $ beginnings today; forth83 run today < /dev/null
      306 [1]
      306 image: Truncated
  $ beginnings before; forth83 run before < /dev/null
      304 [1]
      304 image: Truncated

A dictionary whose chain leads to itself: EXIT's header at 258 is its own successor.

  $ { printf '%1024s' ''; printf '%-64s%-64s%-896s' '5 PRIM EXIT 6 PRIM (LIT) 7 PRIM BRANCH 8 PRIM ?BRANCH' '23 PRIM BYE 32 PRIM DUP' ': Z DUP IF 1 ELSE -1 THEN ; : GO 0 Z BYE ; BOOT GO'; } > choice
  $ forth83 build choice 1 1 cycle && printf '\002\001' | dd of=cycle bs=1 seek=$((16 + 258)) conv=notrunc status=none
  size 373 entry 361
  $ forth83 see cycle Z
  Z: ChainTooLong
  [1]
  $ forth83 debug cycle Z traced
  Z: ChainTooLong
  [1]
  $ forth83 view cycle Z
  1
