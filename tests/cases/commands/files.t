Files that the program reads and writes: images, blocks, texts.

  $ . "$TESTDIR/lib.sh"

What can't be opened, in the order in which it is looked at; what is opened, but is no image; a rest after the last block.

  $ mkdir folder
  $ : > empty
  $ forth83 run missing nothing < /dev/null
  cannot open missing
  [1]
  $ forth83 run folder < /dev/null
  cannot open folder
  [1]
  $ forth83 run empty nothing < /dev/null
  cannot open nothing
  [1]
  $ forth83 run "$EXAMPLES/hi.img" folder < /dev/null
  cannot open folder
  [1]
  $ forth83 run '' < /dev/null
  cannot open\x20 (esc)
  [1]
  $ forth83 run empty < /dev/null
  image: Truncated
  [1]
  $ forth83 run /dev/null < /dev/null
  image: Truncated
  [1]
  $ forth83 run /dev/zero < /dev/null
  image: BadMagic
  [1]
  $ cp "$EXAMPLES/hi.img" ./-hi
  $ forth83 run -- -hi < /dev/null
  Hi (no-eol)
  $ forth83 run "$EXAMPLES/hi.img" --limit 3 < /dev/null
  H (no-eol)
  [4]
  $ [ ! -e nothing ]
  $ { head -c 2048 /dev/zero && printf 'x%.0s' {1..100}; } > names
  $ forth83 run "$EXAMPLES/greet.img" < /dev/null
  I can't keep names (fault 7): run me with a file of two blocks or more
  [3]
  $ forth83 run "$EXAMPLES/greet.img" names < /dev/null
  Your name?  (no-eol)
  $ printf Ada | forth83 run "$EXAMPLES/greet.img" names > shown
  $ forth83 run "$EXAMPLES/greet.img" names < /dev/null
  Welcome back, Ada
  Your name?  (no-eol)
  $ stat -c %s names
  2148
  $ [ "$(tail -c 100 names)" = "$(printf 'x%.0s' {1..100})" ]

The kernel's block file is made anew, whole, or refused.

  $ forth83 kernel made
  $ stat -c %s made
  65536
  $ tail -c +1089 made | head -c 64 | tr -s ' ' | cut -d ' ' -f 2-4
  5 PRIM EXIT
  $ forth83 kernel again
  $ cmp made again
  $ printf 'x%.0s' {1..99999} > again
  $ forth83 kernel again
  $ cmp made again
  $ forth83 kernel folder
  cannot open folder
  [1]
  $ forth83 kernel /dev/full
  cannot open /dev/full
  [1]
  $ forth83 kernel folder/none/made
  cannot open folder/none/made
  [1]

An image is made of screens, or none is; a word's screen is reported.

  $ source_screen good 1 '5 PRIM EXIT 23 PRIM BYE : GO BYE ; BOOT GO'
  $ forth83 build good 1 1 built
  size 290 entry 284
  $ stat -c %s built
  306
  $ head -c 4 built | od -An -tx1
   46 54 48 38
  $ forth83 run built < /dev/null
  $ forth83 view built GO
  1
  $ forth83 view built GONE
  GONE: NotFound
  [1]
  $ forth83 view good GO
  image: BadMagic
  [1]
  $ forth83 view nothing GO
  cannot open nothing
  [1]
  $ forth83 build good 0 0 unmade
  screen 0 offset 1024: NoBoot
  [1]
  $ forth83 build good 2 2 unmade
  screen 2 offset 0: Device
  [1]
  $ forth83 build nothing 1 1 unmade
  cannot open nothing
  [1]
  $ forth83 build good 1 65536 unmade > shown 2>&1
  [2]
  $ forth83 build good -1 1 unmade > shown 2>&1
  [2]
  $ forth83 build good 1 x unmade > shown 2>&1
  [2]
  $ forth83 build good 1 unmade > shown 2>&1
  [2]
  $ forth83 build good 1 1 unmade > /dev/full
  [5]
  $ [ ! -e unmade ]
  $ forth83 build good 1 1 folder
  size 290 entry 284
  cannot open folder
  [1]
  $ forth83 build good 1 1 /dev/full
  size 290 entry 284
  cannot open /dev/full
  [1]
  $ chmod 444 good
  $ forth83 build good 1 1 again.img
  size 290 entry 284
  $ forth83 build made 1 20 kernel.img > shown
  $ forth83 view kernel.img -- -TRAILING
  8
  $ printf '3 4 + .\n' | forth83 run kernel.img made
  3 4 + . 7  ok

The places at which sources are refused, on standard error, and only if they are asked for.

  $ place() {
  > source_screen refused 1 "$1" && forth83 build refused 1 1 unmade --where 2>&1 > shown
  > forth83 build refused 1 1 unmade 2>&1 > shown
  > return 0
  > }
  $ place ': X FOO ;'
  refused: screen 1, line 0, column 4: Unknown
  : X FOO ;
      ^
  $ place $': X F\x9BO ;'
  refused: screen 1, line 0, column 4: Unknown
  : X F?O ;
      ^
  $ place ' '
  refused: screen 1, line 15, column 63: NoBoot
   (esc)
                                                                 ^
  $ forth83 build refused 1 2 unmade --where 2>&1 > shown
  refused: screen 2 does not exist or cannot be read
  [1]

A block file whose new screens cannot all be written stays as it was: on a full disk, and if the program is killed while it writes. A limit of
4 KiB for a file imitates the disk: writing more is refused if the signal is ignored, and otherwise kills the program. What a killed run left is
not touched by the next one.

  $ forth83 new old.blk 8
  $ printf '%% screen 7\nchanged\n' > change
  $ cp old.blk before
  $ (trap '' XFSZ && ulimit -f 4 && forth83 screens change old.blk)
  cannot open old.blk
  [1]
  $ cmp old.blk before && ls -d old.blk*
  old.blk
  $ { (ulimit -c 0 -f 4 && exec forth83 screens change old.blk); } 2> said
  [153]
  $ cmp old.blk before && echo old.blk*
  old.blk old.blk.forth83-new
  $ cp old.blk.forth83-new left
  $ forth83 screens change old.blk
  $ dd if=old.blk bs=1024 skip=7 count=1 status=none | tr -d ' '
  changed (no-eol)
  $ cmp old.blk.forth83-new left && echo old.blk*
  old.blk old.blk.forth83-new
  $ ln -s change linked
  $ forth83 screens change linked
  error: the text and the blocks are the same file
  [2]
  $ tail -n 1 change
  changed

A file that is replaced keeps its permissions, and if root replaces it also its owner and its group.

  $ forth83 new owned.blk 8
  $ chmod 640 owned.blk
  $ [ "$(id -u)" != 0 ] || chown 65534:65533 owned.blk
  $ stat -c '%u %g %a' owned.blk > before
  $ inode=$(stat -c %i owned.blk)
  $ forth83 screens change owned.blk
  $ stat -c '%u %g %a' owned.blk | cmp - before
  $ [ "$(stat -c %i owned.blk)" != "$inode" ]

Images of other numbers of block buffers, and of version 1: what is built, and made anew.

  $ forth83 build good 1 1 sixteen --buffers 16
  size 290 entry 284
  $ head -c 12 sixteen | tail -c 4 | od -An -tx1
   02 00 10 00
  $ forth83 upgrade built two --buffers 2
  size 290 buffers 2
  $ stat -c %s two
  306
  $ head -c 16 two | tail -c 8 | od -An -tx1
   02 00 02 00 1c 01 22 01
  $ { printf 'FTH83IMG\1\0'; tail -c +13 built; } > old
  $ forth83 upgrade old anew
  size 290 buffers 4
  $ cmp anew built
  $ forth83 view old GO
  1
  $ { printf 'FTH83IMG\1\0\34\1\0\360'; head -c 61440 /dev/zero; } > full
  $ forth83 upgrade full anew --buffers 5
  image: TooLarge
  [1]
  $ forth83 upgrade full anew --buffers 4
  size 61440 buffers 4
  $ forth83 upgrade good anew
  image: BadMagic
  [1]
  $ forth83 upgrade nothing anew
  cannot open nothing
  [1]
  $ forth83 build good 1 1 unmade --buffers 1 > shown 2>&1
  [2]
  $ forth83 build good 1 1 unmade --buffers 17 > shown 2>&1
  [2]
  $ forth83 upgrade built unmade --buffers 0 > shown 2>&1
  [2]
  $ forth83 upgrade built > shown 2>&1
  [2]

A word is shown, and a run of it is traced; if it can't be, nothing is run.

  $ source_screen choice 1 '5 PRIM EXIT 6 PRIM (LIT) 7 PRIM BRANCH 8 PRIM ?BRANCH 23 PRIM BYE 32 PRIM DUP : Z DUP IF 1 ELSE -1 THEN ; : GO 0 Z BYE ; BOOT GO'
  $ forth83 build choice 1 1 choice.img
  size 373 entry 361
  $ forth83 see choice.img Z
  : Z DUP IF 1 ELSE -1 THEN ;
  $ forth83 see choice.img DUP
  DUP: NotColon
  [1]
  $ forth83 see nothing Z
  cannot open nothing
  [1]
  $ forth83 debug choice.img Z traced
  $ cat traced
  334 DUP | 0 | 0 369
  336 ?BRANCH | 0 0 | 0 369
  348 (LIT) | 0 | 0 369
  352 EXIT | 0 -1 | 0 369
  $ forth83 debug choice.img Z traced --limit 5
  [4]
  $ cat traced
  334 DUP | 0 | 0 369
  336 ?BRANCH | 0 0 | 0 369
  $ forth83 debug choice.img DUP traced
  DUP: NotColon
  [1]
  $ forth83 debug choice.img Z /dev/full
  [5]
  $ forth83 debug choice.img Z untraced nothing
  cannot open nothing
  [1]
  $ forth83 debug choice.img Z folder
  cannot open folder
  [1]
  $ forth83 debug good GO traced
  image: BadMagic
  [1]
  $ forth83 serve choice.img < /dev/null
  $ forth83 serve good < /dev/null
  image: BadMagic
  [1]
  $ forth83 serve nothing < /dev/null
  cannot open nothing
  [1]
  $ forth83 serve choice.img folder < /dev/null
  cannot open folder
  [1]
  $ forth83 debug choice.img NOPE traced > /dev/full
  [5]
  $ [ ! -e untraced ]

A file isn't written over one that it is made of; and an image that can't be written whole stays as it was.

  $ cp good good.before
  $ cp choice.img choice.before
  $ forth83 build good 1 1 good
  error: the blocks and the image are the same file
  [2]
  $ ln -s good linked.blk
  $ forth83 build good 1 1 linked.blk
  error: the blocks and the image are the same file
  [2]
  $ forth83 load choice.img good 1 1 good
  error: the blocks and the new image are the same file
  [2]
  $ forth83 debug choice.img Z good good
  error: the blocks and the trace are the same file
  [2]
  $ forth83 debug choice.img Z ./choice.img
  error: the image and the trace are the same file
  [2]
  $ (trap '' XFSZ && ulimit -f 0 && forth83 build good 1 1 choice.img)
  size 290 entry 284
  cannot open choice.img
  [1]
  $ cmp good good.before && cmp choice.img choice.before && ls -d choice.img*
  choice.img
  $ chmod 444 choice.img
  $ [ "$(id -u)" = 0 ] || forth83 build good 1 1 choice.img > shown || [ "$(cat shown)" = $'size 290 entry 284\ncannot open choice.img' ]
  $ chmod 644 choice.img

What is something else isn't written over, and what is an image isn't taken for blocks; an image, a trace and a new name are.

  $ head -c 2048 /dev/zero > some.blk
  $ cp some.blk before.blk
  $ forth83 build good 1 1 some.blk
  error: some.blk already exists, and isn't an image
  [2]
  $ forth83 load choice.img good 1 1 some.blk
  error: some.blk already exists, and isn't an image
  [2]
  $ forth83 upgrade choice.img some.blk
  error: some.blk already exists, and isn't an image
  [2]
  $ forth83 debug choice.img Z some.blk
  error: some.blk already exists, and isn't a trace
  [2]
  $ forth83 debug choice.img Z built
  error: built already exists, and isn't a trace
  [2]
  $ cmp some.blk before.blk
  $ forth83 run choice.img built < /dev/null
  error: built is an image, not a block file
  [2]
  $ forth83 serve choice.img built < /dev/null
  error: built is an image, not a block file
  [2]
  $ forth83 load choice.img built 1 1 x
  error: built is an image, not a block file
  [2]
  $ forth83 debug choice.img Z x built
  error: built is an image, not a block file
  [2]
  $ forth83 build built 1 1 x
  error: built is an image, not a block file
  [2]
  $ forth83 text built 1 1
  error: built is an image, not a block file
  [2]
  $ printf 'x' > line.txt
  $ forth83 screens line.txt built
  error: built is an image, not a block file
  [2]
  $ printf 'an old trace, longer than the new one will be\n%099d' 0 > traced
  $ forth83 debug choice.img NOPE traced
  NOPE: NotFound
  [1]
  $ head -n 1 traced
  an old trace, longer than the new one will be
  $ forth83 debug choice.img NOPE untraced
  NOPE: NotFound
  [1]
  $ [ ! -e untraced ]
  $ forth83 debug choice.img Z traced --limit 5
  [4]
  $ cat traced
  334 DUP | 0 | 0 369
  336 ?BRANCH | 0 0 | 0 369

A file of blocks that a run has is refused by all that would write it, and can be read.

  $ mkfifo typed
  $ forth83 run "$EXAMPLES/greet.img" some.blk < typed > greeted & running=$!
  $ exec 6> typed
  $ until [ -s greeted ] || ! kill -0 $running; do sleep 0.1; done
  $ forth83 run choice.img some.blk < /dev/null
  error: some.blk is in use by another run; end that first, or take a copy
  [2]
  $ forth83 serve choice.img some.blk < /dev/null
  error: some.blk is in use by another run; end that first, or take a copy
  [2]
  $ forth83 debug choice.img Z x some.blk
  error: some.blk is in use by another run; end that first, or take a copy
  [2]
  $ forth83 load choice.img some.blk 1 1 x
  error: some.blk is in use by another run; end that first, or take a copy
  [2]
  $ forth83 screens line.txt some.blk
  error: some.blk is in use by another run; end that first, or take a copy
  [2]
  $ forth83 kernel some.blk
  error: some.blk is in use by another run; end that first, or take a copy
  [2]
  $ cmp some.blk before.blk
  $ forth83 text some.blk 1 1 | sed -n 1p
  % screen 1
  $ printf 'Ada\n' >&6
  $ exec 6>&-
  $ wait $running
  $ forth83 screens line.txt some.blk
