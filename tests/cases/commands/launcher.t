The launcher, over a tree of its own: its files, the images that it makes, the proof in the background.

  $ . "$TESTDIR/lib.sh"
  $ copy_tree tree && mkdir bin home && ln -s ../tree/forth bin/forth
  $ export PATH=$PWD/bin:$PATH HOME=$PWD && cd home

A first line:

  $ printf '3 4 + .\n' | forth
  forth: forth.blk is a new file
  3 4 + . 7  ok

A line that is kept:

  $ printf '21 SCR ! 0 PUT 6 7 * .\nFLUSH\n' | forth
  21 SCR ! 0 PUT 6 7 * .  ok
  FLUSH  ok

Started again:

  $ printf '21 LOAD\n' | forth
  21 LOAD 42  ok

A line that BYE keeps:

  $ printf '22 SCR ! 0 PUT 5 5 * .\nBYE\n' | forth
  22 SCR ! 0 PUT 5 5 * .  ok
  BYE  (no-eol)

A line that the end of input keeps:

  $ printf '23 SCR ! 0 PUT 2 3 * .\n' | forth
  23 SCR ! 0 PUT 2 3 * .  ok

Lines that were kept:

  $ printf '22 LOAD 23 LOAD\n' | forth
  22 LOAD 23 LOAD 25 6  ok

Its files, and its images:

  $ ls
  forth.blk
  $ ls ../tree/build/out/served-*
  kernel.blk
  plain.img
  served.img
  small.img
  system.json

Images that exist are not made again:

  $ touch -d '1 hour ago' ../tree/build/out/served-*/*.img
  $ stat -c %y ../tree/build/out/served-*/*.img > ../times
  $ touch ../tree/screens/tools/show.txt
  $ forth < /dev/null
  $ stat -c %y ../tree/build/out/served-*/*.img | cmp - ../times

A fault that halts:

  $ printf '0 FAULT ! DROP\n' | forth 2> said
  0 FAULT ! DROP\x20 (esc)
  [3]
  $ said 'the Forth has stopped'

Other tools have other images:

  $ sed -i 's/^( Showing/( SHOWING/' ../tree/screens/tools/show.txt
  $ forth < /dev/null
  $ find ../tree/build/out -name served.img | wc -l
  2

No place for images:

  $ rm -r ../tree/build/out
  $ : > ../tree/build/out
  $ printf '5 .\n' | forth
  5 . 5  ok
  $ rm -r ../tree/build/out "$HOME/.cache/jaurimet"

An unproved program and two files:

  $ forth --unproved a b < /dev/null
  * (glob)
  *usage* (glob)
  [2]

An unproved program, of the same sources, and what it keeps:

  $ pretend_unproved() {
  > mkdir -p ../tree/build/out
  > cp "$(command -v forth83)" ../tree/build/out/unproved
  > ../tree/build/sources sum > ../tree/build/out/unproved.sum
  > }
  $ pretend_unproved
  $ printf '5 .\n' | forth --unproved 2> said
  5 . 5  ok
  $ said 'UNPROVED: nothing is proved'
  $ find ../tree/build/out -maxdepth 1 -mindepth 1 -printf '%f\n' | sed 's/-.*//' | sort
  python
  served
  unproved
  unproved.sum
  $ rm -r ../tree/build/out

If nothing is proved, the program without proofs runs, and the proof starts in the background. After the proof the proved program
runs; a proof that failed is reported. A command rt, which takes a second, replaces the toolchain's.

  $ printf '#!/bin/bash\n[ "$1" = run ] || exit 0\nsleep 1\nmkdir -p out\ncp "%s" out/forth83\n' "$(command -v forth83)" > ../bin/rt && chmod +x ../bin/rt
  $ mv ../tree/crates/forth83/out ../away.out && pretend_unproved
  $ mkdir ../tmp && export TMPDIR=$PWD/../tmp

A first start:

  $ printf '5 .\n' | forth 2> said
  5 . 5  ok
  $ said 'is not proved yet'

A second start:

  $ printf '5 .\n' | forth 2> said
  5 . 5  ok
  $ said 'is not proved yet'

  $ ends() { flock -w 600 ../tree/build/out/proof.lock true; }
  $ ends

The first start after the proof:

  $ printf '5 .\n' | forth 2> said
  5 . 5  ok
  $ said 'this program is proved now'

A later start, which says nothing of a proof:

  $ printf '5 .\n' | forth 2> said
  5 . 5  ok
  $ grep proved said
  [1]
  $ rm -r ../tree/crates/forth83/out
  $ printf '#!/bin/bash\n[ "$1" != version ] || exit 0\necho "error: no proof"; exit 1\n' > ../bin/rt

A start whose proof fails:

  $ printf '5 .\n' | forth 2> said
  5 . 5  ok
  $ said 'is not proved yet'

  $ ends

The first start after it:

  $ printf '5 .\n' | forth 2> said
  5 . 5  ok
  $ said 'the proof failed: error: no proof'

  $ rm -rf ../bin/rt ../tree/build/out ../tree/crates/forth83/out; mv ../away.out ../tree/crates/forth83/out

Two first starts at once, of one file: each runs, or says that the other does or did, and the file is whole.

  $ rm forth.blk said
  $ for one in 1 2; do
  > (sleep 0.3; echo '5 .') | forth both.blk > "../$one" 2>&1 & started[one]=$!
  > done
  $ wait "${started[@]}" || true
  $ for one in 1 2; do
  > case $(cat "../$one") in
  >   $'forth: both.blk is a new file\n5 . 5  ok' | '5 . 5  ok' | *'both.blk is in use'* | *'ended as soon as it was started; try it again') ;;
  >   *) cat "../$one" ;;
  > esac
  > done
  $ ls
  both.blk
  $ stat -c %s both.blk
  65536

If another file takes the place of the blocks while a session is running, what that wrote is kept beside it, each time anew.

  $ for count in '' 2; do
  > mkfifo typed; : > shown
  > forth taken.blk < typed > shown 2> said & session=$!
  > exec 6> typed
  > printf '21 SCR ! 0 PUT MINE%s\n' "$count" >&6
  > for _ in {1..3000}; do ! grep -q ok shown || break; sleep 0.1; done
  > cp taken.blk other.blk
  > mv other.blk taken.blk
  > exec 6>&-
  > wait "$session" || echo "[$?]"
  > forth83 text "taken.blk.session$count" 21 21 | tail -n 1
  > said "is in taken.blk.session$count"
  > rm typed
  > done
  MINE
  MINE2
  $ forth83 text taken.blk 21 21
  % screen 21

Texts become a file of blocks; one that exists is left alone, and a line that does not fit is reported.

  $ blocks=../tree/commands/blocks
  $ printf '( A title )\n\n: X 5 . ;\n\nX\n' > x.txt
  $ printf '%% screen 22\n6 .\n' > y.txt
  $ $blocks x.txt y.txt x.blk
  $ stat -c %s x.blk
  65536
  $ printf '1 LOAD 22 LOAD\n' | forth x.blk
  1 LOAD 22 LOAD 5 6  ok
  $ printf x >> x.txt
  $ $blocks x.txt x.blk
  forth: x.blk: it already exists, and is left alone: name another file
  [1]
  $ printf '1 LOAD\n' | forth x.blk
  1 LOAD 5  ok
  $ printf '%065d\n' 0 > x.txt
  $ $blocks y.txt x.txt y.blk
  forth: x.txt: more than 64 bytes: line 1
  [1]
  $ [ ! -e y.blk ]

If the program is not built, the one without proofs does it.

  $ mv ../tree/crates/forth83/out/forth83 ../away && pretend_unproved
  $ $blocks y.txt y.blk
  $ rm ../tree/build/out/unproved* && mv ../away ../tree/crates/forth83/out/forth83
  $ printf '22 LOAD\n' | forth y.blk
  22 LOAD 6  ok
