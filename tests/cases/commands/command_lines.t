What the launcher takes: files of blocks, texts, options; what it refuses; output that cannot be written; kernels of one's own.

  $ . "$TESTDIR/lib.sh"
  $ mkdir home && cd home && ln -s "$TREE" ../tree
  $ forth83 new forth.blk 64
  $ printf '21 SCR ! 0 PUT 6 7 * .\n' | forth
  21 SCR ! 0 PUT 6 7 * .  ok
  $ head -c 2048 /dev/zero | tr '\0' ' ' > small.blk

A block file without a kernel:

  $ printf '1 BLOCK C@ .\n2 BLOCK\n' | forth small.blk
  1 BLOCK C@ . 32  ok
  2 BLOCK\x20 (esc)
  there is no screen 2 in small.blk; it has 0 to 1 (fault 9) at BLOCK
  line 2
  2 BLOCK
    ^
  forth: a fault stopped the script
  [3]

A wiped screen 1:

  $ printf '1 SCR ! WIPE FLUSH\n' | forth
  1 SCR ! WIPE FLUSH  ok

A start after screen 1 was wiped:

  $ printf '21 LOAD\n' | forth
  21 LOAD 42  ok

Help:

  $ forth --help 2> said | sed -n '1s/ \[.*//p'
  usage: ./forth
  $ forth -h 2> said | sed -n '1s/ \[.*//p'
  usage: ./forth

An option that does not exist:

  $ forth --nothing < /dev/null
  * (glob)
  *usage* (glob)
  [2]

A minus:

  $ forth - < /dev/null
  * (glob)
  *usage* (glob)
  [2]

Two files:

  $ forth a b < /dev/null
  * (glob)
  *usage* (glob)
  [2]

No name:

  $ forth '' < /dev/null
  * (glob)
  *usage* (glob)
  [2]

A long name:

  $ forth "$(printf 'x%.0s' {1..9999})" < /dev/null
  *the name xxxxxxxxxxxxxxxx.. has 9999 bytes* (glob)
  [1]

A name that begins with a minus:

  $ printf '5 .\n' | forth ./-own
  forth: ./-own is a new file
  5 . 5  ok

A file that is named like a command:

  $ printf '5 .\n' | forth ./film 2> said
  5 . 5  ok
  $ said 'film is a new file'

  $ rm film

A command after an option:

  $ printf '5 .\n' | forth --unproved film
  *the following arguments are required: NAME* (glob)
  [2]

A command after an option and its value:

  $ forth --kernel-of small.blk film.fs --kernel < /dev/null
  *a text cannot be used with --kernel* (glob)
  *usage* (glob)
  [2]

Options after a file:

  $ forth small.blk -e '5 .' --no-start < /dev/null
  5  (no-eol)

An argument that is named like an option:

  $ forth -e 'PAD 20 0 ARGUMENT DROP .' -- --version < /dev/null
  9  (no-eol)

--version and a file:

  $ forth small.blk --version < /dev/null
  *--version takes no other option and no file* (glob)
  *usage* (glob)
  [2]

--status and an option:

  $ forth --unproved --status < /dev/null
  *--status takes no other option and no file* (glob)
  *usage* (glob)
  [2]

A device that does not exist:

  $ forth small.blk --speed 9600 --on ./none < /dev/null
  *there is no ./none* (glob)
  [1]

--on without a device:

  $ forth --on < /dev/null
  *--on wants a device* (glob)
  [2]

--on and what is no line, or has no such speed:

  $ : > file
  $ forth --on file < /dev/null
  forth: file is no device
  [1]
  $ forth --on /dev/null < /dev/null
  forth: /dev/null is no terminal, or is in use by another program
  [1]
  $ forth --on /dev/tty --speed fast < /dev/null
  forth: --speed wants a number, as 9600
  [2]
  $ rm file

A command's help, before it:

  $ forth --help where < /dev/null
         ./forth where IMAGE [BLOCKS]          runs an image, and shows which words led to its fault

Hints that there are not:

  $ forth course --hints 99 < /dev/null
  *there are no hints for lesson 99* (glob)
  [1]

The course and two files:

  $ forth course a b < /dev/null
  *course takes no more than* (glob)
  *usage* (glob)
  [2]

Nothing to look at:

  $ forth where < /dev/null
  *where needs an IMAGE* (glob)
  *usage* (glob)
  [2]

A folder:

  $ forth .. < /dev/null
  *.. is a folder* (glob)
  [1]

A folder that does not exist:

  $ forth none/a.blk < /dev/null
  *there is no folder none* (glob)
  [1]

A device:

  $ forth /dev/null < /dev/null
  *not a file of blocks* (glob)
  [1]

The files that were made:

  $ rm said; find . -type f | sort
  ./-own
  ./forth.blk
  ./small.blk

A file in use, if the system has flock:

  $ { flock -n 8; forth small.blk < /dev/null; } 8<> small.blk
  *small.blk is in use* (glob)
  [1]

A file and a folder that are read-only, which root may write:

  $ mkdir sealed && cp small.blk sealed/a.blk && chmod 555 sealed sealed/a.blk
  $ refused() { [ -w sealed ] || { forth "$1" < /dev/null 2> said; [ $? = 1 ] && said "$2"; }; }
  $ refused sealed/a.blk 'it is read-only'
  $ refused sealed/b.blk 'the folder sealed cannot be written'
  $ chmod 755 sealed

Text files and words of the command line are loaded before the input, or in its place.

  $ printf '#!/usr/bin/env -S forth --quiet\n: SQ DUP * ;' > sq.fs
  $ printf '5 SQ .\n1 FOO\n' > foo.fs

Words:

  $ forth -e '1 2 + .' -e '7 .' < /dev/null
  3 7  (no-eol)

A text and words:

  $ forth sq.fs -e '5 SQ .' < /dev/null
  25  (no-eol)

A text and a script:

  $ printf '6 SQ .\n' | forth sq.fs
  : SQ DUP * ;  ok
  6 SQ . 36  ok

A text without its input:

  $ printf '6 SQ .\n' | forth --quiet sq.fs

A fault in a text:

  $ forth --quiet sq.fs foo.fs < /dev/null
  25\x20 (esc)
  FOO is unknown (fault 13)
  foo.fs:2:3
  1 FOO
    ^
  forth: a fault stopped the script
  [3]

A text that does not exist:

  $ forth none.fs < /dev/null
  *cannot read none.fs: No such file or directory* (glob)
  [1]

No words:

  $ forth -e < /dev/null
  *needs some words* (glob)
  *usage* (glob)
  [2]

A text and an image:

  $ forth --image own.img sq.fs < /dev/null
  *own.img starts with the Forth* (glob)

  $ rm own.img; printf '1 .\n%.0s' {1..512} > exact

A text of whole blocks:

  $ forth exact < /dev/null
  *has line ends, as a text* (glob)
  [1]


Output that cannot be written ends the session with status 5 and one sentence; a reader that leaves needs none.

  $ forth -e '1 .' -e '2 .' > /dev/full < /dev/null
  forth: cannot write the output: No space left on device
  [5]
  $ forth -e '1 .' >&- < /dev/null
  forth: cannot write the output: Bad file descriptor
  [5]
  $ (forth -e ': MANY 30000 0 DO I . LOOP ; MANY' < /dev/null; echo $? > status) | head -c 5 > shown
  $ cat status
  5

A kernel of one's own, built or refused.

  $ forth83 kernel own.blk
  $ printf '( 99  my own ' | dd of=own.blk bs=64 seek=$((17 * 16)) conv=notrunc status=none
  $ printf ': SPACE 46 EMIT ;         ' | dd of=own.blk bs=64 seek=$((17 * 16 + 2)) conv=notrunc status=none

A kernel of one's own:

  $ printf '5 .\n' | forth --kernel-of own.blk
  5 . 5. ok

A kernel for another file:

  $ printf '1 BLOCK DROP 5 .\n' | forth --kernel-of own.blk small.blk
  1 BLOCK DROP 5 . 5. ok

  $ printf '  FOO BAR' | dd of=own.blk bs=64 seek=$((18 * 16 + 3)) conv=notrunc status=none

A kernel that is refused:

  $ printf '5 .\n' | forth --kernel-of own.blk 2> said
  [1]
  $ grep -A 1 '^own.blk' said
  own.blk: screen 18, line 3, column 2: Unknown
    FOO BAR* (glob)

How the kernel comes back:

  $ tail -n 1 said
  *dd if=new.blk of=own.blk bs=1024 skip=1 seek=1 count=20 conv=notrunc (glob)

The program's kernel then:

  $ printf '5 .\n' | forth own.blk
  5 . 5  ok

No kernel to build:

  $ forth --kernel-of nothing < /dev/null
  *nothing: it does not exist, or cannot be read: name a file of blocks* (glob)
  [1]

No kernel named:

  $ forth --kernel-of < /dev/null
  * (glob)
  *usage* (glob)
  [2]

