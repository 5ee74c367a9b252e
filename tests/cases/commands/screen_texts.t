Texts that `screens` takes and refuses, bytes that `text` writes as escapes, and files of blocks that are new or exist already.
tests/trials/check-screen-text tries random texts.

  $ . "$TESTDIR/lib.sh"

This text goes into a file of blocks, which stays as it was if the text is refused.

  $ takes() {
  >   printf %b "$1" > text
  >   head -c 4096 /dev/zero | tr '\0' '#' > blocks
  >   cp blocks before
  >   forth83 screens text blocks || { status=$?; cmp blocks before; return $status; }
  > }

Lines of up to 64 bytes, and longer ones; tabs go to the next multiple of 8:

  $ takes '% screen 3\nxxxxxxxxxxxxxxxxxxxxxxxxxxxxxxxxxxxxxxxxxxxxxxxxxxxxxxxxxxxxxxxxx'
  line 2: LongLine
  [1]
  $ takes '% screen 3\n%%xxxxxxxxxxxxxxxxxxxxxxxxxxxxxxxxxxxxxxxxxxxxxxxxxxxxxxxxxxxxxxx'
  $ takes '% screen 3\n%%xxxxxxxxxxxxxxxxxxxxxxxxxxxxxxxxxxxxxxxxxxxxxxxxxxxxxxxxxxxxxxxx'
  line 2: LongLine
  [1]
  $ takes '% screen 3\nxxxxxxxxxxxxxxxxxxxxxxxxxxxxxxxxxxxxxxxxxxxxxxxxxxxxxxxxxxxxxxxx   '
  $ takes '% screen 3\n\t\t\t\t\t\t\txxxxxxxxx'
  line 2: LongLine
  [1]

Screens of up to 16 lines, and longer ones:

  $ takes '% screen 3\n\n\n\n\n\n\n\n\n\n\n\n\n\n\n\n\n'
  $ takes '% screen 3\n\n\n\n\n\n\n\n\n\n\n\n\n\n\n\n\n\n'
  line 18: FullScreen
  [1]
  $ takes '% screen 3\n\n\n\n\n\n\n\n\n\n\n\n\n\n\n\n\nx'
  line 18: FullScreen
  [1]

Headings, and what only looks like one:

  $ takes '% screen 3\nx\n% screen 4\n% screen 3\n'
  line 4: NamedTwice
  [1]
  $ takes '% screen 65536\n'
  line 1: BadHeading
  [1]
  $ takes '% screen 99999999999999999999\n'
  line 1: BadHeading
  [1]
  $ takes '% screen 03\n'
  line 1: BadHeading
  [1]
  $ takes '% screen -1\n'
  line 1: BadHeading
  [1]
  $ takes '% screen\n'
  line 1: BadHeading
  [1]
  $ takes '% screen 3 x\n'
  line 1: BadHeading
  [1]
  $ takes '% Screen 3\n'
  line 1: BadHeading
  [1]
  $ takes '% screen 3\n%\n'
  line 2: BadHeading
  [1]
  $ takes '% screen 3\n % screen 9\n'
  $ takes 'x\n% screen 3\n'
  line 2: LateHeading
  [1]
  $ takes '\n% screen 3\n'
  line 2: LateHeading
  [1]

Bytes that are no text:

  $ takes '% screen 3\na\x00b'
  line 2: BadByte 0
  [1]
  $ takes '% screen 3\na\x1fb\x02'
  line 2: BadByte 31
  [1]
  $ takes '% screen 3\n\ta\x7fb'
  line 2: BadByte 127
  [1]
  $ takes '% screen 3\na\rb\n'
  line 2: BadByte 13
  [1]
  $ takes '% screen 3\na\r'
  line 2: BadByte 13
  [1]
  $ takes '% screen 3\ngr\xc3\xbcn\n'
  line 2: BadByte 195
  [1]

Lines with escapes:

  $ takes '% screen 3\n%~a~00~7E~FFb\n'
  $ takes '% screen 3\n%~'"$(printf '~41%.0s' {1..64})"
  $ takes '% screen 3\n%~~41'"$(printf '~41%.0s' {1..64})"
  line 2: LongLine
  [1]
  $ takes '% screen 3\n%~\n'
  $ takes '% screen 3\n%~~\n'
  line 2: BadEscape
  [1]
  $ takes '% screen 3\n%~a~4\n'
  line 2: BadEscape
  [1]
  $ takes '% screen 3\n%~a~4g\n'
  line 2: BadEscape
  [1]
  $ takes '% screen 3\n%~a~ab\n'
  line 2: BadEscape
  [1]
  $ takes '% screen 3\n%~a~ 41\n'
  line 2: BadEscape
  [1]
  $ takes '% screen 3\n%~a\x00\n'
  line 2: BadByte 0
  [1]
  $ takes '%~a~00b\n'
  $ takes ''

A line for screen 65536:

  $ { head -c 1048560 /dev/zero | tr '\0' '\n'; echo x; } > text
  $ forth83 screens text blocks
  line 1048561: NoScreen
  [1]

Each byte that is no text is written as an escape, and comes back. What differs is printed.

  $ for byte in {0..31} {127..255}; do
  >   hex=$(printf %02X "$byte")
  >   { printf %1351s; printf "\x$hex"; printf %248s; printf "\x$hex"; printf %447s; } > f.blk
  >   printf '%% screen 0\n%% screen 1\n\n\n\n\n\n%%~       ~%s\n\n\n\n%%~~%s\n' "$hex" "$hex" > wanted
  >   forth83 text f.blk 0 1 | cmp - wanted
  >   rm -f again
  >   forth83 screens wanted again
  >   cmp f.blk again
  > done
  $ forth83 text f.blk 2 2
  screen 2 line 0: Device
  [1]
  $ forth83 text f.blk 1 0

A new file of blocks:

  $ forth83 new g.blk 3
  $ printf %3072s | cmp - g.blk
  $ forth83 new n.blk 65537 > shown 2>&1
  [2]
  $ [ ! -e n.blk ]

A file that is reached by a link: the link, the permissions and what is after the last block stay.

  $ printf '%% screen 0\nx\n' > text
  $ { printf %3072s; printf rest; } > g.blk && chmod 640 g.blk && ln -s g.blk link
  $ forth83 screens text link
  $ [ -L link ]
  $ { printf %-3072s x; printf rest; } | cmp - g.blk
  $ stat -c %a g.blk
  640

What exists is not written over by `new`, and what is no file is refused.

  $ cp g.blk kept && mkdir room
  $ forth83 new g.blk 3
  error: g.blk already exists
  [2]
  $ cmp g.blk kept
  $ forth83 new link 3 > shown
  [2]
  $ forth83 new room 3
  error: room already exists
  [2]
  $ forth83 new no/x.blk 3
  cannot open no/x.blk
  [1]
  $ forth83 screens none g.blk
  cannot open none
  [1]
  $ forth83 screens text no/x.blk > shown
  [1]
  $ forth83 screens text room > shown
  [1]
  $ forth83 screens text /dev/null > shown
  [1]

A file that may only be read is refused. (Root may write it all the same.)

  $ chmod 440 g.blk
  $ [ "$(id -u)" = 0 ] || { forth83 screens text g.blk > shown; [ $? = 1 ]; }
  $ ls | grep forth83-new
  [1]
