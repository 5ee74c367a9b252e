Files of each format in examples/formats, which version 1.0.0 wrote, and what is done with them. What each of them must do was worked out by hand;
docs/FORMATS.md says it. The library's record is tried by tests/targets/check-targets.

  $ . "$TESTDIR/lib.sh"
  $ cp "$EXAMPLES"/formats/* .

Images of versions 1 and 2:

  $ forth83 run image-1.img blocks.blk < /dev/null
  Hi (no-eol)
  $ forth83 run image-2.img blocks.blk < /dev/null
  Hi (no-eol)
  $ forth83 view image-1.img ASK
  1
  $ forth83 view image-2.img ASK
  1
  $ forth83 see image-1.img ASK
  : ASK KEY EMIT KEY 1+ EMIT BYE ;
  $ forth83 see image-2.img ASK
  : ASK KEY EMIT KEY 1+ EMIT BYE ;
  $ forth83 debug image-1.img GO got.txt blocks.blk < /dev/null
  Hi (no-eol)
  $ cmp trace.txt got.txt
  $ forth83 debug image-2.img GO got.txt blocks.blk < /dev/null
  Hi (no-eol)
  $ cmp trace.txt got.txt
  $ forth83 upgrade image-1.img upgraded.img --buffers 4 > shown
  $ cmp image-2.img upgraded.img

Blocks and texts:

  $ forth83 text blocks.blk 0 2 | cmp - screens.txt
  $ forth83 screens screens.txt got.blk
  $ cmp blocks.blk got.blk
  $ cmp "$EXAMPLES/formats/blocks.blk" blocks.blk

A version that is not known is refused, and not taken for another one.

  $ { head -c 8 image-2.img && printf '\3\0' && tail -c +11 image-2.img; } > image-3.img
  $ forth83 run image-3.img < /dev/null
  image: BadVersion
  [1]
