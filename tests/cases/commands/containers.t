Containers that `import` and `export` refuse, and files that they do not write over. tests/trials/check-containers tries random good ones.

  $ . "$TESTDIR/lib.sh"
  $ bytes() { head -c "$2" /dev/zero | tr '\0' "$1"; }
  $ bytes '!' 1024 > screen
  $ lines() { for _ in {1..16}; do bytes x 64; echo; done; }

The container `bad` is refused by both, with these words. No blocks are made, and it stays as it was.

  $ refused() {
  >   cp bad before
  >   forth83 import bad c.blk "$@" > in
  >   status=$?
  >   forth83 export screen bad "$@" > out
  >   [ $? = $status ] && cmp in out && cmp bad before && [ ! -e c.blk ] && cat in
  >   return $status
  > }

Each byte, made text by --clean: without its high bit, and a blank where that is no text.

  $ for byte in {0..255}; do printf "\\$(printf %o "$byte")"; done > bytes && cat bytes bytes bytes bytes > all
  $ forth83 import --clean all all.blk
  $ low=$(for byte in {32..126}; do printf "\\$(printf %o "$byte")"; done)
  $ half() { printf '%32s' ''; printf '%s ' "$low"; }
  $ { half; half; half; half; half; half; half; half; } | cmp - all.blk
  $ forth83 text all.blk 0 0 > shown

A container that ends too early:

  $ bytes '#' 13313 > bad
  $ refused --format cpm8
  container: CutShort
  [1]
  $ bytes '#' 14336 > bad
  $ refused --format cpm8
  container: CutShort
  [1]
  $ bytes '#' 1023 > bad
  $ refused
  container: CutShort
  [1]
  $ bytes '#' 1025 > bad
  $ refused
  container: CutShort
  [1]
  $ bytes '#' 0 > bad
  $ refused
  container: CutShort
  [1]
  $ bytes '#' 1024 > bad
  $ refused --offset 1025
  container: CutShort
  [1]
  $ bytes '#' 3072 > bad
  $ refused --format f83
  container: CutShort
  [1]
  $ bytes '#' 512 > bad
  $ refused --sector 512
  container: CutShort
  [1]
  $ lines | head -c -1 > bad
  $ refused --format lines-lf
  container: CutShort
  [1]

A line without its ending:

  $ { lines | head -c -1; printf x; } > bad
  $ refused --format lines-lf
  container: NoEnding 15
  [1]
  $ lines | sed '1{N;s/\n/\r/}' > bad
  $ refused --format lines-lf
  container: NoEnding 0
  [1]
  $ bytes '#' 1040 > bad
  $ refused --format lines-lf
  container: NoEnding 0
  [1]
  $ bytes '#' 1056 > bad
  $ refused --format lines-crlf
  container: NoEnding 0
  [1]

Sectors of a size that does not divide 1024:

  $ bytes '#' 3072 > bad
  $ refused --sector 0
  container: BadSector
  [1]
  $ refused --sector 100
  container: BadSector
  [1]
  $ refused --sector 768
  container: BadSector
  [1]
  $ refused --sector 2048
  container: BadSector
  [1]

An order of sectors that repeats one, or leaves some out:

  $ bytes '#' 13312 > bad
  $ refused --sector 128 --skew 1,1
  container: BadSkew
  [1]
  $ refused --sector 128 --skew 0,2
  container: BadSkew
  [1]
  $ refused --sector 128 --skew 1,2,4
  container: BadSkew
  [1]
  $ refused --sector 128 --skew 0,1,65535
  container: BadSkew
  [1]

Screens that do not fit, or end too early; the container stays as it was.

  $ bytes '#' 2048 > bad && cp bad before
  $ bytes '!' 3072 > kept && forth83 export kept bad
  container: NoRoom
  [1]
  $ bytes '!' 1000 > kept && forth83 export kept bad
  container: CutBlock
  [1]
  $ bytes '!' 1025 > kept && forth83 export kept bad
  container: CutBlock
  [1]
  $ cmp bad before

Too many screens:

  $ : > bad && truncate -s $((65537 * 1024)) bad
  $ forth83 import bad c.blk
  container: TooLarge
  [1]

Words that are wrong:

  $ forth83 import bad c.blk --sector x > shown 2>&1
  [2]
  $ forth83 import bad c.blk --sector 70000 > shown 2>&1
  [2]
  $ forth83 import bad c.blk --skew 1,x > shown 2>&1
  [2]
  $ forth83 import bad c.blk --offset -1 > shown 2>&1
  [2]
  $ forth83 import bad c.blk --format > shown 2>&1
  [2]
  $ forth83 import bad c.blk --format tape
  error: tape is no format; docs/OLD-SOURCES.md has them all
  [2]

Files that exist, or do not:

  $ bytes '#' 1024 > d && printf mine > d.blk
  $ forth83 import d d.blk
  error: d.blk already exists
  [2]
  $ cat d.blk
  mine (no-eol)
  $ forth83 import none e.blk
  cannot open none
  [1]
  $ forth83 export none d
  cannot open none
  [1]
  $ forth83 export d d
  error: the blocks and the container are the same file
  [2]
  $ ls | grep forth83-new
  [1]

Of several orders of a disk's sectors that look equally like sources the plainest is shown first: a file of blocks is one.

  $ forth83 new plain.blk 64
  $ forth83 screens "$TREE/examples/gold.txt" plain.blk
  $ forth83 guess plain.blk | head -n 1
  --format blocks    (*) (glob)
