Disks of other systems and texts of screens, over `import` and `export` of the launcher, and over the program alone. tests/cases/wild_cases.py makes the
disks by their own rules; kiln.dsk has the screens that are on most of them.

  $ . "$TESTDIR/lib.sh"
  $ python3 -B "$TESTDIR/../wild_cases.py" .
  $ launched() { "$TREE/forth83" "$@" 2>&1; }
  $ screen() { printf '%-64s%-960s' "$@"; }
  $ screen ': KILN 5 ;' 'KILN .' > kiln-text

A file that is known to be something else is refused as blocks, with what helps, and nothing is made. A CP/M disk that is cut short is one, too, and so is
one as an IMD.

  $ refused() {
  >   local status=0
  >   rm -f wild.blk
  >   launched import "$1" wild.blk || status=$?
  >   [ ! -e wild.blk ] || echo "$1: wild.blk is made"
  >   return $status
  > }
  $ head -c 13312 cpm.dsk > short.dsk
  $ refused cpm.dsk
  forth: cpm.dsk: it is a disk of CP/M; forth83 import --list* (glob)
  [1]
  $ refused short.dsk
  forth: short.dsk: it is a disk of CP/M; forth83 import --list* (glob)
  [1]
  $ refused fat.dsk
  forth: fat.dsk: it is a disk of DOS (FAT); forth83 import --list* (glob)
  [1]
  $ refused dos33.dsk
  forth: dos33.dsk: it is a disk of Apple DOS 3.3; forth83 import --list* (glob)
  [1]
  $ refused d64.dsk
  forth: d64.dsk: it is a disk of a Commodore 1541 (D64); forth83 import --list* (glob)
  [1]
  $ refused rt11.dsk
  forth: rt11.dsk: it is a volume of RT-11; forth83 import --list* (glob)
  [1]
  $ refused lif.dsk
  forth: lif.dsk: it is a volume of HP (LIF); forth83 import --list* (glob)
  [1]
  $ refused cpm-imd.dsk
  forth: cpm-imd.dsk: it is a disk of CP/M; forth83 import --list* (glob)
  [1]
  $ refused td0.dsk
  forth: td0.dsk: it is a Teledisk file (TD0); dsktrans of the package libdsk-utils* (glob)
  [1]
  $ refused hfe.dsk
  forth: hfe.dsk: it is the tracks of an HxC emulator (HFE); Greaseweazle's* (glob)
  [1]
  $ refused scp.dsk
  forth: scp.dsk: it is the flux of a disk (SCP)* (glob)
  [1]
  $ refused g64.dsk
  forth: g64.dsk: it is the tracks of a Commodore disk (G64)* (glob)
  [1]
  $ refused woz.dsk
  forth: woz.dsk: it is the tracks of an Apple disk (WOZ)* (glob)
  [1]
  $ refused gzip.dsk
  forth: gzip.dsk: it is compressed by gzip; gunzip* (glob)
  [1]
  $ refused atr.dsk
  forth: atr.dsk: it is a disk of an Atari (ATR); import it with --format atr* (glob)
  [1]

The program has each format that the help of `import` names.

  $ named() { launched import --help | sed -n 's/^Formats: \(.*\) and /\1 /p' | tr -d ,; }
  $ named | wc -w
  16
  $ for name in $(named); do launched import --format "$name" atr.dsk formats.blk; done | grep 'is no format'
  [1]

The files of disks are listed, and come out as they went in; a disk that needs a tool says which, if it is not installed. A name of no file makes nothing.

  $ inside() {
  >   local disk=$1 name=$2 wanted=$3 tool=$4 listed
  >   shift 4
  >   rm -f wild.blk
  >   launched import "$disk:$name" wild.blk "$@" > said
  >   listed=$(launched import --list "$disk")
  >   if [ "$tool" = none ] || command -v "$tool" > tool; then
  >     cmp "$wanted" wild.blk || cat said
  >     grep -qx "  ${name^^}" <<< "$listed" || echo "$listed"
  >   else
  >     [ ! -e wild.blk ] || echo "$disk: made without $tool"
  >     [[ $listed = *'not installed: apt install'* ]] || echo "$listed"
  >   fi
  >   rm -f wild.blk
  >   ! launched import "$disk:OTHER" wild.blk > said || cat said
  >   [ ! -e wild.blk ]
  > }
  $ inside cpm.dsk KILN.BLK kiln.dsk cpmls
  $ inside fat.dsk kiln.blk kiln.dsk mdir
  $ inside dos33.dsk KILN kiln-text none --format text
  $ inside d64.dsk KILN.FTH kiln-text none --format text
  $ inside rt11.dsk KILN.BLK kiln.dsk none
  $ inside lif.dsk KILN kiln.dsk none

Sectors of an IMD, and of a DMK, in the order of their numbers:

  $ taken() { rm -f wild.blk; launched import "$@" > said || cat said; }
  $ taken imd-skewed.dsk wild.blk
  $ cmp kiln.dsk wild.blk
  $ taken dmk.dsk wild.blk
  $ { cat kiln.dsk; printf '%2048s' ''; } | cmp - wild.blk

The program alone, without the script that calls it: files by their names, and sectors as they are.

  $ forth83 guess dos33.dsk --files
  a disk of Apple DOS 3.3
  KILN
  $ unpacked() { rm -f wild.blk; forth83 unpack "$1" wild.blk "${@:2}" 2>&1; }
  $ unpacked dos33.dsk --file kiln --format text
  $ cmp kiln-text wild.blk
  $ unpacked dos33.dsk --file OTHER
  container: it has no file OTHER; it has KILN
  [1]
  $ [ ! -e wild.blk ]
  $ unpacked dos33.dsk --offset 0
  $ cmp dos33.dsk wild.blk
  $ unpacked dos33.dsk
  container: it is a disk of Apple DOS 3.3; forth83 import --list DISK lists its files, and import DISK:NAME takes one; --offset 0* (glob)
  [1]
  $ [ ! -e wild.blk ]
  $ forth83 guess odd-name.dsk --files
  a disk of a Commodore 1541 (D64)
  KI?N?.FTH
  $ unpacked odd-name.dsk --file 'KI?N?.FTH' --format text
  $ cmp kiln-text wild.blk
  $ forth83 guess fat.dsk --files
  a disk of DOS (FAT)
  $ forth83 guess cpm.dsk --files
  a disk of CP/M
  $ forth83 guess kiln.dsk --files
  container: it is a file of sectors or text, without a directory that is known here
  [1]
  $ unpacked kiln.dsk
  $ cmp kiln.dsk wild.blk

Chains that lead to themselves end, and tracks that are cut short are refused.

  $ forth83 guess circle.dsk --files
  a disk of a Commodore 1541 (D64)
  KILN.FTH
  $ unpacked circle.dsk --file KILN.FTH > said
  $ python3 -c 'import sys; sys.stdout.write(((254 * "K" + 254 * "L") * 1000).ljust(508928))' | cmp - wild.blk
  $ for what in size head numbers; do unpacked imd-$what.dsk; [ ! -e wild.blk ]; done
  container: it is an ImageDisk file (IMD), but it is damaged: one of its sectors is cut short, or has a size that is not known
  container: it is an ImageDisk file (IMD), but it is damaged: one of its sectors is cut short, or has a size that is not known
  container: it is an ImageDisk file (IMD), but it is damaged: one of its sectors is cut short, or has a size that is not known
  $ cp imd.dsk before.dsk
  $ forth83 pack kiln.dsk imd.dsk
  container: it is an ImageDisk file (IMD), which is read only
  [1]
  $ cmp before.dsk imd.dsk
  $ unpacked imd.dsk | head -n 1
  imd.dsk is an ImageDisk file (IMD); its sectors are taken in the order of their numbers

The order of a disk's sectors is found by its screens, and so are its sides; cards and wide screens have a width.

  $ launched import --guess skewed.dsk | head -n 1
  --format blocks --offset 2560 --sector 256 --skew 1,4,7,10,3,6,9,2,5,8    (* (glob)
  $ launched import skewed.dsk other.blk | grep -c 'reads better in another order of its sectors'
  1
  $ launched import screens.dsk same.blk | grep -c 'reads better in another order of its sectors'
  0
  [1]
  $ launched import --guess two-sides.dsk | head -n 1
  --format blocks --sides 2560    (* (glob)
  $ taken two-sides.dsk wild.blk --sides 2560
  $ cmp screens.dsk wild.blk
  $ rm wild.blk
  $ launched import two-sides.dsk wild.blk --sides 2561
  *are not two sides of tracks of 2561 bytes* (glob)
  [1]
  $ [ ! -e wild.blk ]
  $ taken wide.dsk wild.blk --width 80 --lines 24
  $ cmp kiln.dsk wild.blk
  $ taken cards.dsk wild.blk --width 80 --columns 72 --ebcdic
  $ cmp kiln.dsk wild.blk
  $ { head -c 80 /dev/zero | tr '\0' x; printf '%1840s' ''; } > long.dsk
  $ rm wild.blk
  $ launched import long.dsk wild.blk --width 80 --lines 24
  *line 0 has 80 characters*INCLUDE* (glob)
  [1]
  $ [ ! -e wild.blk ]
  $ taken high-bits.dsk wild.blk --format text --clean
  $ cmp kiln-text wild.blk

Two volumes in one file:

  $ launched import two.dsk both.blk
  $ launched import three.dsk both.blk --append
  forth: both.blk has them as screens 2 to 4
  $ cat two.dsk three.dsk | cmp - both.blk
  $ cp three.dsk back.dsk
  $ launched export both.blk back.dsk --first 2
  $ cmp three.dsk back.dsk

A file that a dialect made longer goes back to its container, but not one with more screens:

  $ launched import two.dsk longer.blk
  $ launched screens "$TREE/screens/dialects/fig.txt" longer.blk
  $ cp two.dsk back.dsk
  $ launched export longer.blk back.dsk > said
  $ cmp two.dsk back.dsk
  $ cat three.dsk >> longer.blk
  $ launched export longer.blk back.dsk
  *it has room for 2 screens, but there are* (glob)
  [1]
  $ cmp two.dsk back.dsk

A text ends at ^Z; a line that is too long is named.

  $ printf '( One )\r\n: ONE 1 ;\r\n\032\032' > ended.txt
  $ launched screens ended.txt ended.blk
  $ { printf '%1024s' ''; screen '( One )' ': ONE 1 ;'; } | cmp - ended.blk
  $ head -c 65 /dev/zero | tr '\0' x > wide.txt
  $ launched import wide.txt wide.blk --format text
  forth: wide.txt: screen 0 line 0 has 65 characters, but only 64 fit; as a text* (glob)
  [1]
