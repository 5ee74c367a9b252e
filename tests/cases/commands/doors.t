The ways in which the Forth runs without a terminal: in a pipe, with --quiet, with the kernel alone.

What is right is shown as the kernel alone shows it; the tools' words exist, too.

  $ . "$TESTDIR/lib.sh"
  $ printf ': SQ DUP * ;\n5 SQ .\n\n: X 1\n  2 + ;  ( two lines )\nX . .( text)\n1 2 3\n. . .\nPAD 9 EXPECT\nAda\nPAD 3 TYPE\nKEY .\nA 7 .\nBYE\n5 .\n' > typed

A script:

  $ forth < typed
  forth: forth.blk is a new file
  : SQ DUP * ;  ok
  5 SQ . 25  ok
    ok
  : X 1\x20 (esc)
    2 + ;  ( two lines )  ok
  X . .( text) 3 text ok
  1 2 3  ok 3
  . . . 3 2 1  ok
  PAD 9 EXPECT Ada  ok
  PAD 3 TYPE Ada ok
  KEY . 65  ok
   7 . 7  ok
  BYE  (no-eol)

The same with the kernel alone:

  $ forth --kernel < typed
  : SQ DUP * ;  ok
  5 SQ . 25  ok
    ok
  : X 1\x20 (esc)
    2 + ;  ( two lines )  ok
  X . .( text) 3 text ok
  1 2 3  ok
  . . . 3 2 1  ok
  PAD 9 EXPECT Ada  ok
  PAD 3 TYPE Ada ok
  KEY . 65  ok
   7 . 7  ok
  BYE  (no-eol)

The same with --quiet, which shows nothing else:

  $ forth --quiet < typed
  25 3 text3 2 1 Ada65 7  (no-eol)

Words of the tools:

  $ printf ': x 0 ?do i . loop ; \\ counts\n3 x 0 x\n: y case 1 of ." one" endof ." more" endcase ;\n1 y 2 y\n1 2 .s\n' | forth
  : x 0 ?do i . loop ; \ counts  ok
  3 x 0 x 0 1 2  ok
  : y case 1 of ." one" endof ." more" endcase ;  ok
  1 y 2 y onemore ok
  1 2 .s 1 2  ok 2

Redefinitions:

  $ printf ': DUP ;\nWARNING ON : DUP ;\n' | forth
  : DUP ;  ok
  WARNING ON : DUP ; DUP is redefined  ok

No line:

  $ forth < /dev/null

The same with --quiet:

  $ forth --quiet < /dev/null

  $ rm forth.blk

A screen, with --quiet and without a file of blocks:

  $ printf '5 .\n1 LIST\n' | forth --quiet
  5\x20 (esc)
  there is no screen 1 in this session, which has no file of blocks (fault 9) at LIST
  line 2
  1 LIST
    ^
  forth: a fault stopped the script
  [3]

No file of blocks was made:

  $ [ ! -e forth.blk ]

Lines as editors and other systems leave them.

  $ printf -v most %124s

A last line without a return:

  $ printf '3 4 + .' | forth
  forth: forth.blk is a new file
  3 4 + . 7  ok

Two lines, the last without a return, with --quiet:

  $ printf '3 4 + .\n5 .' | forth --quiet
  7 5  (no-eol)

The same with the kernel alone:

  $ printf '3 4 + .' | forth --kernel
  3 4 + .7  ok

Returns and line feeds:

  $ printf '5 .\r\n\t6 .\r\n' | forth
  5 . 5  ok
   6 . 6  ok

Returns alone:

  $ printf '5 .\r6 .\r' | forth --quiet
  5 6  (no-eol)

Tabs in words:

  $ printf '3\t4\t+\t.\n' | forth --quiet
  7  (no-eol)

Bytes after a line that a return ended:

  $ printf 'KEY . KEY . KEY . KEY .\r\nA\n\rB' | forth --quiet
  65 10 13 66  (no-eol)

127 characters:

  $ printf "5${most} .\n" | forth --quiet
  5  (no-eol)

128 characters:

  $ printf "5 .\r6${most}  .\n" | forth --quiet
  5 6  (no-eol)

Lines of more than 127 characters: each word of them counts, and a fault names the column.

  $ printf -v many '7 DROP %.0s' {1..40}; printf -v most %1020s

A long line:

  $ printf ": A ${many}8 ; A .\n" > typed
  $ forth < typed > shown
  $ printf '%s 8  ok\n' "$(cat typed)" | cmp - shown

A long comment and a long text:

  $ printf "( ${many}) .( ${many:0:123}) 9 . \\\\ ${many}\n" | forth --quiet > shown
  $ printf "${many:0:123}9 " | cmp - shown

A long text:

  $ printf "1 DROP .( ${many}) 9 .\n" | forth --quiet > shown
  $ printf "${many}9 " | cmp - shown

A fault in a long line:

  $ printf "1 DROP\n${many}FOO 3 .\n" | forth --quiet
  FOO is unknown (fault 13)
  line 2, column 281
   7 DROP 7 DROP 7 DROP 7 DROP 7 DROP 7 DROP 7 DROP FOO 3 .
                                                    ^
  forth: a fault stopped the script
  [3]

A name and words in lower case:

  $ printf "${many}: six 6 ; ${many}six .\n" | forth --quiet
  6  (no-eol)

1024 characters:

  $ printf "5 ${most} .\n" | forth --quiet
  5  (no-eol)

  $ printf -v many '7 DROP %.0s' {1..147}

1025 characters:

  $ printf "1 DROP\n${many:0:1025}\n" | forth --quiet
  line 2, column 1025: a line may have 1024 bytes; split it
  forth: a fault stopped the script
  [3]

The message about an unknown word names the dialects that have it.

A hint for 3DUP:

  $ printf '3DUP\n' | forth --quiet
  3DUP is unknown; screens/dialects/f83.txt has it (fault 13)
  line 1
  3DUP
  ^
  forth: a fault stopped the script
  [3]

A hint for 3dup:

  $ printf '3dup\n' | forth --quiet
  3dup is unknown; screens/dialects/f83.txt has it (fault 13)
  line 1
  3dup
  ^
  forth: a fault stopped the script
  [3]

A hint for DLITERAL:

  $ printf 'DLITERAL\n' | forth --quiet
  DLITERAL is unknown; screens/dialects/fig.txt and f83.txt have it (fault 13)
  line 1
  DLITERAL
  ^
  forth: a fault stopped the script
  [3]

A hint for B/BUF:

  $ printf 'B/BUF\n' | forth --quiet
  B/BUF is unknown; screens/dialects/fig.txt, f79.txt, f83.txt and poly.txt have it (fault 13)
  line 1
  B/BUF
  ^
  forth: a fault stopped the script
  [3]

A hint for VLIST:

  $ printf 'VLIST\n' | forth --quiet
  VLIST is unknown; screens/dialects/fig.txt, f79.txt and f83.txt have it (fault 13)
  line 1
  VLIST
  ^
  forth: a fault stopped the script
  [3]

A hint for NO-SUCH-WORD:

  $ printf 'NO-SUCH-WORD\n' | forth --quiet
  NO-SUCH-WORD is unknown (fault 13)
  line 1
  NO-SUCH-WORD
  ^
  forth: a fault stopped the script
  [3]

Options that the launcher refuses, and how it names them.

An unknown option:

  $ forth --quite own.blk < /dev/null 2> said
  [2]
  $ said 'forth: there is no option --quite'

An option after the blocks:

  $ printf '7 .' | forth own.blk --quiet
  forth: own.blk is a new file
  7  (no-eol)

Two options that exclude each other:

  $ forth --quiet --kernel < /dev/null 2> said
  [2]
  $ said 'forth: --quiet and --kernel cannot be used together'

One option twice:

  $ printf '7 .' | forth --quiet --quiet
  7  (no-eol)

On a busy machine the sums of the sources take longer. If the program without proofs exists, nothing is built, and the launcher does not
report a build.

  $ copy_tree busy && rm busy/crates/forth83/out/proved && mkdir -p slow busy/build/out
  > cp "$(command -v forth83)" busy/build/out/unproved && busy/build/sources sum > busy/build/out/unproved.sum
  > printf "#!/bin/bash\nsleep 1\nexec $(command -v sha256sum) \"\$@\"\n" > slow/sha256sum && chmod +x slow/sha256sum

  $ PATH=$PWD/slow:$PATH busy/forth --unproved --quiet <<< "1 2 + ."
  forth: UNPROVED: nothing is proved about this program; ./forth --proved proves and builds it first.
  3  (no-eol)
