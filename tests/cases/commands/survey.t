What `./forth survey` says of files of blocks, by docs/OLD-SOURCES.md. tests/sessions/check-old-sources has programs of known dialects.

  $ . "$TESTDIR/lib.sh"
  $ new() { printf '%b' "$1" > text; rm -f t.blk; forth83 screens text t.blk; }
  $ survey() { forth survey t.blk "$@" > said; }
  $ unsaid() { if grep -F -- "$1" said; then return 1; fi; }

A file of F83 with shadows, data, a screen that is twice there, a CASE of its own, and words that nobody knows:

  $ prose='this word heats the kiln until somebody stops it by hand\nand never more than that, says the manual\n'
  $ new '% screen 0\n\\ The kiln\nDEFER ALARM  : HEAT ( n -- ) FIRE DUP . ;\n% screen 1\n\\ More\n: COOL 0 HEAT FIRE ; ONLY FORTH ALSO
  > % screen 2\n\\ The pump\n: PUMP 1 HEAT ;\n: CASE ; : OF ; : ENDOF ; : ENDCASE ;\n: FAR &17 -&60 %101 -$1F ;
  > % screen 4\n'"$prose"'% screen 5\n'"$prose"'% screen 6\nthe pump runs while the well has water\n% screen 7\n'
  $ for byte in {0..255}; do printf "\\$(printf %o "$byte")"; done > bytes
  $ cat bytes bytes bytes bytes | dd of=t.blk bs=1024 seek=3 conv=notrunc status=none
  $ survey
  $ grep -E '^(t.blk|source|shadow|data|blank|the same|dialect)' said
  t.blk: 8 screens
  source       3  0-2
  shadow       3  4-6
  data         1  3
  blank        1  7
  the same: 4 = 5
  dialect: F83, surely* (glob)
  $ grep '^  FIRE ' said
    FIRE +2  screen 0 line 1 (re)
  $ said 'screen 2 defines CASE OF ENDOF ENDCASE, which the Forth has'
  $ unsaid '&17'; unsaid '-&60'; unsaid '%101'; unsaid '-$1F'
  $ survey 1 2; said 't.blk: 2 screens'
  $ forth survey t.blk | true

What is refused:

  $ refused() { forth survey "$@" > said 2>&1; }
  $ forth83 kernel k && forth83 build k 1 20 image > /dev/null && printf x > odd
  $ refused none; said 'cannot read none'
  $ refused image; said 'is an image'
  $ refused odd; said 'not a whole number of blocks'
  $ refused t.blk 9 9; said 'has screens 0 to 7'
  $ refused t.blk 1; said 'usage:'
  $ refused t.blk --over none; said 'cannot read none'
  $ refused t.blk --over t.blk; said 'is not an image'

Titles that are some lines too low, and a sector that was not read:

  $ part() { printf '%% screen %s\n( Part %s )\n: PART%s ( n -- n ) %s + DUP -DUP ;\n0 VARIABLE LEVEL\n' "$1" "$1" "$1" "$1"; }
  $ new "$(for n in {0..5}; do part $n; done)" && cp t.blk six.blk
  $ survey; unsaid 'titles are on line'
  $ { printf '%128s' ''; head -c -128 six.blk; } > t.blk
  $ survey; said 'titles are on line 2'; said '--offset 128 more'
  $ head -c 2048 six.blk > t.blk; dd if=/dev/zero of=t.blk bs=128 count=1 seek=9 conv=notrunc status=none
  $ survey; said 'screen 1 has 128 NULs or more from line 2'

Letters with a high bit, in texts or in words; names in several cases:

  $ new '% screen 0\n( One )\n%~: SIZE ." Gr~F6~DFe" \\ Gr~F6~DFe\n  ; SIZE\n'; survey; said 'all in comments and texts'
  $ new '% screen 0\n( One )\n%~: GR~F6SSE 5 ;\n'; survey; said 'import --clean'
  $ new "$(part 0)"'\n% screen 1\n( Two )\n: Valve 5 ; VALVE valve LEVEL !\n'; survey
  $ said 'names in upper and lower case, which only F83 treats as the same: Valve as VALVE'

What is in comments and texts, dates, machine code and what follows EXIT are no words, also after words that the Forth lacks. In a definition CODE and LABEL
are words as others, and the source goes on after EXIT. F83 has (S, and neither an assembler here nor $" and S":

  $ cat > text << 'END'
  > % screen 0
  > ( The flock )  .( birds )
  > (S this old program counts sheep )
  > : FLOCK  " rams rest" $" ewes graze" ," lambs" 2DROP FIRE ;
  > : GOATS  S" dogs bark" TYPE ." wolves howl" ABORT" foxes" ;
  > 12/31/84 D. 6:30 D. 1,024 D. 0-9 D. -$1F . 0FFH . FLOCK EXIT
  > and notes about the barn
  > % screen 1
  > ( The shears )
  > ASCII hay EMIT CONTROL straw EMIT [CHAR] oats . CHAR corn .
  > CODE SHEAR ax pop, bx push, END-CODE
  > LABEL SORT cx push, C;
  > : GATES  CODE LABEL POST 0= IF EXIT THEN HINGE ;
  > SHEAR \S and a recipe
  > % screen 2
  > ( The gates )
  > GATES --> and a song
  > END
  $ rm t.blk && forth83 screens text t.blk && survey
  $ sed -n '/^unknown words/,$p' said
  unknown words: 4;* (glob)
    $"                  1  screen 0 line 2
    FIRE                1  screen 0 line 2
    POST                1  screen 1 line 4
    HINGE               1  screen 1 line 4
    CODE                2  screen 1 line 2* (glob)
    LABEL               2  screen 1 line 3* (glob)
    S"                  1  screen 0 line 3* (glob)

A definition with DOES> alone makes names too, since a word before it has made the entry:

  $ new '% screen 0\n( One )\n: ENTRY WHIRR DOES> @ ; ENTRY GADGET GADGET\n'; survey; said WHIRR; unsaid GADGET

Addresses of other machines:

  $ new "$(part 0)"'\n% screen 1\n( Two )\n: RED 2 53280 C! ;\n: PIXEL 15360 + C! ;\n: BACK-ONE 5 BLOCK 2 - @ ;\n'; survey
  $ said 'D020                1  1:1  Commodore 64 or Atari'; said '3C00                1  1:2  TRS-80'; said 'BLOCK 2 -           1  1:3'
  $ new '% screen 0\n( One )\n0 VARIABLE LEVEL\n% screen 1\n( Seven spellings )\nHEX : A1 C030 C@ ; : B1 F D418 C! ; DECIMAL 54272 CONSTANT SID
  > : VOL SID 24 + C! ; : V2 15 SID 4 + C! ;\n: V3 54272 + C! ; : V4 15 54296 C! ; : V5 0D418 C! ;
  > : CHIP 54272 + ; : V6 15 24 CHIP C! ; : V7 4 SID + C@ ;\n5 CONSTANT STEPS '"'"' STEPS @ .\n'; survey
  $ said 'C030                1  1:1  Apple II'; said 'D400-D418           8  1:1 1:2 1:3 1:4  Commodore 64 or Atari'; unsaid 0005
  $ new "$(part 0)"'\n% screen 1\n( Octal )\nOCTAL : RED 2 150020 C! ; DECIMAL\n'; survey; said 'D010                1  1:1  Commodore 64 or Atari'
  $ new '% screen 0\n( One )\nHEX : ADC 20 OR B030 C! BEGIN B030 C@ 80 AND UNTIL B031 C@ ;\n'; survey
  $ said 'load the one of their system'; said 'B030-B031           3  0:1  68HC11'

Habits of other systems, and words that differ in a dialect:

  $ new "$(part 0)"'\n% screen 1\n( Two )\n: NAMED NFA 1+ C@ 128 < ;\n: FOR COMPILE (DO) HERE ; : AT-8 8 * BLOCK ; 5 STEP\n: FREE PAD HERE - ;\n'; survey
  $ said 'C@ 128 <            1  1:1'; said 'COMPILE (DO)        1  1:2'; said '8 * .. BLOCK        1  1:2'; said 'PAD HERE            1  1:3'
  $ said 'STEP                1  screen 1 line 2'
  $ new '% screen 0\n( One )\n: SHOW METRIC FORTH DUP ; : 3RD >R >R J R> R> ;\n: GETS KEY 13 = ; VARIABLE TIMER\n: LOW TIMER 1+ C@ ; : ALL TIMER @ ;\n'; survey
  $ said 'FORTH               1  0:1'; said 'J without loops     1  0:1'; said 'compared with one of them at 0:2'; said 'one byte of a cell is used at 0:3'
  $ unsaid 'none is needed'

Screens that the dialect would take, a definition without an end, no dialect that helps, and a tie:

  $ cp six.blk t.blk; for n in 1001 1002 1003; do part $n > text; forth83 screens text t.blk; done; survey 0 5
  $ said 'this file uses the screens from 1001 on'
  $ new '% screen 0\n( One )\n: ONE 1 \n: TWO 2 ;\n'; survey; said 'screen 0 line 1: the definition of ONE has no ; before the next definition'
  $ new '% screen 0\n( One )\n: SPIN 50 100 WHIRR ; : STARS 10 0 DO 42 EMIT LOOP ;\n'; survey; said 'dialect: undecided, because no word'; said WHIRR
  $ new '% screen 0\n( One )\n: HALF 2 / ; : T 5 0 DO I 3 = IF LEAVE THEN LOOP ;\n'; survey; said 'dialect: undecided between'; grep '^  LEAVE ' said
    LEAVE +1  0:1  .* (re)

Sectors in another order, and screens of 24 lines of 80:

  $ sed 's/( F83:/( Old:/; s/% screen 10/% screen /' "$TREE/screens/dialects/f83.txt" > text; rm -f old.blk; forth83 screens text old.blk
  $ { tail -c +$((41 * 1024 + 1)) old.blk; printf '%27648s' ''; } | head -c 27648 > t.blk && cp t.blk right.blk
  $ survey; unsaid 'another order'
  $ for track in {0..5}; do for at in 0 5 1 6 2 7 3 8 4; do dd if=right.blk bs=512 count=1 skip=$((9 * track + at)) status=none; done; done > t.blk
  $ survey; said 'import it again with --format blocks --offset 0 --sector 512 --skew 1,3,5,7,9,2,4,6,8'
  $ { fold -w 64 right.blk | awk '{ printf "%-80s", $0 } NR % 16 == 0 { printf "%640s", "" }'; printf '%384s' ''; } > t.blk
  $ survey; said 'import it again with --width 80 --lines 24'

The screens of each dialect's text are known as a dialect's:

  $ [ "$(ls "$TREE"/screens/dialects/*.txt | wc -l)" -ge 10 ]
  $ for text in "$TREE"/screens/dialects/*.txt; do
  >   rm -f t.blk; forth83 screens "$text" t.blk; survey
  >   awk '/^(source|shadow|text|data|dialect) +[0-9]+ / { print $1, $2 }' said | diff - <(echo "dialect $(grep -c '^% screen ' "$text")")
  > done

The lines of a text, also of one that it includes, find the dialect's words, and no tool that has the name of an old program:

  $ rm -f t.blk; forth83 new t.blk 24 && forth83 screens "$TREE/screens/dialects/fig.txt" t.blk && cp t.blk before
  $ printf '( A comment\n  of two lines ) 21 SCR !\n: CUT 2 DELETE ;\nCUT\n' > cut.fs
  $ { echo '1001 LOAD'; cat cut.fs; } > direct.fs; printf '1001 LOAD\nINCLUDE cut.fs\n' > included.fs
  $ forth --quiet direct.fs t.blk > said 2>&1 < /dev/null; said 'DELETE is unknown in this dialect'; cmp before t.blk
  $ forth --quiet included.fs t.blk > said 2>&1 < /dev/null; said 'DELETE is unknown in this dialect'; cmp before t.blk

What systems answered to the lines of the card, and what is said then:

  $ forth survey --card | wc -l
  11
  $ card() { printf '%s\n' "$@" > answers; forth survey --card answers > said; head -n 1 said; }
  $ card -3 0 1 '?' '5 4 3 2 1' '0 1 2' '?' 65535 34 13; said "a cell's low byte is first"
  dialect: fig-FORTH, by 7 of 7 answers
  $ card -3 0 1 2 '5 4 3 2 1 0' '0 1 2' '?' 65535 12 13; said "a cell's high byte is first"
  dialect: Forth-79, by 7 of 7 answers
  $ card -4 -6 -1 1 '5 4 3 2 1 0' '0 1' 125 4294967295 34 10; said 'a cell has 32 bits'
  dialect: F83, by 7 of 7 answers
  $ card -3 0 1 1 '5 4 3 2 1 0' '0 1 2' 125 65535 34 13; said 'the return key gives 13'
  dialect: polyFORTH, by 7 of 7 answers
  $ card -4 0 1 2 '5 4 3 2 1 0' '0 1 2' '?' 65535 34 13; said 'division rounds down'
  dialect: Forth-79, by 6 of 7 answers; not as in it: -7 2 / .
