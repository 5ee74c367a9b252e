The texts that come with the Forth, from any folder: words of later Forths, tests, REQUIRE and PROFILE.

  $ . "$TESTDIR/lib.sh"
  $ cases=$TESTDIR/../later-test.fs

The words of later Forths pass their tests, as many as the file has:

  $ forth test "$cases" > said; [ $? = 0 ] && [ "$(grep -o '[0-9]* tests.*' said)" = "$(grep -c '}T' "$cases") tests, 0 wrong" ] || cat said

Tests that are wrong are shown with their places; REQUIRE reads a text once.

  $ printf ': SQ DUP * ; .( read )\n' > sq.fs
  $ printf 'REQUIRE sq.fs\nREQUIRE sq.fs\nT{ 3 SQ -> 9 }T\n\nT{ 3 SQ 1 -> 9 }T\nT{ 1 2 -> 2 1 }T\nT{ -> }T\n' > wrong.fs
  $ forth --quiet -e 'INCLUDE tester.fs INCLUDE wrong.fs TESTED' < /dev/null
  read left 9 1 at wrong.fs:5: T{ 3 SQ 1 -> 9 }T
  left 1 2 at wrong.fs:6: T{ 1 2 -> 2 1 }T
  
  4 tests, 2 wrong
  [1]
  $ forth test wrong.fs 2> said | tail -n 1; cat said
  wrong.fs: 4 tests, 2 wrong
  $ forth test wrong.fs > shown
  [1]
  $ forth test < /dev/null
  forth: test needs files of tests, as in ./forth test calc-test.fs
  forth: ./forth --help shows the usage
  [2]
  $ forth --quiet test wrong.fs
  forth: test has no option --quiet
  forth: ./forth --help shows the usage
  [2]
  $ forth test none.fs
  forth: none.fs: there is no such file: name a text with tests
  [1]
  $ forth --program none test wrong.fs
  forth: none: this is no program that can be run: name a built forth83
  [1]

Faults in what a text evaluates, [IF] without an end, THROW without CATCH:

  $ printf 'INCLUDE later.fs\n0 [IF]\nNOSUCH\n[THEN] S" 1 NOSUCH" EVALUATE\n' | forth --quiet
  NOSUCH is unknown (fault 13)
  EVALUATE:1:3
  1 NOSUCH
    ^
  included by line 4
  forth: a fault stopped the script
  [3]
  $ forth -e 'INCLUDE later.fs 0 [IF] 1 .' < /dev/null 2>&1 | grep -o 'it has no \[THEN\]'
  it has no [THEN]
  $ forth -e 'INCLUDE later.fs -5 THROW' < /dev/null 2>&1 | grep -o '.*no CATCH'
  -5 was thrown, and there is no CATCH

PROFILE counts ticks. Two calls of T: 4 ticks before its loop and 1 after it, and 100 rounds of 3 ticks.

  $ forth --quiet -e ': T 100 0 DO 5 DROP LOOP ; PROFILE T T 7 .' < /dev/null | grep '^7\|  T$'
  7 * (glob)
   *610 * %  T (glob)
