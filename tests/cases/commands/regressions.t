Bugs that were found in commands of a shell, one case each, with what went wrong.

  $ . "$TESTDIR/lib.sh"

1. A script that ended inside a definition had status 0 and no message, also if a `;` was missing in the middle of a file.

  $ forth --quiet -e ': SQ DUP *' < /dev/null
  SQ is not finished: its ; is missing
  -e:1
  : SQ DUP *
  [3]
  $ printf '1 .\n: SQ DUP *\n' | forth
  forth: forth.blk is a new file
  1 . 1  ok
  : SQ DUP *\x20 (esc)
  SQ is not finished: its ; is missing
  line 2
  : SQ DUP *
  [3]
  $ printf ': SQ DUP *\n' > open.fs; forth open.fs < /dev/null
  : SQ DUP *\x20 (esc)
  SQ is not finished: its ; is missing
  open.fs:1
  : SQ DUP *
  [3]

Also if the definition was left by `[`:

  $ forth --quiet -e ': LATER [' -e '3 .' < /dev/null
  3 
  LATER is not finished: its ; is missing
  -e:1
  : LATER [
  [3]

2. With --quiet and a definition of several lines, the place of its first line was empty.

  $ printf '1 DROP\n: SQ\n  DUP\n  *\n' > open.fs; forth --quiet open.fs < /dev/null
  SQ is not finished: its ; is missing
  open.fs:2
  : SQ
  [3]
  $ printf ': A\n 1\n' | forth --quiet
  A is not finished: its ; is missing
  line 1
  : A
  [3]
  $ printf 'INCLUDE later.fs\n:NONAME 5\n .\n' | forth --quiet
  a definition is not finished: its ; is missing
  line 2
  :NONAME 5
  [3]

3. If a line ended one definition and began another, the line on which the first one begins was shown for the second.

  $ printf ': A\n 1 ; : B\n 2\n' | forth --quiet
  B is not finished: its ; is missing
  line 2
   1 ; : B
  [3]

4. A new file was written as NAME.forth83-new, and a file that had this name was deleted first, though it could be someone's own. Now the next of ten
names is taken, whatever is there: a file, a folder, a link, or a pipe. If all are taken the block file stays as it was.

  $ printf '%% screen 7\nchanged\n' > change
  $ mkdir taken taken/old.blk.forth83-new1
  $ forth83 new taken/old.blk 8
  $ echo mine > taken/old.blk.forth83-new
  $ ln -s elsewhere taken/old.blk.forth83-new2
  $ mkfifo taken/old.blk.forth83-new3
  $ forth83 screens change taken/old.blk
  $ tail -c 1024 taken/old.blk | tr -d ' '
  changed (no-eol)
  $ cat taken/old.blk.forth83-new
  mine
  $ readlink taken/old.blk.forth83-new2
  elsewhere
  $ for name in taken/old.blk.forth83-new{4..9}; do echo "$name" > "$name"; done
  $ cp taken/old.blk before
  $ printf '%% screen 7\nagain\n' > again.txt
  $ forth83 screens again.txt taken/old.blk
  error: taken/old.blk has ten files beside it named .forth83-new to .forth83-new9; remove those that are not needed
  [2]
  $ cmp taken/old.blk before
  $ [ "$(cd taken && echo *)" = "old.blk$(printf ' old.blk.forth83-new%s' '' {1..9})" ]
  $ cat taken/old.blk.forth83-new9
  taken/old.blk.forth83-new9
