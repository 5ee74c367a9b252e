An installation of a copy of the tree, which is then moved away: what is put there is tried by another user, who cannot write it, and taken away whole.

  $ . "$TESTDIR/lib.sh"
  $ prepare

What is refused; nothing is put there then.

  $ tree/install "$prefix" 2>&1 | grep -o './forth --proved first'
  ./forth --proved first
  [1]
  $ build
  $ tree/install 2>&1 | grep -o usage
  usage
  [2]
  $ tree/install --prefix 2>&1 | grep -o usage
  usage
  [2]
  $ tree/install "$room/none/forth" 2>&1 | grep -o 'there is no folder .*/none' | sed "s|$room||"
  there is no folder /none
  [1]
  $ tree/install "$room/bin/rt" 2>&1 | grep -o 'is not a folder'
  is not a folder
  [1]
  $ chmod 555 bin && as_other "$room/tree/install" "$room/bin" 2>&1 | grep -o 'cannot be written'
  cannot be written
  [1]
  $ tree/install --remove "$prefix" 2>&1 | grep -o 'has put nothing under'
  has put nothing under
  [1]
  $ mkdir -p "$prefix/bin" && echo mine > "$prefix/bin/forth"
  $ tree/install "$prefix" 2>&1 | grep -o 'bin/forth is in the way'
  bin/forth is in the way
  [1]
  $ (cd "$prefix" && find bin && cat bin/forth)
  bin
  bin/forth
  mine
  $ rm -r "$prefix"

It is installed, and the tree moved away. One who may write there changes nothing by a start.

  $ module && tree/install "$prefix" > shown && mv tree away
  $ listing "$prefix" > before
  $ echo '5 .' | "$prefix/bin/forth" mine.blk 2> said
  5 . 5  ok
  $ listing "$prefix" | diff before -
  $ chmod -R a-w "$prefix" && listing "$prefix" > before

The programs, by another user, from a folder that cannot be written:

  $ echo '3 4 + .' | as_other forth x.blk
  forth: x.blk is a new file
  3 4 + . 7  ok
  $ echo '5 .' | as_other forth x.blk
  5 . 5  ok
  $ "$program" --version > version && as_other forth83 --version | diff version -
  $ as_other forth83 new y.blk 2 > shown && stat -c %s home/y.blk
  2048
  $ as_other forth where none.img
  cannot open none.img
  [1]
  $ as_other forth film SPACES '3 SPACES' 2>&1 | grep -o 'SPACES.html; open it in a browser'
  SPACES.html; open it in a browser
  $ echo BYE | as_other forth course 2> said | sed -n 's/ *\(Your screen for lesson 1.*checks it\.\).*/\1/p'
  Your screen for lesson 1 is 21, and 1 CHECK checks it.
  $ echo '2 CHECK' | as_other forth course 2> said | sed -n 's/^MINUTES .*: //p'
  screen 22 is for it. ok
  $ as_other forth class course.blk 2>&1 | sed -n 2p | tr -s ' '
  course (· )+0 of \d+ (re)
  $ python3 -B "$root/tests/sessions/course_terminal.py" "$prefix/bin/forth" "$prefix/bin/forth83" "$prefix/share/jaurimet" > shown 2>&1 || cat shown
  $ as_other forth course --hints 3 2>&1 | grep -o 'CUBE: '
  CUBE:\x20 (esc)
  $ as_other forth course --sheets 2>&1 | grep -o 'sheets.html, .* lessons'
  sheets.html, \d+ lessons (re)
  $ as_other forth survey y.blk 2>&1 | grep -o 'y.blk: 2 screens'
  y.blk: 2 screens
  $ as_other forth blocks "$prefix/share/jaurimet/examples/gold.txt" gold.blk > shown 2>&1 || cat shown
  $ printf ': hi ." hi" ;\n' > home/low.txt && as_other forth capitals low.txt
  : HI ." hi" ;

A dialect by its earlier name, by its name, and one that there is not; the last screen of fig.txt is 1107.

  $ as_other forth83 screens dialects/fig.txt gold.blk
  $ as_other forth83 screens screens/dialects/fig.txt gold.blk
  $ as_other forth83 screens screens/dialects/none.txt gold.blk
  cannot open screens/dialects/none.txt
  [1]
  $ echo $(($(stat -c %s home/gold.blk) / 1024))
  1108

Pages:

  $ as_other forth page -o page.html 2>&1 | grep -o 'sha256 of the machine'
  sha256 of the machine
  $ as_other forth page x.blk --title Mine -o mine.html 2>&1 | grep -o 'sha256 of the machine'
  sha256 of the machine
  $ as_other forth page none.blk -o none.html 2>&1 | grep -o 'none.blk: it cannot be read'
  none.blk: it cannot be read
  [1]
  $ in_browser "$room/home/page.html"
  3 4 + . 7  ok

Old disks and texts as the guide has them: formats and options beside the program's own.

  $ head -c 174848 /dev/zero | tr '\0' '#' > home/disk.d64 && chmod 666 home/disk.d64
  $ printf 'SCR # 6\n  0 ( Six )\n  1 : SIX 6 ;\n' > home/listing
  $ as_other forth83 import disk.d64 d.blk --format d64 --first 20 2>&1 | tail -n 1
  forth: d.blk has them as screens 20 to 190
  $ as_other forth83 export d.blk disk.d64 --format d64 --first 20 > shown 2>&1 || cat shown
  $ tr -d '\n' < home/disk.d64 | tr -cd '#' | wc -c
  174848
  $ as_other forth83 import listing l.blk --format text 2>&1 | grep -o 'as screens 6 to 6'
  as screens 6 to 6
  $ as_other forth83 text l.blk 6 6 | tail -n 1
  : SIX 6 ;
  $ as_other forth83 import listing l.blk --format text --append --first 7 2>&1 | grep -o 'as screens 7 to 7'
  as screens 7 to 7
  $ as_other forth survey d.blk 2>&1 | grep -o 'd.blk: 191 screens'
  d.blk: 191 screens
  $ as_other forth83 import --help | tr -s ' \n' ' ' | grep -o 'd64, atr, jv1, rx01, rx02 and text'
  d64, atr, jv1, rx01, rx02 and text
  $ as_other forth83 help export | grep -o -e --ebcdic | uniq
  --ebcdic
  $ as_other env FORTH83_PLAIN=1 forth83 import disk.d64 e.blk --format d64 2>&1 | grep -o 'd64 is no format'
  d64 is no format
  [2]

The state; nothing was written there, and nothing called rt.

  $ as_other forth --status 2>&1 | grep -o 'proved: 411.*minutes'
  proved: 411 functions in 5 crates, by kit-of-a-stub, on 2026-01-01 00:00, in 20 minutes
  $ as_other forth --status > said 2>&1 && grep -c "of its sources $(sed -n 's/^sources //p' away/crates/forth83/out/proved)" said
  1
  $ as_other forth --unproved x.blk 2>&1 | grep -o 'its sources do not exist'
  its sources do not exist
  [1]
  $ listing "$prefix" | diff before -
  $ [ ! -e home/called ]

A copy of what exists, whose times say nothing:

  $ cp -r "$prefix" copy && chmod u+w copy/share/jaurimet && touch -d '1 hour' copy/share/jaurimet/crates.txt
  $ echo '5 .' | as_other "$room/copy/bin/forth" x.blk
  5 . 5  ok

What bash completes:

  $ completes forth83 ''
  kernel build load upgrade text screens new import export run see debug view serve survey judge unpack pack guess advise headings help --help --version
  $ completes forth83 s
  screens see serve survey
  $ completes forth83 help v
  view
  $ completes forth83 build --
  --buffers --where --help
  $ completes forth83 run x.blk --
  --limit --help
  $ completes forth83 text x
  x.blk
  $ completes forth83 text x.blk x
   (esc)
  $ completes forth83 run --limit x
   (esc)
  $ completes forth83 run --limit 9 x
  x.blk
  $ completes forth83 import --fir
  --first
  $ completes forth83 import disk new --format d
  d64
  $ completes forth83 import disk new --format f
  f83 fig
  $ completes forth83 import disk new --sector f
   (esc)
  $ completes forth x
  x.blk
  $ completes forth --st
  --start --status
  $ completes forth fil
  film
  $ completes forth film x
  x.blk

What zsh completes, if it is here:

  $ ! command -v zsh > shown || for name in forth forth83; do zsh -n "$prefix/share/zsh/site-functions/_$name"; done
  $ ! command -v zsh > shown || zsh -fc 'fpath=("$1" $fpath); autoload -U compinit
  >   compinit -u -D; autoload +X _forth83 _forth && [ "$_comps[forth] $_comps[forth83]" = "_forth _forth83" ] || echo $_comps[forth]' - "$prefix/share/zsh/site-functions"

The manual pages have each subcommand, option and status, and are such as roff takes.

  $ "$program" --help | sed -n '/^Commands:/,/^$/s/^  \([a-z]*\) .*/\1/p' | grep -vx help | while read -r name; do
  >   grep -qx ".SS $name" "$prefix/share/man/man1/forth83.1" || echo "$name"
  > done
  $ sed -n '/^.SH EXIT STATUS/,/^.SH NOTES/p' "$prefix/share/man/man1/forth83.1" | grep -x '[0-9]' | paste -sd' '
  0 1 2 3 4 5
  $ for name in --quiet --image --kernel --kernel-of --proved --unproved --status; do
  >   grep -q "fBforth ${name//-/\\\\-}" "$prefix/share/man/man1/forth.1" || echo "$name"
  > done
  $ ! command -v groff > shown || for page in "$prefix"/share/man/man1/*; do groff -man -ww -z "$page"; done

What Vim and VS Code take a text for:

  $ "$root/tools/make-editors" --check
  $ share=$prefix/share/jaurimet/data/editors text=$'% screen 21\n: X ( n -- ) IF DUP ." no  THEN" THEN -7 foo ; \\ all\n'
  $ for file in "$share"/vscode/*.json; do python3 -c 'import json, sys; json.load(open(sys.argv[1], encoding="utf-8"))' "$file"; done
  $ scopes() { python3 "$TESTDIR/scopes.py" "$share/vscode/syntaxes/screens.tmLanguage.json" "$1"; }
  $ scopes "$text"
  markup:21 entity:X comment:( keyword:IF support:DUP string:." keyword:THEN constant:-7 keyword:; comment:all
  $ scopes $'% screen 1\n( open\n THEN\n% screen 2\n*/MOD X'
  markup:1 comment:( markup:2 support:*/MOD
  $ printf %s "$text" > home/x.txt
  $ ! command -v vim > shown || vim -es -u NONE --cmd "let &rtp = '$share/vim,' . \$VIMRUNTIME" -c 'syntax on' -c "edit $room/home/x.txt" \
  >   -c 'let got = [&filetype] + map([[1, 1], [2, 1], [2, 3], [2, 5], [2, 14], [2, 17], [2, 28], [2, 34], [2, 39], [2, 42], [2, 48]],
  >     { _, at -> synIDattr(synID(at[0], at[1], 1), "name")[7:] })' \
  >   -c "call writefile(got, '$room/vim')" -c 'qa!' < /dev/null || true
  $ [ ! -e vim ] || [ "$(paste -sd' ' vim)" = 'screens Heading Defining Defined Comment Control Word String Control Number  Comment' ] || cat vim

A newer version takes the place; what others put there stays, as a file that was changed does; all else is taken away.

  $ chmod -R u+w "$prefix" && (cd "$prefix" && find . | sort) > before
  $ echo '# newer' >> away/examples/life.txt && away/install "$prefix" > shown
  $ tail -n 1 "$prefix/share/jaurimet/examples/life.txt"
  # newer
  $ (cd "$prefix" && find . | sort) | diff before -
  $ echo mine > "$prefix/share/man/man1/mine.1" && echo mine >> "$prefix/share/jaurimet/examples/log.txt"
  $ away/install "$prefix" 2>&1 | grep -o 'log.txt was changed'
  log.txt was changed
  [1]
  $ "$prefix/share/jaurimet/install" --remove "$prefix" 2>&1 | grep -o 'log.txt was changed since it was installed, and is left'
  log.txt was changed since it was installed, and is left
  [1]
  $ (cd "$prefix" && find . -type f -printf '%P\n' | sort)
  share/jaurimet/examples/log.txt
  share/man/man1/mine.1
  $ rm -r "$prefix" && away/install "$prefix" > shown && "$prefix/share/jaurimet/install" --remove "$prefix" && ls 'a place'
