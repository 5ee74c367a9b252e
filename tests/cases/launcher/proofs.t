What the launchers build, refuse and run, over a command rt that replaces the toolchain's (lib.sh of this folder).

  $ . "$TESTDIR/lib.sh"

The first build asks rt for each library and for the program:

  $ makes first
  $ launches a b
  first a b
  rt: lib
  rt: lib
  rt: run -- --help
  [7]
  $ said "$log" && said minutes && said 'forth83: forth83 is proved, 3 of 3 crates'

A program that is built runs, and nothing is said:

  $ launches a b
  first a b
  [7]
  $ cat said
  $ launches --status
  $ said '1233 functions in 3 crates, by kit-of-a-stub' && said "$(sha256sum < "$program" | cut -d' ' -f1)"

Sources that are newer and the same; sources that are others:

  $ makes second
  $ touch -d '1 hour ago' "$program" && touch "$source"
  $ launches a b
  first a b
  [7]
  $ edits 1
  $ launches --status
  [1]
  $ said 'is not the one that was proved from these sources'
  $ launches a b
  second a b
  rt: lib
  rt: lib
  rt: run -- --help
  [7]

The files of a copy have other times, and the copy runs as it is; one with another program does not.

  $ cp -r tree copy && find copy/crates -name '*.rt' -exec touch {} + && touch -d '1 hour ago' copy/crates/forth83/out/forth83
  $ stub <<< 'exit 1'
  $ copy/forth83 c
  second c
  [7]
  $ echo x >> copy/crates/forth83/out/forth83 && touch -d '1 hour ago' copy/crates/forth83/out/forth83 && touch copy/crates/forth83/src/main.rt
  $ copy/forth83 --proved c > /dev/null 2>&1
  [1]
  $ rm -r copy tmp && mkdir tmp

A build that fails, twice: what rt says is reported, and the old program stays.

  $ edits 2
  $ stat -c %Y "$program" > old
  $ stub << 'END'
  > echo 'rt: chose --jobs 4 for forth83'
  > echo 'statements thiserror: modules loaded=0 checked=0'
  > echo 'fn forth83::main: not proved'
  > echo 'error: last'
  > exit 1
  > END
  $ for again in 1 2; do
  >   launches a | grep -v '^rt: lib$'
  >   said 'could not be built: fn forth83::main: not proved'
  >   said "$log"
  >   stat -c %Y "$program" | cmp - old
  > done
  $ launches --status
  [1]
  $ said 'the proof failed: fn forth83::main: not proved'

A failed build does not start again by itself:

  $ : > calls
  $ tree/build/prove --meanwhile 2> said
  [1]
  $ said 'the proof failed: fn forth83::main: not proved'
  $ cat calls

A build that makes nothing, no place for a log, no command rt:

  $ stub << 'END'
  > mkdir -p out
  > echo 'nothing is made'
  > END
  $ launches a
  rt: lib
  rt: lib
  rt: run -- --help
  [1]
  $ said 'could not be built: rt built nothing from forth83'
  $ mv tree/build/out kept && : > tree/build/out
  $ launches a
  [1]
  $ said 'could not be built'
  $ rm tree/build/out && mv kept tree/build/out
  $ mkdir tools && for tool in bash readlink dirname find awk sort xargs sha256sum cut sed cat touch ls grep env wc; do ln -s "$(command -v $tool)" tools/$tool; done
  $ ln -s "$(python3 -c 'import sys; print(sys.executable)')" tools/python3
  $ (PATH=$room/tools; launches a)
  [1]
  $ said 'could not be built: there is no command rt'
  $ stat -c %Y "$program" | cmp - old

A source that is edited during its proof is newer than the program. (A proof that failed leaves its libraries to the next one.)

  $ makes third "echo '// more' >> $source; sleep 0.1"
  $ launches a b
  third a b
  rt: run -- --help
  [7]
  $ makes fourth
  $ launches a b
  fourth a b
  rt: lib
  rt: lib
  rt: run -- --help
  [7]
  $ ln -s "$tree/forth83" bin/linked && linked c
  fourth c
  [7]

At a terminal one line shows the progress of a build.

  $ edits 6
  $ makes ninth 'sleep 2.5'
  $ python3 -c 'import pty, sys; pty.spawn(sys.argv[1:])' tree/forth83 --proved < /dev/null > said
  $ said $'\r''forth83: 2 of 3 crates are proved, 0 minutes so far' && said ninth

Crates are proved after those that they use, in whatever order crates.txt lists them. (survey came before containers once, so no proof from nothing ended.)

  $ mkdir list
  $ printf 'survey: tables containers\nforth83: survey\ntables: thiserror\nother: tables\ncontainers:\n' > list/crates.txt
  $ "$root/build/sources" crates list
  tables thiserror
  containers
  survey tables containers
  forth83 survey
  $ "$root/build/sources" crates > crates
  $ awk 'NR == FNR { crate[$1]; next } { for (at = 2; at <= NF; at++) if ($at in crate && !($at in before)) print $1, $at; before[$1] }' crates crates
  $ awk 'END { exit NR < 40 }' crates

The times of docs/INSTALL.md are those of build/times.

  $ grep -v '^#' "$root/build/times" | while read -r what processors minutes; do
  >   grep -qE "^\| $what.*\| $processors \| $minutes \|" "$root/docs/INSTALL.md" || echo "$what on $processors processors: $minutes minutes"
  > done
