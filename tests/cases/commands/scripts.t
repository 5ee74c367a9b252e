Scripts: what is shown where, statuses, arguments, keys and lines that a program reads by itself, definitions that are left open, and room.

  $ . "$TESTDIR/lib.sh"
  $ same() { diff <(printf '%s\n' "$1") <(printf '%s\n' "$2"); }

VERSION is that of the program.

  $ version=$(forth83 --version)
  $ case $version in *unproved) same "$version " "$(forth -e VERSION < /dev/null)" ;; *) same "$version, proved " "$(forth -e VERSION < /dev/null)" ;; esac

Standard output has what the program shows, standard error what is reported.

  $ printf '3 4 + .\n: SQ DUP * ; 7 SQ .\n' | forth 2> said
  3 4 + . 7  ok
  : SQ DUP * ; 7 SQ . 49  ok
  $ cat said
  forth: forth.blk is a new file
  $ printf '3 4 + .\n' | forth --quiet
  7  (no-eol)
  $ printf ': LIB 12 ;\n' > lib.fs && printf 'INCLUDE lib.fs\nLIB .\n' > main.fs
  $ forth --quiet main.fs < /dev/null
  12  (no-eol)
  $ printf ': B 1 0 / ;\n\n1 . B\n' > bad.fs
  $ forth --quiet bad.fs < /dev/null 2> said
  1\x20 (esc)
  [3]
  $ cat said
  division by zero, or a quotient too large (fault 5)
  bad.fs:3:5
  1 . B
      ^
  forth: a fault stopped the script
  $ forth --quiet nothing.fs < /dev/null
  forth: cannot read nothing.fs: No such file or directory
  [1]
  $ forth /proc/self/mem < /dev/null
  forth: cannot read /proc/self/mem: Input/output error
  [1]
  $ forth --nonsense < /dev/null
  forth: there is no option --nonsense
  forth: ./forth --help shows the usage
  [2]

ABORT, and a status of one's own:

  $ forth -e ABORT < /dev/null 2> said
   aborted
  [3]
  $ cat said
  aborted (fault 17)
  -e:1:1
  ABORT
  ^
  forth: a fault stopped the script
  $ forth -e '7 BYE-WITH' < /dev/null
  [7]

Keys and lines that a program reads:

  $ printf 'KEY EMIT PAD 20 EXPECT PAD SPAN @ TYPE\n' > ask.fs
  $ printf 'xyes\nno\n' | forth --quiet ask.fs
  xyes (no-eol)
  $ printf a | forth -e 'KEY? . KEY .'
  -1 97  (no-eol)
  $ forth -e 'KEY .' < /dev/null

Arguments and the environment:

  $ printf ': A PAD 80 ROT ARGUMENT . PAD SWAP TYPE SPACE ;\n0 A 1 A 2 A\nPAD 80 ENVIRONMENT TRIED . PAD SWAP TYPE\n' > args.fs
  $ TRIED=yes forth --quiet args.fs -- one 'two words' < /dev/null
  -1 one -1 two words 0  -1 yes (no-eol)

Screens that a script changes are in the file:

  $ forth -e '30 SCR ! 0 PUT hello' s.blk < /dev/null
  forth: s.blk is a new file
  $ forth -e '30 LIST' s.blk < /dev/null | head -n 3
  Screen 30
   0 hello
   1

UPDATE marks the block that was used, in -e, in a script, in a pipe, and in a text that is included:

  $ changes() { printf '%s BLOCK 1024 %s FILL UPDATE' "$1" "$2"; }
  $ is() { tail -c +$(($1 * 1024 + 1)) u.blk | head -c 1024 | tr -d "$2" | wc -c; }
  $ forth83 new u.blk 64
  $ forth -e "$(changes 30 65)" u.blk < /dev/null; is 30 A
  0
  $ changes 31 66 > update.fs; forth --quiet update.fs u.blk < /dev/null; is 31 B
  0
  $ changes 32 67 | forth u.blk > /dev/null; is 32 C
  0
  $ changes 33 68 > included.fs; forth -e 'INCLUDE included.fs' u.blk < /dev/null; is 33 D
  0

MS waits in a script:

  $ start=$(date +%s%N); forth -e '400 MS' < /dev/null; [ $((($(date +%s%N) - start) / 1000000)) -ge 400 ]

One's own start file comes first in scripts only if it is asked for.

  $ mkdir -p ~/.config/jaurimet && echo ': GREETED 5 ;' > ~/.config/jaurimet/start.fs
  $ forth -e 'GREETED .' < /dev/null 2> said
  [3]
  $ forth --start -e 'GREETED .' < /dev/null
  5  (no-eol)
  $ echo 'GREETED 1+ CONSTANT SIX' > six.fs
  $ forth --quiet --start six.fs -e 'SIX .' < /dev/null
  6  (no-eol)
  $ echo 'GREETED .' | forth --quiet --start
  5  (no-eol)
  $ echo 'GREETED .' | forth --quiet 2> said
  [3]
  $ forth --start --no-start < /dev/null 2> said
  [2]
  $ rm -r ~/.config

A script that is killed leaves nothing running; the kernel alone writes its screens then, too. `ends SIGNAL COMMAND..` shows its status. (The shell
itself has ignored INT for what runs in the background, so env sets it as it was.)

  $ ends() {
  >   env --default-signal=INT forth "${@:2}" > shown 2>&1 < "${input:-/dev/null}" & local run=$! server=
  >   until server=$(ps -o pid=,comm= --ppid "$run" | awk '$2 !~ /python|bash/ { print $1 }') && [ -n "$server" ]; do sleep 0.1; done
  >   sleep 0.5
  >   kill -s "$1" "$run"
  >   wait "$run" 2> /dev/null; echo "$1: $?"
  >   for _ in {1..50}; do kill -0 $server 2> /dev/null || return 0; sleep 0.1; done
  >   echo 'the server stays'
  > }
  $ echo ': L BEGIN AGAIN ; L' > loop.fs
  $ for signal in TERM HUP INT; do ends $signal -e ': L BEGIN AGAIN ; L'; ends $signal --quiet loop.fs; done
  TERM: 143
  TERM: 143
  HUP: 129
  HUP: 129
  INT: 130
  INT: 130
  $ printf '1 BLOCK 1024 65 FILL UPDATE : L BEGIN AGAIN ;\nL\n' > typed
  $ for signal in TERM HUP INT; do
  >   printf '%8192s' '' > kernel.blk
  >   input=typed ends $signal --kernel kernel.blk
  >   tr -s A < kernel.blk | tr -s ' ' '_'; echo
  > done
  TERM: 143
  _A_
  HUP: 129
  _A_
  INT: 130
  _A_

A program has 48,000 bytes, and 40,000 after each dialect; the sieve of 1981 counts 1899 primes (Byte, September 1981), also after each.

  $ [ "$(forth -e 'UNUSED U.' < /dev/null)" -ge 48000 ]
  $ cat > sieve.fs << 'END'
  > 8190 CONSTANT SIZE
  > CREATE FLAGS SIZE ALLOT
  > : SIEVE FLAGS SIZE 1 FILL 0 SIZE 0 DO FLAGS I + C@ IF
  > I DUP + 3 + DUP I + BEGIN DUP SIZE < WHILE
  > 0 OVER FLAGS + C! OVER + REPEAT DROP DROP 1+ THEN LOOP . ;
  > SIEVE
  > END
  $ forth --quiet sieve.fs < /dev/null
  1899  (no-eol)
  $ after() {
  >   forth83 new "$1.blk" 64 && forth83 screens "$TREE/screens/dialects/$1.txt" "$1.blk"
  >   { echo '% screen 1'; sed "$3" sieve.fs; } > text && forth83 screens text "$1.blk"
  >   free=$(forth -e "$2 LOAD" -e 'TOOLS LIMIT @ HERE - U. FORTH' "$1.blk" < /dev/null | grep -o '[0-9]* *$')
  >   [ "$free" -ge 40000 ] && forth -e "$2 LOAD" -e '1 LOAD' "$1.blk" < /dev/null | grep -o '[0-9]* *$'
  > }
  $ after fig 1001 's/CREATE FLAGS/0 VARIABLE FLAGS/'
  1899\x20 (esc)
  $ after f79 1021 ''
  1899\x20 (esc)
  $ after f83 1041 ''
  1899\x20 (esc)
  $ after poly 1061 ''
  1899\x20 (esc)
