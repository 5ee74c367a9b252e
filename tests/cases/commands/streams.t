Runs whose streams, files or memory fail or change, and ^C.

  $ . "$TESTDIR/lib.sh"
  $ two_blocks() { printf 'x%.0s' {1..2148}; }
  $ mkdir folder

A file of blocks that may only be read. (Root may write it all the same.)

  $ two_blocks > sealed && chmod 444 sealed
  $ [ -w sealed ] || { shown=$(forth83 run "$EXAMPLES/later.img" sealed < /dev/null); [ "$shown[$?]" = 'cannot open sealed[1]' ]; }

A file of blocks that is another one by the time that its block is read: the count is that at the opening. A command is done while the image waits
for its key.

  $ later() {
  >   mkfifo keys shown
  >   forth83 run "$EXAMPLES/later.img" blocks < keys > shown & running=$!
  >   exec 3> keys 4< shown
  >   IFS= read -r -t 300 -N 1 prompt <&4
  >   "$@"
  >   printf k >&3
  >   exec 3>&-
  >   printf '%s%s' "$prompt" "$(cat <&4)"
  >   exec 4<&-
  >   rm keys shown
  >   wait $running
  > }
  $ two_blocks > blocks
  $ later true
  ?x (no-eol)
  $ later truncate -s 1500 blocks
  ?9 (no-eol)
  $ later truncate -s 2148 blocks
  ?7 (no-eol)
  $ later rm blocks
  ?x (no-eol)

Output that takes nothing, and input that cannot be read.

  $ forth83 run "$EXAMPLES/hi.img" > /dev/full < /dev/null
  [5]
  $ forth83 run missing > /dev/full < /dev/null
  [5]
  $ (sleep 0.2; forth83 run "$EXAMPLES/hi.img" < /dev/null; echo $? > status) | true; cat status
  5
  $ forth83 run "$EXAMPLES/later.img" < folder > shown
  [5]

Each command that opens files, with each choice of closed standard streams: no file takes the place of one of them. Shown is which are closed, what
is printed, and the status; those that do the same are in one line. The file of blocks `kept` stays as it is.

  $ made=5\ PRIM\ EXIT\ 23\ PRIM\ BYE\ :\ GO\ BYE\ \;\ BOOT\ GO
  $ source_screen good 1 "$made" && forth83 build good 1 1 built && forth83 kernel made
  size 290 entry 284
  $ with() (
  >   exec < /dev/null > printed 2> /dev/null
  >   case $1 in *0*) exec <&- ;; esac
  >   case $1 in *1*) exec >&- ;; esac
  >   case $1 in *2*) exec 2>&- ;; esac
  >   exec forth83 "${@:2}"
  > )
  $ streams() {
  >   local group closed shown
  >   for group in 'none 2' '0 02' '1 01 12 012'; do
  >     for closed in $group; do
  >       two_blocks > kept
  >       with "$closed" "$@"
  >       shown=$(echo "[$?]" | cat printed -)
  >       echo "$group: ${shown//$'\n'/\\n}"
  >       two_blocks | cmp - kept
  >     done | sort -u
  >   done
  > }
  $ streams run "$EXAMPLES/hi.img"
  none 2: Hi[0]
  0 02: Hi[0]
  1 01 12 012: [5]
  $ streams run "$EXAMPLES/hi.img" kept
  none 2: Hi[0]
  0 02: Hi[0]
  1 01 12 012: [5]
  $ streams run "$EXAMPLES/later.img"
  none 2: ?[0]
  0 02: ?[5]
  1 01 12 012: [5]
  $ streams run "$EXAMPLES/later.img" kept
  none 2: ?[0]
  0 02: ?[5]
  1 01 12 012: [5]
  $ streams run "$EXAMPLES/greet.img" kept | sed 's/x\{120\}/(120 x)/'
  none 2: Welcome back, (120 x)\nYour name? [0]
  0 02: Welcome back, (120 x)\nYour name? [5]
  1 01 12 012: [5]
  $ streams kernel new
  none 2: [0]
  0 02: [0]
  1 01 12 012: [0]
  $ cmp made new
  $ streams kernel folder
  none 2: cannot open folder\n[1]
  0 02: cannot open folder\n[1]
  1 01 12 012: [5]
  $ streams build good 1 1 later.img
  none 2: size 290 entry 284\n[0]
  0 02: size 290 entry 284\n[0]
  1 01 12 012: [5]
  $ cmp built later.img
  $ streams build kept 0 0 later.img
  none 2: screen 0 offset 0: Unknown\n[1]
  0 02: screen 0 offset 0: Unknown\n[1]
  1 01 12 012: [5]
  $ streams view built GO
  none 2: 1\n[0]
  0 02: 1\n[0]
  1 01 12 012: [5]
  $ streams see built GO
  none 2: : GO BYE ;\n[0]
  0 02: : GO BYE ;\n[0]
  1 01 12 012: [5]
  $ streams debug built GO traced kept
  none 2: [0]
  0 02: [0]
  1 01 12 012: [0]
  $ cat traced
  286 BYE | | 0
  $ streams debug built GONE traced kept
  none 2: GONE: NotFound\n[1]
  0 02: GONE: NotFound\n[1]
  1 01 12 012: [5]
  $ streams run kept kept
  none 2: image: BadMagic\n[1]
  0 02: image: BadMagic\n[1]
  1 01 12 012: [5]
  $ streams run "$EXAMPLES/hi.img" nothing
  none 2: cannot open nothing\n[1]
  0 02: cannot open nothing\n[1]
  1 01 12 012: [5]
  $ streams --version | sed "s/ $(cat "$TREE/data/VERSION")\(, unproved\)\?\\\\n/ VERSION\\\\n/"
  none 2: forth83 VERSION\n[0]
  0 02: forth83 VERSION\n[0]
  1 01 12 012: [5]
  $ streams serve "$EXAMPLES/hi.img" nothing
  none 2: cannot open nothing\n[1]
  0 02: cannot open nothing\n[1]
  1 01 12 012: [5]
  $ timeout 300 forth83 run "$EXAMPLES/endless.img" < /dev/null >&-
  [5]
  $ printf 'V\0\0' | forth83 serve built >&-
  [5]
  $ forth83 serve built <&-
  [5]

With input closed and room for three open files, a file could only be opened as input: it is not.

  $ (exec <&- && ulimit -n 3 && exec forth83 run "$EXAMPLES/hi.img") | sed "s|$EXAMPLES|EXAMPLES|"; echo "[${PIPESTATUS[0]}]"
  cannot open EXAMPLES/hi.img
  [1]

At a terminal a line is seen while the program runs on, and ^C ends it.

  $ cat > terminal.py << 'END'
  > import os, pty, signal, sys
  > signal.signal(signal.SIGINT, signal.SIG_DFL)
  > child, screen = pty.fork()
  > if child == 0:
  >     os.execvp("forth83", ["forth83", "run", sys.argv[1]])
  > seen = b""
  > while not seen.endswith(b"\n"):
  >     seen += os.read(screen, 100)
  > os.write(screen, b"\x03")
  > print(seen, os.WTERMSIG(os.waitpid(child, 0)[1]))
  > END
  $ timeout 300 python3 terminal.py "$EXAMPLES/endless.img"
  b'a\r\n' 2

Less and less memory, until the system cannot start the program: a run is whole, or says that memory ran out.

  $ for ((size = 6000; size >= 2000; size -= 16)); do
  >   shown=$(ulimit -v $size && exec forth83 run "$EXAMPLES/hi.img" 2> /dev/null < /dev/null)
  >   case "$? $shown" in
  >     '0 Hi' | '1 out of memory') ;;
  >     12[67]' ' | 13[0-9]' ') break ;;
  >     *) echo "$size KiB: $shown" ;;
  >   esac
  > done
