Proofs in the background: only one runs at a time, what a killed one left is removed, and nobody who did not ask for a proof waits for one.

  $ . "$TESTDIR/lib.sh"

Three launchers at once make one proof:

  $ makes first 'sleep 1'
  $ for one in 1 2 3; do tree/forth83 --proved $one > at_once.$one 2>&1 & done
  $ wait
  $ grep -h '^first' at_once.*
  first 1
  first 2
  first 3
  $ cat calls
  lib
  lib
  run -- --help

Without --proved nothing waits for a proof, nor starts one: the program without proofs runs, which is built first.

  $ edits 1
  $ stub <<< 'exit 1'
  $ : > calls
  $ tree/forth83 a 2> said
  [1]
  $ said 'there is no unproved program'
  $ grep '^lib\|^run' calls
  [1]
  $ printf '#!/bin/bash\necho "unproved $*"\nexit 5\n' > tree/build/out/unproved && chmod +x tree/build/out/unproved
  $ tree/build/sources sum > tree/build/out/unproved.sum
  $ tree/forth83 a b 2> said
  unproved a b
  [5]
  $ said 'forth83: UNPROVED: nothing is proved about this program; ./forth83 --proved waits for the proof'

A start of the Forth, if nothing is proved, begins a proof in the background. Starts while it runs do not wait for it: the fastest of three takes less than a second and a
half. (The program of this tree is none, so that no session follows.)

  $ makes second "until [ -e '$room/started' ]; do sleep 0.1; done"
  $ starts() {
  >   tree/forth -e BYE > shown 2> said < /dev/null || true
  >   said 'this program is not proved yet. Its proof runs in the background'
  > }
  $ rm -r "$crate/out"
  $ starts
  $ tree/forth83 --status 2> said
  [1]
  $ said 'the proof is running: '
  $ for one in 1 2 3; do begun=$(date +%s%N); starts; echo $((($(date +%s%N) - begun) / 1000000)); done | sort -n > times
  $ [ "$(head -n 1 times)" -lt 1500 ] || cat times
  $ touch started

The program is in its place before the proof removes its folder and releases its lock.

  $ waits tree/build/is-proved && waits flock -n tree/build/out/proof.lock true
  $ launches a
  second a
  [7]
  $ tree/forth83 --unproved a 2> said
  unproved a
  [5]
  $ rm tree/build/out/unproved*

A proof that was killed; the next one proves only the program again.

  $ edits 2
  $ makes third "echo \$PPID > $room/prover; exec sleep 60"
  $ : > calls
  $ tree/build/prove --meanwhile
  $ waits test -s prover && kill -9 "$(cat prover)"
  $ makes fourth
  $ launches a
  fourth a
  rt: run -- --help
  [7]

TERM to the process group of a launcher that waits for a proof ends the proof with its provers, also one that does not listen. (The processes of
a proof hold its lock, too.)

  $ edits 3
  $ makes fifth "trap '' TERM; sleep 60 & echo \$! > '$room/proving'; wait"
  $ setsid tree/forth83 --proved a > shown 2>&1 & waiting=$!
  $ waits test -s proving
  $ kill -TERM -- -$waiting
  $ wait $waiting 2> said || flock -w 20 tree/build/out/proof.lock echo ended
  ended
  $ makes sixth
  $ launches a
  sixth a
  rt: run -- --help
  [7]
