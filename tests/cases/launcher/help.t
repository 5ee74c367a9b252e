Help and refusals come at once where nothing is built, and nothing is proved or built for them: in a copy of the tree, with a command rt that must
not be called.

  $ root=$(cd "$TESTDIR/../../.." && pwd)
  $ room=$PWD
  $ mkdir tree bin tmp
  $ (cd "$root" && tar -c --exclude=./.git --exclude='./crates/*/out' --exclude=./build/out .) | tar -x -C tree
  $ printf '#!/bin/sh\necho "rt $*" >> "%s/called"\nexit 1\n' "$room" > bin/rt
  $ chmod +x bin/rt

Such a command prints something, ends with the status that is wanted, and builds nothing. Python keeps what it compiled in build/out; nothing else is
written there.

  $ at_once() {
  >   local want=$1 status=0
  >   shift
  >   (cd tree && PATH=$room/bin:$PATH TMPDIR=$room/tmp timeout 20 "$@") < /dev/null > got 2>&1 || status=$?
  >   [ "$status" = "$want" ] || echo "$*: status $status, and not $want: $(tail -n 1 got)"
  >   [ -s got ] || echo "$*: nothing is printed"
  >   if [ -e called ]; then
  >     echo "$*: something is built: $(head -n 1 called)"
  >     rm called
  >   fi
  >   [ ! -d tree/build/out ] || find tree/build/out -mindepth 1 -maxdepth 1 ! -name python
  > }

The program and its subcommands, of which docs/help.txt has the help:

  $ names=$(sed -n 's/^== forth83 \(..*\)/\1/p' "$root/docs/help.txt")
  $ [ "$(wc -w <<< "$names")" -ge 20 ]
  $ for name in $names; do at_once 0 ./forth83 "$name" --help; done
  $ for name in $names; do at_once 0 ./forth83 help "$name"; done
  $ for name in $names; do at_once 2 ./forth83 "$name" --bogus; done
  $ for name in $names; do at_once 2 ./forth83 "$name"; done
  $ at_once 2 ./forth83
  $ at_once 0 ./forth83 --help
  $ at_once 0 ./forth83 --version
  $ at_once 2 ./forth83 bogus

The launcher and its commands:

  $ for name in --help -h --version; do at_once 0 ./forth "$name"; done
  $ at_once 2 ./forth --bogus
  $ names='film map print class survey blocks capitals page picture course where import export'
  $ for name in $names; do at_once 0 ./forth "$name" --help; done
  $ for name in $names; do at_once 0 ./forth "$name" -h; done
  $ for name in $names; do at_once 2 ./forth "$name" --bogus; done
  $ at_once 0 commands/bring --help
  $ at_once 0 commands/bring import --help
  $ at_once 2 commands/bring export --bogus
  $ at_once 2 commands/bring
