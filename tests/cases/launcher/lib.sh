# shellcheck shell=bash
# What the cases of this folder share: a tree with the launchers and the scripts that build their program, over a command rt that replaces the
# toolchain's. It notes each call in `calls`, without the number of processes, which depends on the machine.
root=$(cd "$TESTDIR/../../.." && pwd)
room=$PWD tree=$PWD/tree
crate=$tree/crates/forth83
# shellcheck disable=SC2034
log=$tree/build/out/proof.log
program=$crate/out/forth83 source=$crate/src/main.rt
export TMPDIR=$room/tmp HOME=$room
mkdir -p "$room/bin" "$room/tmp" "$crate/src" "$tree/crates/command_words/src" "$tree/crates/cells/src" "$tree/build" "$tree/examples"
cp "$root/forth83" "$root/forth" "$root/HANDLES" "$tree"
cp "$root"/build/{prove,is-proved,sources,unproved,toolchain.py,times,weights} "$tree/build"
cp -r "$root/commands" "$root/data" "$root/screens" "$tree"
cp "$root/examples/endless.img" "$tree/examples"
# The words of these trials are no subcommands: help.t tries what is refused without a program.
printf '#!/bin/bash\nexit 100\n' > "$tree/commands/command-line"
chmod +x "$tree/commands/command-line"
printf 'cells:\ncommand_words: clap\nforth83: cells command_words\nlayer_tests: cells\n' > "$tree/crates.txt"
echo 'const VERSION: &str = "0.1.0";' > "$tree/crates/command_words/src/lib.rt"
touch "$tree/crates/cells/src/lib.rt"
touch -d '1 hour ago' "$source"
PATH=$room/bin:$PATH

# stub: rt prints a version, and runs the lines that are read as `rt lib`, `rt run` and `rt try`.
stub() {
  {
    # shellcheck disable=SC2016
    printf '#!/bin/bash\nif [ "$1" = version ]; then echo kit-of-a-stub; exit; fi\necho "$*" | sed "s/ --jobs [0-9]*//" >> "%s/calls"\n' "$room"
    cat
  } > "$room/bin/rt"
  chmod +x "$room/bin/rt"
}

# makes NAME [LINES]: rt builds libraries and, after these lines, a program that prints NAME and its words and ends with status 7.
makes() {
  stub << END
echo 'logic=proved functions=411 sum=0'
mkdir -p out
if [ "\$1" != run ]; then exit 0; fi
${2:-}
printf '#!/bin/bash\necho "$1 \$*"\nexit 7\n' > out/forth83
chmod +x out/forth83
END
}

# launches WORDS..: the launcher with --proved from another folder, and then the calls of rt; `said` has its standard error. Nothing remains in TMPDIR
# unless a proof fails, which the next one uses.
launches() {
  local status=0 left
  : > "$room/calls"
  (cd / && "$tree/forth83" --proved "$@") 2> "$room/said" || status=$?
  sed 's/^/rt: /' "$room/calls"
  left=$(find "$room/tmp" -mindepth 1 -maxdepth 1 | wc -l)
  [ "$left" -le "$((status == 1))" ] || echo "$left files remain"
  return "$status"
}

# said TEXT: prints what was said on standard error if this is not in it.
said() {
  grep -qF -- "$1" "$room/said" || cat "$room/said"
}

# edits WORD: makes a source newer than the program, with other contents.
edits() {
  touch -d '1 hour ago' "$program"
  echo "// $1" >> "$source"
}

# waits COMMAND..: until the command succeeds, at most a minute.
waits() {
  local tries
  for ((tries = 0; tries < 600; tries++)); do
    ! "$@" > /dev/null 2>&1 || return 0
    sleep 0.1
  done
  echo "$*: not in a minute"
}
