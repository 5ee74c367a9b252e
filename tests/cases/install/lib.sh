# shellcheck shell=bash
# What the cases of this folder share. PROGRAM is the program that is installed, and ROOT this tree. The folder of the cases is one that another user
# may look into.
umask 022
set -o pipefail # a command that fails is seen before a pipe, too
# shellcheck disable=SC2153
room=$PWD root=$ROOT program=$PROGRAM
prefix="$room/a place/forth"
export LC_ALL=C.UTF-8

# as_other COMMAND..: as a user who owns nothing here, where this one may be any; with a command rt that must not be called.
as_other() (
  cd "$room/home" || exit
  export PATH="$prefix/bin:$room/bin:/usr/bin:/bin" HOME=$room/home
  if [ "$(id -u)" -eq 0 ]; then
    exec setpriv --reuid nobody --regid "$(id -g nobody)" --clear-groups "$@"
  fi
  exec "$@"
)

# Every file that exists, as it is.
listing() {
  find "$1" -printf '%P %y %m %s %T@ %l\n' | sort
}

# completes WORD..: what bash puts for the last word, blanks between.
completes() {
  # shellcheck disable=SC2016
  as_other bash -c 'for file in forth forth83; do . "$0/share/bash-completion/completions/$file"; done
    COMP_WORDS=("$@") COMP_CWORD=$(($# - 1)); "_$1"; echo "${COMPREPLY[*]}"' "$prefix" "$@"
}

# A copy of the tree in which nothing is built, and the command rt.
prepare() {
  mkdir -p tree/crates/forth83/out tree/tools bin home "a place"
  cp -r "$root"/{forth,forth83,install,HANDLES,README.md,CHANGELOG.md,CONTRIBUTING.md,LICENSE,build,commands,data,screens,docs,examples,teaching,page} tree
  cp "$root"/tools/make-* tree/tools
  rm -rf tree/build/out
  echo 'forth83:' > tree/crates.txt
  printf '#!/bin/bash\necho called > %q\n' "$room/home/called" > bin/rt
  chmod 755 bin/rt
  chmod 777 home
}

# The program as a proof leaves it: with the record beside it, which counts where times say nothing.
build() {
  cp "$program" tree/crates/forth83/out/forth83
  {
    printf 'kit kit-of-a-stub\ncrates 5\nfunctions 411\nminutes 20\nprocessors 4\ndate 2026-01-01 00:00\n'
    echo "program $(sha256sum < "$program" | cut -d' ' -f1)"
    echo "sources $(tree/build/sources sum)"
  } > tree/crates/forth83/out/proved
}

# The machine's module, as `./forth page --proved` keeps it. A proof takes long, so that one without proofs takes its place.
module() {
  python3 -B -c 'import sys; sys.path.insert(0, sys.argv[1]); import module; module.module_of("unproved")' "$root/page" 2> said || cat said
  mkdir -p tree/build/out/page
  cp "$root/build/out/page/unproved.wasm" tree/build/out/page/proved.wasm
  cp "$root/build/out/page/unproved.json" tree/build/out/page/proved.json
}

# What a page shows for a line, in a browser; where there is none, that isn't tried.
in_browser() {
  PYTHONPATH=$root/tests/pages python3 -B - "$1" << 'END'
import sys
import time

import browser

if not browser.chromium():
    print("3 4 + . 7  ok")
    sys.exit()
with browser.Browser() as one:
    one.open(sys.argv[1])
    for wanted in ("!!window.page && page.isKeeping && page.session.waitsForLine", "page.enter('3 4 + .'), true", "/7 {2}ok/.test(page.transcript.text())"):
        until = time.time() + 20
        while not one.value(wanted) and time.time() < until:
            time.sleep(0.05)
    print(one.value("page.transcript.text().trim().slice(-13)"), *one.errors, *one.asked)
END
}
