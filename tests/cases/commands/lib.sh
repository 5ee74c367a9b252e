# shellcheck shell=bash
# What the cases of this folder share. TREE is a folder that tests/shared/lay-built made; `forth83` is its program, `forth` its launcher.
export PATH=$TREE/crates/forth83/out:$TREE:$PATH HOME=$PWD.home EXAMPLES=$TREE/examples

# screens BLOCKS TEXT: a new file of 32 blocks with these screens, as printf's %b has them.
screens() {
  printf '%b' "$2" > text
  rm -f "$1"
  forth83 new "$1" 32
  forth83 screens text "$1"
}

# said TEXT: prints the file `said` if this is not in it.
said() {
  grep -qF -- "$1" said || cat said
}

# source_screen NAME SCREEN TEXT: a file of blocks whose screen SCREEN, its last one, has the text.
source_screen() {
  { printf '%*s' "$(($2 * 1024))" '' && printf '%-1024s' "$3"; } > "$1"
}

# copy_tree TO: copies TREE without the images that the launcher made there.
copy_tree() {
  mkdir "$1"
  tar -C "$TREE" --exclude ./build/out -c . | tar -C "$1" -x
}
