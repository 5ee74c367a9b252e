Examples that pages show.

  $ . "$TESTDIR/lib.sh"
  $ pages=$TESTDIR/../../..

README's examples of pipes show what it says there; blanks at line ends aside. What differs is printed.

  $ ln -s "$TREE/forth" forth
  $ sed -n '/^## Write a program/,/^## Limitations/p' "$pages/README.md" > part
  $ grep -q '^    \$ ' part
  $ typed=
  > while IFS= read -r line; do
  >   case $line in
  >     '    $ '*) typed=${line#'    $ '} wanted= ;;
  >     '    '*) wanted+=${line#'    '}$'\n' ;;
  >     *) [ -z "$typed" ] || diff <(printf %s "$wanted") <(bash -c "$typed" 2>&1 | sed 's/ *$//'); typed= ;;
  >   esac
  > done < part

Each example of docs/PROGRAM.md is built alone, in line 1 of screen 1, and prints what is after its `=>`. What differs is printed.

  $ first=$(sed -n 's/.*line 0 of screen 1 is `\([^`]*\)`.*/\1/p' "$pages/docs/PROGRAM.md")
  $ sed -n 's/^    \([^ ].*[^ ]\)  *=> /\1\t/p' "$pages/docs/PROGRAM.md" > examples
  $ [ "$(wc -l < examples)" -ge 20 ]
  $ while IFS=$'\t' read -r line wanted; do
  >   printf '%1024s%-64s%-960s' '' "$first" "$line" > x.blk
  >   got=$(forth83 build x.blk 1 1 x.img)
  >   [ "$got" = "$wanted" ] || printf '%s\n' "$line" "  wanted $wanted" "  got $got"
  > done < examples
