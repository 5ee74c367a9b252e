Programs over the C library: they compile without a warning, and show what the program shows. LIBRARY is a folder that build/targets/make made; LAYOUT has
layout.h, which tests/targets/check-embed makes of the library's sources.

  $ . "$TESTDIR/../commands/lib.sh"
  $ targets=$TESTDIR/../../targets embed=$EXAMPLES/embed
  $ strict=(-Wall -Wextra -pedantic -Werror "-I$LIBRARY/include")
  $ here() { for it; do ! command -v "$it" > /dev/null || echo "$it"; done; }
  $ export PYTHONPATH=$TREE/build/targets/python PYTHONDONTWRITEBYTECODE=1

Compilers of C and of C++ have nothing to say of the header. Its records lie as those of the library's sources, and its own code does what it says.

  $ for compiler in $(here gcc clang); do $compiler -std=c11 "${strict[@]}" -fsyntax-only "$targets/header_alone.c"; done
  $ for compiler in $(here g++ clang++); do $compiler -xc++ -std=c++17 -Wold-style-cast "${strict[@]}" -fsyntax-only "$targets/header_alone.c"; done
  $ cc -std=c11 "${strict[@]}" "-I$LAYOUT" "$targets/header.c" -o header && ./header

A host that was compiled with another layout's header does not link.

  $ cc "$targets/old_host.c" "$LIBRARY/lib/libforth83.a" -o old 2> said
  [1]
  $ said forth83_load

The program with which docs/EMBEDDING.md begins.

  $ forth83 kernel kernel.blk && forth83 build kernel.blk 1 20 kernel.img > built
  $ awk '/^    #include/ { on = 1 } on && /^$/ { exit } on { print substr($0, 5) }' "$TREE/docs/EMBEDDING.md" > hello.c
  $ for compiler in $(here gcc clang); do $compiler -std=c99 "${strict[@]}" hello.c "$LIBRARY/lib/libforth83.a" -o hello && ./hello; done | uniq
  12 DUP * . 144  ok

The test bench in C, also with the compiler's sanitizers, and in Python shows what the program shows over 16 blank blocks.

  $ cp "$embed"/{Makefile,bench.c,many.c} . && make "LIBRARY=$LIBRARY" > made
  $ cc -std=c11 "${strict[@]}" -g -fsanitize=address,undefined bench.c "$LIBRARY/lib/libforth83.a" -o sanitized
  $ hosts() {
  >   ./bench "$@" < typed > shown 2> said || echo "[$?]"
  >   ./sanitized "$@" < typed 2> said.2 | cmp - shown
  >   python3 "$embed/bench.py" --library ./libforth83.so.* "$@" < typed 2> said.3 | cmp - shown
  > }
  $ cat > typed << 'END'
  > : SQUARE DUP * ;
  > 12 SQUARE .
  > 3 4
  > + .
  > 1 0 /
  > NOWORD
  > 2 BLOCK 5 42 FILL UPDATE 3 BLOCK C@ . 4 BLOCK C@ . 5 BLOCK C@ . 6 BLOCK C@ . 2 BLOCK C@ .
  > SAVE-BUFFERS 2 BLOCK 4 + C@ . 99 BLOCK
  > : COUNT-DOWN 0 DO 9 I - . LOOP ; 10 COUNT-DOWN
  > : STARS 0 DO 42 EMIT LOOP ; 70 STARS
  > KEY A .
  > END
  $ hosts kernel.img
  $ head -c 16384 /dev/zero > blocks && forth83 run kernel.img blocks < typed | cmp - shown

Its instrument, which measures in each line, and a line that never ends:

  $ printf '1 BLOCK 4 + 21 OVER ! UPDATE FLUSH\n1 BLOCK DUP @ . 2+ @ .\n: L BEGIN AGAIN ; L\n5 .\n' > typed
  $ hosts kernel.img && cat shown
  1 BLOCK 4 + 21 OVER ! UPDATE FLUSH  ok
  1 BLOCK DUP @ . 2+ @ . 2 42  ok
  : L BEGIN AGAIN ; L\x20 (esc)
  (interrupted)
  5 . 5  ok
  $ printf '1 BLOCK @ .\n1 BLOCK @ .\n' > typed
  $ hosts kernel.img && cat shown
  1 BLOCK @ . 1  ok
  1 BLOCK @ . 2  ok

They enter a word by its name in place of an image's own first one, and end where no word has the name.

  $ { head -c 21504 kernel.blk; printf %-1024s ': PLAN 6 7 * . QUIT ;'; } > own.blk
  $ forth83 load kernel.img own.blk 21 21 plan.img > made
  $ echo '5 .' > typed
  $ hosts plan.img PLAN && cat shown
  42 5 . 5  ok
  $ hosts plan.img plan && cat shown
  [1]
  $ cat said said.2 said.3
  *plan: status 15* (glob)
  *plan: status 15* (glob)
  *plan: status 15* (glob)

A hundred machines in turn: each has its own result, one its fault, and one goes on from a copy that was made before it.

  $ ./many kernel.img > shown && wc -l < shown
  100
  $ number=0; while read -r line; do
  >   case $number in
  >     13) wanted='13: 1 faults, the last one 5*' ;;
  >     42) wanted='42: 0 faults, * . 77 *' ;;
  >     *) wanted="$number: 0 faults, * . $((number * number)) *" ;;
  >   esac
  >   [[ "$line " == $wanted ]] || echo "$line"
  >   number=$((number + 1))
  > done < shown

Stations in C++, with sanitizers, by each compiler that is here, and in Python, by the header and the module alone. The sensor counts from 1000 on, "A" and
"B" are 65 and 66, the squares of 0 to 99 are 99 * 100 * 199 / 6 together, and the faults are those of a division by zero, of a block that
cannot be read, and of an unknown word.

  $ python3 "$embed/stations.py" --library ./libforth83.so.* kernel.img | tee shown
  sensor 1000
  sensor 1001
  key 65 7
  key 66 7
  stations 328350
  call 144
  fault 5
  fault 9
  fault 13
  limit 1
  then 5 6 + . 11  ok
  $ for compiler in $(here g++ clang++); do
  >   $compiler -std=c++17 -O1 -Wold-style-cast "${strict[@]}" -fsanitize=address,undefined "$embed/stations.cpp" "$LIBRARY/lib/libforth83.a" -o stations
  >   ./stations kernel.img | cmp - shown
  > done
