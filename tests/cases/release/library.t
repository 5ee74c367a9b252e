The library of a release for this computer. OUT has the files of the release, and ROOT is the tree that they were made of.

  $ umask 022
  $ set -o pipefail
  $ number=$(cat "$ROOT/data/VERSION")

It is found by its description; its hosts run and compile, and its pages have no links to files that it does not have.

  $ mkdir library && tar --warning=no-timestamp -xzf "$OUT"/*-library-x86_64-linux.tar.gz -C library && library=$PWD/$(echo library/*)
  $ find "$library" -name '*.md' | while IFS= read -r page; do
  >   grep -oP '\]\((?!https?:)\K[^)#]+' "$page" | while IFS= read -r name; do [ -e "$(dirname "$page")/$name" ] || echo "$page: $name"; done
  > done
  $ typed=$': SQUARE DUP * ;\n12 SQUARE .\n'
  $ printf %s "$typed" | "$library/bin/terminal" "$library/images/kernel.img" "$library/images/empty.blk"
  : SQUARE DUP * ;  ok
  12 SQUARE . 144  ok
  $ printf ': SQUARE DUP * ;\nSEE SQUARE\n' | python3 -I -S "$ROOT/commands/launch" --program "$library/bin/serve" --quiet
  : SQUARE DUP * ;
  $ flags="-I$library/include -L$library/lib -lforth83"
  $ ! command -v pkg-config > shown || flags=$(PKG_CONFIG_PATH=$library/lib/pkgconfig pkg-config --cflags --libs forth83)
  $ cc -O1 "$library/examples/embed/bench.c" -o bench $flags && [ -x bench ]

CMake finds the library in the unpacked archive, and where the packages install it, and builds the first program of docs/EMBEDDING.md; it does not take
the library for a version that it is not. (Where CMake is missing, this is not tried.)

  $ for package in "$OUT"/libforth83-*_amd64.deb; do dpkg-deb -x "$package" packages; done
  $ host() {
  >   rm -rf host && mkdir host && cp "$library/images/kernel.img" host
  >   awk '/^    #include/ { on = 1 } on && /^$/ { exit } on { print substr($0, 5) }' "$ROOT/docs/EMBEDDING.md" > host/hello.c
  >   printf '%s\n' 'cmake_minimum_required(VERSION 3.13)' 'project(hello C)' "find_package(forth83 $2 REQUIRED)" \
  >     'add_executable(hello hello.c)' 'target_link_libraries(hello forth83::forth83)' > host/CMakeLists.txt
  >   cmake -S host -B host/build "-DCMAKE_PREFIX_PATH=$1" > made 2>&1 && cmake --build host/build > made 2>&1 || return
  >   grep -qF "forth83_LIBRARY:FILEPATH=$1/" host/build/CMakeCache.txt || echo "not in $1"
  >   (cd host && build/hello)
  > }
  $ major=${number%%.*}
  $ found() { ! command -v cmake > shown || { host "$1" "$major.0" | diff - <(echo '12 DUP * . 144  ok') || cat made; }; }
  $ other_version() { ! command -v cmake > shown || { ! host "$1" $((major + 1)) && grep -q 'compatible with requested version' made || cat made; }; }
  $ found "$library" && other_version "$library"
  $ found "$PWD/packages/usr" && other_version "$PWD/packages/usr"
