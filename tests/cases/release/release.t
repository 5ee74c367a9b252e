What the files of a release do. OUT has them, ROOT is the tree and PROGRAM the program that they were made of.

  $ umask 022
  $ set -o pipefail
  $ version=$("$PROGRAM" --version) number=$(cat "$ROOT/data/VERSION")

What is refused: a program of another version, or one that says it is proved; a target that there is not; sums to be kept of a program without
proofs; a folder with files. Nothing is left of it.

  $ says() { printf '#!/bin/sh\necho %s\n' "$2" > "$1" && chmod 755 "$1"; }
  $ says old 'forth83 0.0.9, unproved' && says proved "$number"
  $ refused() { "$ROOT/release/make" "$@" 2>&1 | grep -oF -- "$said"; status=$?; ! ls refused 2> listed; return $status; }
  $ said='says that it is forth83 0.0.9, unproved, and the release is of' refused --unproved "$PWD/old" refused
  says that it is forth83 0.0.9, unproved, and the release is of
  [1]
  $ said='and the release is of' refused --unproved "$PWD/proved" refused
  and the release is of
  [1]
  $ said='there is no target vax' refused --targets vax refused
  there is no target vax
  [1]
  $ said='the sums that are kept are those of a proved program' refused --sums --unproved "$PROGRAM" refused
  the sums that are kept are those of a proved program
  [1]
  $ said='is not empty' refused "$OUT"
  is not empty
  [1]

Each file but the source and the sums says in its name that nothing is proved, where nothing is.

  $ (cd "$OUT" && find . -maxdepth 1 -type f) | grep -v -e '-source.tar.gz$' -e SHA256SUMS | case $version in *unproved) grep -v unproved ;; *) grep unproved ;; esac
  [1]
  $ (cd "$OUT" && sha256sum --quiet --check SHA256SUMS && find . -maxdepth 1 -type f ! -name SHA256SUMS | wc -l | diff - <(wc -l < SHA256SUMS))

The source archive has all files of the tree as they are.

  $ mkdir source && tar --warning=no-timestamp -xzf "$OUT"/*-source.tar.gz -C source && source=$PWD/$(echo source/*)
  $ git -C "$ROOT" ls-files | sort > files && (cd "$source" && find . ! -type d -printf '%P\n' | sort) | diff files -
  $ while IFS= read -r name; do [ ! -f "$ROOT/$name" ] || cmp "$ROOT/$name" "$source/$name"; done < files

The archive of the program, unpacked and renamed, by a user who owns nothing, without the toolchain.

  $ archives=("$OUT"/*-linux-x86_64.tar.gz) && echo ${#archives[@]} && archive=${archives[0]}
  1
  $ tar -tvzf "$archive" | awk '{ print $2 }' | sort -u && tar --numeric-owner -tvzf "$archive" | awk '{ print $2 }' | sort -u
  root/root
  0/0
  $ mkdir here home && chmod 777 home && tar --warning=no-timestamp -xzf "$archive" -C here && mv "here/$(basename "$archive" -linux-x86_64.tar.gz)" here/renamed
  $ room=$PWD
  $ other() (
  >   cd home
  >   if [ "$(id -u)" = 0 ]; then set -- setpriv --reuid nobody --regid "$(id -g nobody)" --clear-groups "$@"; fi
  >   exec env -i "PATH=$room/here/renamed/bin:/usr/bin:/bin" "HOME=$room/home" LC_ALL=C.UTF-8 "$@"
  > )
  $ printf ': SQUARE DUP * ;\n12 SQUARE .\nHEX FF DECIMAL .\n' | other forth --quiet | tr -d '\n'
  144 255  (no-eol)
  $ echo '3 4 + .' | other forth x.blk
  forth: x.blk is a new file
  3 4 + . 7  ok
  $ other forth83 --version | diff - <(echo "$version")
  $ case $version in *unproved) wanted='nothing of this program is proved' said=$version ;; *) wanted='the program is proved' said="$version, proved" ;; esac
  $ other forth --status 2>&1 | grep -oF "$wanted" | diff - <(echo "$wanted")
  $ other forth --version | diff - <(echo "$said")
  $ here/renamed/share/jaurimet/install --remove here/renamed && ls here

The program of the archive in the unpacked source, without the toolchain: a session, and the page.

  $ bare() { env "PATH=/usr/local/bin:/usr/bin:/bin" HOME="$PWD" "$@"; }
  $ "$source/tools/use-release" "$archive" > used 2>&1 || cat used
  $ bare "$source/forth" -e '3 4 + .' | tail -n 1
  7  (no-eol)
  $ bare "$source/forth" page -o "$PWD/page.html" > shown 2>&1 && [ -s page.html ] || cat shown
