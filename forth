#!/bin/sh
# The Forth: `./forth --help` has the usage. This finds Python, and commands/launch does the rest.
here=$0
[ ! -L "$here" ] || here=$(readlink -f "$here")
case $here in */*) ;; *) here=./$here ;; esac
# The system's own Python comes first: what PATH has may be a script that looks for another one, which takes longer.
for python in /usr/bin/python3 python3; do
  ! command -v "$python" > /dev/null || exec "$python" -I -S "${here%/*}/commands/launch" "$@"
done
echo 'forth: the Forth needs python3, which is not installed' >&2
exit 1
