#!/bin/sh
# check.sh: the tests; then a session over a new log, beside what it must show
set -e
./forth test *-test.fs
rm -f check.blk
./forth --quiet main.fs check.blk -e MAIN < morning.txt | diff morning.out -
echo all is well
