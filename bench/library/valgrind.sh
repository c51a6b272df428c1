#!/bin/sh
# The tests of the library under valgrind: memcheck on each, helgrind and drd on that with threads. Needs cc and valgrind.
#   bench/library/valgrind.sh [FOLDER]     FOLDER has libflagops.a (release/x86_64-linux)
set -e
here=$(CDPATH='' cd -- "$(dirname -- "$0")/../.." && pwd -P)
library=${1:-$here/release/x86_64-linux}
work=$(mktemp -d)
trap 'rm -rf "$work"' EXIT

run() {
    tool=$1 name=$2; shift 2
    cc -std=c11 -g -O1 -pthread -I "$here/library" -o "$work/$name" "$here/library/tests/$name.c" "$library/libflagops.a"
    valgrind -q --error-exitcode=1 --tool="$tool" "$work/$name" "$@"
    echo "$tool $name: no error"
}

run memcheck answers "$here/library/tests/flags.json"
run memcheck rollouts "$here/library/tests/flags.json"
run memcheck streams
run memcheck threads "$here/library/tests/flags.json"
run helgrind threads "$here/library/tests/flags.json"
run drd threads "$here/library/tests/flags.json"
