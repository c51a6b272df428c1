#!/bin/sh
# The library's test with threads under ThreadSanitizer. The archive is not instrumented: it sees what C does around the calls, and each
# call of the C library that the archive makes (memory that one thread frees and another copies, say); valgrind.sh sees each access.
#   bench/library/races.sh [FOLDER]     FOLDER has libflagops.a (release/x86_64-linux). It needs clang with its runtime.
set -e
here=$(CDPATH='' cd -- "$(dirname -- "$0")/../.." && pwd -P)
library=${1:-$here/release/x86_64-linux}
work=$(mktemp -d)
trap 'rm -rf "$work"' EXIT

clang -std=c11 -g -O1 -pthread -fsanitize=thread -I "$here/library" -o "$work/threads" "$here/library/tests/threads.c" "$library/libflagops.a"
TSAN_OPTIONS='halt_on_error=1 exitcode=1' "$work/threads" "$here/library/tests/flags.json"
echo "ThreadSanitizer threads: no error"
