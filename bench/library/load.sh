#!/bin/sh
# Eight threads over the library beside replacements, streams and rollouts: whether memory is flat. Needs a C compiler.
#   bench/library/load.sh [SECONDS [FOLDER]]     an hour, 3600, is the check; FOLDER has libflagops.a (release/x86_64-linux)
set -e
here=$(CDPATH='' cd -- "$(dirname -- "$0")/../.." && pwd -P)
library=${2:-$here/release/x86_64-linux}
work=$(mktemp -d)
trap 'rm -rf "$work"' EXIT

cc -std=c11 -Wall -Wextra -Werror -O2 -D_DEFAULT_SOURCE -pthread -I "$here/library" -o "$work/load" "$here/bench/library/load.c" "$library/libflagops.a"
"$work/load" "$here/library/tests/flags.json" "${1:-60}"
