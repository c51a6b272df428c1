#!/bin/sh
# All long checks of the library, one after another; docs/CHECKS.md says what they found.
#   bench/library/long.sh [FOLDER [PROGRAM]]     FOLDER has the library, PROGRAM is what it is compared with (both: release/x86_64-linux)
# It takes some two hours, and needs python3, cc, clang with its runtime, valgrind, and what bench/plain.sh says of cargo. What each check says is shown as it comes; the last line is 'N passed, M failed'.
here=$(CDPATH='' cd -- "$(dirname -- "$0")/../.." && pwd -P) || exit 1
library=$(CDPATH='' cd -- "${1:-$here/release/x86_64-linux}" && pwd -P) || exit 1
program=${2:-$here/release/x86_64-linux/flagops}
export FLAGOPS_LIBRARY="$library/libflagops.so.0" FLAGOPS="$program"
passed=0 failed=0

count() {
    echo "== $*"
    if "$@"; then passed=$((passed + 1)); else failed=$((failed + 1)); echo "long.sh: failed: $*" >&2; fi
}

count "$here/library/test" "$library" "$program"
count python3 "$here/library/tests/agree.py" "$FLAGOPS_LIBRARY" "$program" 500 200
count python3 "$here/library/tests/plans.py" "$FLAGOPS_LIBRARY" "$program" 2000
count "$here/bench/library/valgrind.sh" "$library"
count "$here/bench/library/races.sh" "$library"
count "$here/bench/library/speed.sh" 5 2 "$library"
count python3 "$here/bench/library/speed.py"
count python3 "$here/bench/library/kill9.py" 200
count "$here/bench/library/fuzz.sh" 1800 "$library"
count "$here/bench/library/load.sh" 3600 "$library"

echo "$passed passed, $failed failed"
[ "$failed" -eq 0 ]
