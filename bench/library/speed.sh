#!/bin/sh
# Resolutions of the library beside plain Rust (bench/plain) over the same document and contexts, in one thread, by turns, for seconds of a
# processor; the best of each. Then what a second seat and another snapshot take.
#   bench/library/speed.sh [TURNS [SECONDS [FOLDER]]]     5 turns of 2 seconds are the check; FOLDER has libflagops.a (release/x86_64-linux)
# Needs cc, and what bench/plain.sh says of cargo.
set -e
here=$(CDPATH='' cd -- "$(dirname -- "$0")/../.." && pwd -P)
library=${3:-$here/release/x86_64-linux}
document=$here/demo/flags/shop.json
work=$(mktemp -d)
trap 'rm -rf "$work"' EXIT

cc -O2 -D_DEFAULT_SOURCE -I "$here/library" -o "$work/speed" "$here/bench/library/speed.c" "$library/libflagops.a"
(cd "$here/bench/plain" && CARGO_TARGET_DIR=$work/target cargo build --quiet --release --offline)
for turn in $(seq "${1:-5}"); do
    "$work/speed" "$document" checkout "${2:-2}" | sed 's/^/C, /'
    "$work/target/release/plain" rates "$document" checkout "${2:-2}" | sed 's/^/plain Rust, /'
done >"$work/rates"
awk -F ': ' '
    { rate = $2 + 0; if (!($1 in best)) { names[++count] = $1; best[$1] = 0 } if (rate > best[$1]) best[$1] = rate }
    function beside(what, way) { return sprintf("%.2f", best["C, " what] / best["plain Rust, " way ", " what]) }
    END {
        for (i = 1; i <= count; i++) printf "%s: %d a second, %.2f microseconds each\n", names[i], best[names[i]], 1e6 / best[names[i]]
        read = "a context that was read once"
        print "C beside plain Rust, " read ": " beside(read, "compiled") " of compiled, " beside(read, "walked") " of walked"
        read = "a context that is read each time"
        print "C beside plain Rust, " read ": " beside(read, "compiled") " of compiled, " beside(read, "walked") " of walked"
    }' "$work/rates"
