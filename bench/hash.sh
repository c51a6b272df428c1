#!/bin/sh
# The speed of the proved hash beside plain C++ of the same algorithm, on the same keys in one run.
# It needs the kit's `rt`, `git` and `g++`, and works in a folder of its own. Run it from anywhere:
#     bench/hash.sh
# The program `hash/hash.rattle` is no crate of the repository, so the merge gate does not read it.
set -e
root=$(cd "$(dirname "$0")/.." && pwd)
work=$(mktemp -d)
trap 'rm -rf "$work"' EXIT
mkdir -p "$work/crates/hash_bench/src"
cp -r "$root/crates/murmur_core" "$work/crates/murmur_core"
cp "$root/bench/hash/hash.rattle" "$work/crates/hash_bench/src/main.rt"
printf 'murmur_core:\nhash_bench: murmur_core\n' > "$work/crates.txt"
git init -q "$work"
(cd "$work/crates/hash_bench" && "${RT:-rt}" run > "$work/log" 2>&1) || { cat "$work/log"; exit 1; }
g++ -O2 -o "$work/plain" "$root/bench/hash/hash.cpp"
# The best of five runs of each, by turns.
for turn in 1 2 3 4 5; do
    "$work/crates/hash_bench/out/hash_bench" | sed 's/^/rattle /'
    "$work/plain" | sed 's/^/plain /'
done | awk '
    { key = $1 " " $2; if (!(key in best) || $3 < best[key]) best[key] = $3; seen[$2 " " $4] = 1 }
    END {
        bytes["short"] = 400 * 733915; bytes["long"] = 600 * 1048576
        for (k in bytes)
            printf "%s keys: %.0f MB/s proved, %.0f MB/s plain C++, ratio %.2f\n", k,
                bytes[k] / best["rattle " k], bytes[k] / best["plain " k], best["plain " k] / best["rattle " k]
        for (s in seen) n++
        if (n != 2) { print "the hashes differ"; exit 1 }
    }'
