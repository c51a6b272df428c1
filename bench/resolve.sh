#!/bin/sh
# Resolutions per second of one process, over a document of 1,000 flags and 1,000 contexts: flags with a targeting of
# 12 operations and literals that ends in a `fractional`, and flags without one.
# It needs the kit's `rt` and `git`, and works in a folder of its own. Run it from anywhere:
#     bench/resolve.sh
# The program `resolve/resolve.rattle` is no crate of the repository, so the merge gate does not read it.
set -e
root=$(cd "$(dirname "$0")/.." && pwd)
work=$(mktemp -d)
trap 'rm -rf "$work"' EXIT
mkdir -p "$work/crates/resolve_bench/src"
for crate in limits flag_text spelled_numbers flag_metadata murmur_core bucket_core logic_ast logic_values logic_eval flag_references flag_defs flag_resolve; do
    cp -r "$root/crates/$crate" "$work/crates/$crate"
    grep "^$crate:" "$root/crates.txt" >> "$work/crates.txt"
done
cp "$root/bench/resolve/resolve.rattle" "$work/crates/resolve_bench/src/main.rt"
echo 'resolve_bench: flag_text flag_defs flag_resolve anyhow' >> "$work/crates.txt"
git init -q "$work"
(cd "$work/crates/resolve_bench" && "${RT:-rt}" run > "$work/log" 2>&1) || { cat "$work/log"; exit 1; }
# The best of five runs.
for turn in 1 2 3 4 5; do
    "$work/crates/resolve_bench/out/resolve_bench"
done | awk '
    { if (!($1 in best) || $2 < best[$1]) best[$1] = $2; matched[$1] = $3 }
    END {
        for (kind in best)
            printf "%s flags: %.0f resolutions per second, %d of 500000 matched\n", kind,
                500000 / best[kind] * 1000000, matched[kind]
    }'
