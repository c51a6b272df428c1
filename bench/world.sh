#!/bin/sh
# The time and memory of `merged` over 16 sources with 10,000 flags in all, and of `run_events` over 100,000 events.
# It needs the kit's `rt` and `git`, and works in a folder of its own. Run it from anywhere:
#     bench/world.sh
# The program `world/world.rattle` is no crate of the repository, so the merge gate does not read it.
set -e
root=$(cd "$(dirname "$0")/.." && pwd)
work=$(mktemp -d)
trap 'rm -rf "$work"' EXIT
mkdir -p "$work/crates/world_bench/src"
for crate in limits flag_text spelled_numbers flag_metadata murmur_core bucket_core logic_ast flag_references flag_defs source_merge exposures book_core snap_core; do
    cp -r "$root/crates/$crate" "$work/crates/$crate"
    grep "^$crate:" "$root/crates.txt" >> "$work/crates.txt"
done
cp "$root/bench/world/world.rattle" "$work/crates/world_bench/src/main.rt"
echo 'world_bench: book_core flag_defs source_merge snap_core anyhow' >> "$work/crates.txt"
git init -q "$work"
(cd "$work/crates/world_bench" && "${RT:-rt}" run > "$work/log" 2>&1) || { cat "$work/log"; exit 1; }
# The best of five runs, and the most memory that one took.
for turn in 1 2 3 4 5; do
    /usr/bin/time -f 'memory %M' "$work/crates/world_bench/out/world_bench" 2>&1
done | awk '
    $1 == "memory" { if ($2 > most) most = $2; next }
    { if (!($1 in best) || $2 < best[$1]) best[$1] = $2; count[$1] = $3 }
    END {
        for (name in best)
            printf "%s: %.1f ms, %d\n", name, best[name] / 1000, count[name]
        printf "memory at most: %.0f MB\n", most / 1024
    }'
