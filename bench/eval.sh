#!/bin/sh
# Evaluations per second of a targeting of 31 nodes that reaches a `fractional` operation.
# It needs the kit's `rt` and `git`, and works in a folder of its own, where it proves and builds the program over what the
# crates' own checks kept. Run it from anywhere:
#     bench/eval.sh
# The program `eval/eval.rattle` is no crate of the repository, so the merge gate does not read it.
set -e
root=$(cd "$(dirname "$0")/.." && pwd)
work=$(mktemp -d)
trap 'rm -rf "$work"' EXIT
mkdir -p "$work/crates/eval_bench/src"
for crate in limits murmur_core flag_text bucket_core logic_ast logic_values logic_eval; do
    cp -r "$root/crates/$crate" "$work/crates/$crate"
    grep "^$crate:" "$root/crates.txt" >> "$work/crates.txt"
done
cp "$root/bench/eval/eval.rattle" "$work/crates/eval_bench/src/main.rt"
echo 'eval_bench: flag_text logic_ast logic_eval' >> "$work/crates.txt"
git init -q "$work"
(cd "$work/crates/eval_bench" && "${RT:-rt}" run > "$work/log" 2>&1) || { cat "$work/log"; exit 1; }
# The best of five runs of 200,000 evaluations each.
for turn in 1 2 3 4 5; do
    "$work/crates/eval_bench/out/eval_bench"
done | sort -n | awk '
    NR == 1 { printf "%.0f evaluations per second, %.2f microseconds each\n", 200000 / $1 * 1000000, $1 / 200000 }
    $2 != 200000 { print "not every evaluation reached its site"; exit 1 }'
