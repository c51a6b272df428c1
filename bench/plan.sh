#!/bin/sh
# The speed of the planner beside LEMON's network simplex, on the same grouped instances.
# It needs the kit's `rt`, `git`, `g++` and LEMON (`liblemon-dev`), and works in a folder of its own, over copies of the
# repository's libraries: those that are built are taken as they are, the others are proved there. Run it from anywhere:
#     bench/plan.sh
# The program `plan/plan.rattle` is no crate of the repository, so the merge gate does not read it.
set -e
root=$(cd "$(dirname "$0")/.." && pwd)
work=$(mktemp -d)
trap 'rm -rf "$work"' EXIT
mkdir -p "$work/crates/plan_bench/src" "$work/crates/plan_bench/proofs/run" "$work/crates/plan_bench/proofs/solve_uncounted"
line='plan_bench: bucket_core book_core price_core transport_core min_cost_flow transport_plan anyhow'
printf '%s\n' "$line" > "$work/crates.txt"
# The crates that it stands on: crates.txt has them lowest first, so they are found from its end on.
python3 - "$line" "$root/crates.txt" > "$work/below" <<'END'
import sys
wanted, found = set(sys.argv[1].split()), []
for line in reversed(open(sys.argv[2], encoding="utf-8").read().split("\n")):
    name, _, below = line.split("#")[0].partition(":")
    if name.split()[:1] and name.split()[0] in wanted:
        wanted.update(below.split())
        found.append(name.split()[0])
print(*reversed(found))
END
for crate in $(cat "$work/below"); do
    grep -E "^$crate( [^:]*)?:" "$root/crates.txt" >> "$work/crates.txt"
    cp -r "$root/crates/$crate" "$work/crates/$crate"
done
cp "$root/HANDLES" "$work/HANDLES"
cp "$root/bench/plan/plan.rattle" "$work/crates/plan_bench/src/main.rt"
cp "$root/bench/plan/answers.proof" "$work/crates/plan_bench/proofs/run/Answers.antt"
cp "$root/bench/plan/invariants.proof" "$work/crates/plan_bench/proofs/solve_uncounted/Invariants.antt"
git init -q "$work"
g++ -O2 -o "$work/lemon" "$root/bench/plan/plan_lemon.cpp"
(cd "$work/crates/plan_bench" && "${RT:-rt}" run > "$work/log" 2>&1) || { tail "$work/log"; exit 1; }
"$work/crates/plan_bench/out/plan_bench" | "$work/lemon"
