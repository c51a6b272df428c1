#!/bin/sh
# Asks a second of `flagops drive` at 1, 2, 4 and 8 workers, and each as a ratio to 1 worker, over the largest asks file.
#
# Two kinds of asks: of a flag whose targeting is one `fractional` operation, where a note is a good part of an ask's work,
# and of one that tests a thousand names before it, where the evaluation is nearly all of it. Reading the files and printing
# are part of each time; a run with one ask in a file as long, which is one ask with a long default, tells how much.
#
# The time under the lock is measured without threads, over the same files: an ask's evaluation, and its note in a plain book,
# which is what lies under the lock of a shared one. The program `drive/lock.rattle` is no crate of the repository, so the gate
# does not read it.
#
# Needs python3, which makes the files, and git.

. "$(dirname -- "$0")/opening.sh"
python3 - "$here/flagops" "$folder" <<'PYTHON'
import json, os, subprocess, sys, time

program, folder = sys.argv[1:]
LIMIT = 4_194_304


def put(place, name, text):
    os.makedirs(os.path.join(folder, place), exist_ok=True)
    path = os.path.join(folder, place, name)
    with open(path, "w") as file:
        file.write(text)
    return path


def compact(value):
    return json.dumps(value, separators=(",", ":"))


def run(document, asks, workers):
    """The best time of three runs in seconds, and the five counts."""
    best = None
    for _ in range(3):
        started = time.perf_counter()
        child = subprocess.run([program, "drive", document, asks, str(workers), os.path.join(folder, "book")], stdout=subprocess.PIPE)
        taken = time.perf_counter() - started
        if child.returncode != 0:
            sys.exit(child.stdout.decode()[:200])
        best = taken if best is None else min(best, taken)
    return best, b" ".join(child.stdout.split(b"\n")[-6:-1]).decode()


names = [f"customer-{i:04}" for i in range(1000)]
share = {"fractional": [["on", 5], ["off", 95]]}
kinds = {
    "one operation": ("operation", share),
    "a thousand tests before it": ("tests", {"if": [{"in": [{"var": "targetingKey"}, names]}, "on", share]}),
}
print(f"{len(os.sched_getaffinity(0))} processors; best of 3 runs")
for kind, (place, targeting) in kinds.items():
    flag = {"state": "ENABLED", "variants": {"on": True, "off": False}, "defaultVariant": "off", "targeting": targeting}
    document = put(place, "document.json", compact({"flags": {"f": flag}}))
    texts, size = [], 2
    while True:
        text = compact({"key": "f", "want": "bool", "default": False, "context": {"targetingKey": f"user-{len(texts):07}"}, "moment": 0})
        if size + len(text) + 1 > LIMIT:
            break
        texts.append(text)
        size += len(text) + 1
    asks = put(place, "asks.json", "[" + ",".join(texts) + "]")
    long = compact([{"key": "f", "want": "bool", "default": "d" * (size - 100), "context": {"targetingKey": "user"}, "moment": 0}])
    around, _ = run(document, put(place, "one.json", long), 1)
    first = None
    for workers in (1, 2, 4, 8):
        taken, counts = run(document, asks, workers)
        first = first or taken
        print(f"{kind}, {workers} workers: {taken:.2f} s, {len(texts) / taken:.0f} asks/s, {first / taken:.2f} times 1 worker ({counts})")
    print(f"{kind}: one ask in a file as long {around:.2f} s")
PYTHON

# A crate of the repository, copied with the library that was built of it, which the kit finds good by what it was made of: so
# it proves the program alone. A crate that was not built here is proved there.
copied() {
    mkdir -p "$folder/lock/crates/$1/out"
    for part in "$here/crates/$1"/*; do
        if [ "$part" != "$here/crates/$1/out" ]; then
            cp -a "$part" "$folder/lock/crates/$1"
        elif [ -d "$part/rlib" ]; then
            cp -a "$part/rlib" "$folder/lock/crates/$1/out"
        fi
    done
}

mkdir -p "$folder/lock/crates/drive_bench/src"
cp "$here/HANDLES" "$folder/lock/HANDLES"
for crate in limits flag_text member_names spelled_numbers flag_metadata progress murmur_core bucket_core logic_ast logic_values logic_eval flag_references flag_defs flag_resolve exposures book_core site_pages book_lock book_share flagops_drive; do
    copied "$crate"
    grep "^$crate[ :]" "$here/crates.txt" >> "$folder/lock/crates.txt"
done
cp "$here/bench/drive/lock.rattle" "$folder/lock/crates/drive_bench/src/main.rt"
echo 'drive_bench: flag_text flag_defs flag_resolve book_core book_share flagops_drive anyhow' >> "$folder/lock/crates.txt"
git init -q "$folder/lock"
cp "$folder/operation/document.json" "$folder/operation/asks.json" "$folder/lock/crates/drive_bench"
(cd "$folder/lock/crates/drive_bench" && "${RT:-rt}" run > "$folder/log" 2>&1) || { cat "$folder/log"; exit 1; }
# The best of five runs over each kind's files.
for place in operation tests; do
    for turn in 1 2 3 4 5; do
        (cd "$folder/$place" && "$folder/lock/crates/drive_bench/out/drive_bench") | sed "s/^/$place /"
    done
done | awk '
    { key = $1 " " $2; if (!(key in best) || $3 < best[key]) best[key] = $3; seen[key] = $4 }
    END {
        for (key in best) cost[key] = best[key] / seen[key]
        printf "under the lock %.2f microseconds an ask; the evaluation of one operation %.2f, of a thousand tests before it %.2f\n",
            cost["operation note"], cost["operation evaluation"], cost["tests evaluation"]
    }'
