#!/usr/bin/env bash
# The processor time of the gate, crate by crate, in seconds: the crate's proof from nothing, its tests' proof and build, and
# its wrong bodies, with the sum. Needs the kit and an otherwise quiet machine, and takes as long as the gate.
#
#   bench/gate.sh [NAME ..]     of all crates, or of these (the crates below them are built first, and not counted)
#   bench/gate.sh --slow NAME   of one crate, the functions that take longest, each with all that was made of it
#
# Each row is printed as it comes. It works in a copy of the last commit, which a run that is cut off leaves: the next one of the same
# commit goes on there, and prints the rows that it has at once. The gate itself runs several crates side by side, so that its own
# processor time is a little more than the sum.
set -eu
cd "$(dirname "$0")/.."

room=${TMPDIR:-/tmp}/flagops-gate-$(git rev-parse HEAD)
rows=$room/rows
trap 'trap "" INT TERM HUP; echo "bench/gate.sh: cut off; run it again to go on, or remove $room" >&2; exit 130' INT TERM HUP
if [ ! -e "$rows" ]; then
    rm -rf "$room"
    mkdir -m 700 "$room"
    git clone -q . "$room/clone"
    touch "$rows"
fi
cd "$room/clone"

# The crates of crates.txt, in its order.
crates() {
    sed -E 's/#.*//; s/[ :].*//; /^$/d' crates.txt
}

# Runs words in a crate and says the processor time, or `failed`.
seconds() {
    local folder=$1 log=$room/log
    shift
    TIMEFORMAT='%U %S'
    if { time (cd "$folder" && "$@" >"$log" 2>&1); } 2>"$room/time"; then
        awk '{ printf "%.0f", $1 + $2 }' "$room/time"
    else
        tail -n 3 "$log" >&2
        echo failed
    fi
}

# Builds the crates that the crate names in crates.txt.
below() {
    local used
    for used in $(sed -nE "s/^$1[^:]*: *//p" crates.txt); do
        [ ! -d "crates/$used" ] || (cd "crates/$used" && rt lib --jobs 4 >/dev/null)
    done
}

# One row of the table: the one that was made before, or a new one, which is kept where all was proved.
row() {
    local name=$1 verb=lib proof tests=0 edits=0 found line
    if grep "^$name " "$rows"; then
        return
    fi
    below "$name"
    rm -rf "crates/$name/out"
    [ ! -e "crates/$name/src/main.rt" ] || verb=check
    proof=$(seconds "crates/$name" rt "$verb" --jobs 1)
    if grep -rqs '#\[test\]' "crates/$name/src"; then
        tests=$(seconds "crates/$name" rt test --jobs 1)
    fi
    found=$(find "crates/$name/must-fail" -name '*.edit' 2>/dev/null | wc -l)
    [ "$found" -eq 0 ] || edits=$(seconds . rt must-fail "$name")
    line=$(printf '%-20s %7s %7s %7s %5s' "$name" "$proof" "$tests" "$edits" "$found")
    printf '%s\n' "$line"
    case $line in *failed*) is_whole= ;; *) printf '%s\n' "$line" >>"$rows" ;; esac
}

# What each function took: a check at one job keeps its work in files, one after the other, so that the time between two of
# them is what the second one took.
slow() {
    below "$1"
    rm -rf "crates/$1/out"
    (cd "crates/$1" && rt check --jobs 1 --test >/dev/null)
    find "crates/$1/out/incremental" -path '*/records/*' -printf '%T@ %f\n' | sort -n | python3 -c '
import re, sys
name, taken, before = sys.argv[1], {}, None
kinds = r"\.(Code|Proof|Statement|Met|TheLink|Invariants|Answers|Goals|Key|Tie|Laws|Lts|Reads|Instances|Kinds|Carried|The)\b.*|\.(Kinds|Carried)-.*"
for line in sys.stdin:
    moment, file = line.split()
    path = re.sub(rf"^Rattle-{name}[-.](proofs|specs)\.(contracts\.|declared\.)?", "", file.removesuffix(".decls.oantt"))
    path = re.sub(kinds, "", path)
    if before is not None:
        taken[path] = taken.get(path, 0) + float(moment) - before
    before = float(moment)
for path, seconds in sorted(taken.items(), key=lambda it: -it[1])[:20]:
    print(f"{seconds:7.1f} {path}")
' "$1"
}

if [ "${1:-}" = --slow ]; then
    slow "$2"
    [ -s "$rows" ] || rm -rf "$room"
    exit
fi
is_whole=yes
names=$(crates)
[ $# -eq 0 ] || names=$(printf '%s\n' $names | grep -xF "$(printf '%s\n' "$@")")
printf '%-20s %7s %7s %7s %5s\n' crate proof tests edits of
for name in $names; do
    row "$name"
done
for name in $names; do
    grep "^$name " "$rows" || true
done | awk '{ p += $2; t += $3; e += $4; n += $5 } END { printf "%-20s %7d %7d %7d %5d\n", "all", p, t, e, n }'
# Rows of others are those of a run that was cut off.
[ -z "$is_whole" ] || [ "$(wc -l <"$rows")" -gt "$(wc -w <<<"$names")" ] || rm -rf "$room"
