#!/bin/sh
# Tries wrong bodies that the gate leaves out: bench/wrong.sh [CRATE ..], without names all of bench/wrong/. Each must be refused.
#
# A line tells of each that was tried whether it was refused, with the kit's words, and the last line is 'N refused, M not'; ends
# with 1 where M is not 0. While a crate is tried they stand beside the edits that the gate tries of it, which are tried too. However
# the run ends, they are taken away again. Needs the kit; a crate takes some twenty seconds for each, beside its proof.
set -u
cd "$(dirname "$0")/.." || exit 1
[ $# -gt 0 ] || set -- $(ls bench/wrong)

log=$(mktemp) || exit 1
folder=
copies=
kit=

# Takes away what was put beside the edits of a crate.
take_away() {
    [ -z "$copies" ] || rm -f $copies
    copies=
    [ -z "$folder" ] || rmdir "$folder" 2>/dev/null
}

# Ends the kit, where it is trying a crate.
leave() {
    [ -z "$kit" ] || { kill "$kit" 2>/dev/null && wait "$kit"; }
    take_away
    rm -f "$log"
}
trap leave EXIT
trap 'exit 130' INT
trap 'exit 143' TERM HUP

# Puts the wrong bodies of a crate beside its edits, and has the kit try them all.
try() {
    folder=crates/$1/must-fail
    mkdir -p "$folder" || return
    for edit in bench/wrong/"$1"/*.edit; do
        to=$folder/${edit##*/}
        if [ -e "$to" ]; then
            echo "rt: must-fail $1/${edit##*/}: NOT TRIED: the gate has an edit of this name" >>"$log"
        else
            copies="$copies $to"
            cp "$edit" "$to"
        fi
    done
    rt must-fail "$1" >>"$log" 2>&1 &
    kit=$!
    wait "$kit"
    kit=
    take_away
}

refused=0
not=0
for crate in "$@"; do
    : >"$log"
    if [ ! -d "bench/wrong/$crate" ]; then
        echo "$crate: there is no folder bench/wrong/$crate"
        not=$((not + 1))
        continue
    fi
    try "$crate"
    for edit in bench/wrong/"$crate"/*.edit; do
        name=$crate/${edit##*/}
        said=$(grep -F "must-fail $name: " "$log" | tail -n 1)
        said=${said#*"must-fail $name: "}
        case $said in
            refused*) refused=$((refused + 1)) ;;
            *) not=$((not + 1)) ;;
        esac
        echo "$name: ${said:-NOT TRIED: $(tail -n 1 "$log")}"
    done
done
echo "$refused refused, $not not"
[ "$not" -eq 0 ]
