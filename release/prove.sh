# Proving and building the program with the kit. Read by ./flagops and ./build after sources.sh; `here` is the top of the checkout.
#
# The kit's gate (rt ci) proves the crates that the program stands on and builds it, in a copy that has no tests and no planted
# bugs: each crate once, by one job, as many at a time as processors and memory allow. What is proved is kept on the machine by
# the kit, so that a run that was cut off goes on where it stopped, and the tests (.ci/run) take it from there. How far it is,
# is told on the standard error.

# Where what is proved and built here is put.
built=$here/crates/flagops/out/flagops

# The crates that the program stands on, and the program, a name a line.
crate_names() {
    crate_lines | while IFS= read -r line; do printf '%s\n' "${line%%[: ]*}"; done
}

# Whether the program that was built here is younger than all that it is built of.
is_built() {
    [ -x "$built" ] && [ -z "$(cd "$here/crates" && find ../crates.txt ../HANDLES $(crate_names) \
        \( -name out -o -name must-fail \) -prune -o -type f -newer "$built" -print | head -n 1)" ]
}

# As many crates at a time as there are processors, and 3 GB of free memory for each.
lanes() {
    processors=$(nproc 2>/dev/null || echo 1)
    fitting=$(awk '/^MemAvailable:/ { print int($2 / 3000000) }' /proc/meminfo 2>/dev/null)
    fitting=${fitting:-1}
    [ "$fitting" -lt "$processors" ] && processors=$fitting
    [ "$processors" -gt 1 ] && echo "$processors" || echo 1
}

# Says each crate of rt's output as it is proved.
progress() {
    awk -v all="$1" '/^rt: [a-z_]+ (proved|is kept:)/ {
        printf "flagops: proved %s, %d of %d\n", $2, ++proved, all
        fflush()
    }'
}

# A copy, in a folder, of the crates that the program stands on, without their planted bugs.
copy() {
    mkdir "$1" "$1/crates" && cp "$here/HANDLES" "$1" || return 1
    crate_lines >"$1/crates.txt"
    crate_names | while read -r name; do
        mkdir "$1/crates/$name"
        for part in "$here/crates/$name"/*; do
            case ${part##*/} in
                out | must-fail) ;;
                *) cp -R "$part" "$1/crates/$name" || return 1 ;;
            esac
        done
    done
}

# Proves the crates and builds the program into crates/flagops/out/.
build() {
    if ! command -v rt >/dev/null 2>&1; then
        echo "flagops: to prove and build the program, the kit's command rt has to be on the path" >&2
        return 1
    fi
    all=$(crate_names | grep -c .)
    jobs=$(lanes)
    room=$(mktemp -d) || return 1
    trap 'rm -rf "$room"; exit 130' INT TERM
    log=$room/log
    started=$(date +%s)
    copy "$room/copy" || return 1
    echo "flagops: proving and building the program, $all crates, $jobs at a time; from nothing it takes about an hour .." >&2
    (cd "$room/copy" && RT_JOBS=$jobs rt ci) 2>&1 | tee "$log" | progress "$all" >&2
    made=$room/copy/crates/flagops/out/flagops
    if ! grep -qE '^[0-9]+ passed, 0 failed' "$log" || ! [ -x "$made" ]; then
        rm -rf "$room/copy"
        grep -vE '^(statements|crate|fn) .*(loaded|proved)' "$log" | tail -n 30 >&2
        echo "flagops: not all was proved, or the program was not built; the whole log is $log" >&2
        return 1
    fi
    # It is as old as the copy, so that what was edited meanwhile is newer.
    mkdir -p "${built%/*}" && cp "$made" "$built.new" && touch -r "$room/copy/HANDLES" "$built.new" &&
        mv "$built.new" "$built" || return 1
    echo "flagops: built in $(($(date +%s) - started)) seconds" >&2
    rm -rf "$room"
}
