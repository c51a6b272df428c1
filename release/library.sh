# The library: what it is built of, what is shipped of it, and how it is built. Read by ./build, .ci/run and the tests after
# sources.sh and prove.sh; `here` is the top of the checkout.

library_shipped=$here/release/x86_64-linux
library_record=$here/release/LIBRARY-BUILT-FROM
library_files='flagops.h flagops.pc libflagops.a libflagops.so.0'

# What flagops_about answers: a text, and the definition that it is proved by.
library_about='crates/flagops_c/src/about.rt crates/flagops_c/specs/About.antt'

# The SHA-256 of all that it is built of, as that of the program: of its crates, and of what packs it. It stands in those two files
# itself, and is made of the text without it.
sum_of_library_sources() (
    root=flagops_c
    beside='library/flagops.h library/flagops.pc library/hide.py library/pack.sh'
    telling=$library_about
    sum_of_sources
)

# Has the two files tell a kit and a sum. A file that does already keeps its time.
tell_about() (
    cd "$here" || exit 1
    for file in $library_about; do
        sed "s/proved with .*\\\\nsources [0-9a-f]*/proved with $1\\\\nsources $2/" "$file" >"$file.new" || exit 1
        if cmp -s "$file" "$file.new"; then rm "$file.new"; else mv "$file.new" "$file"; fi || exit 1
    done
)

# Has them tell this kit and the sum of these sources.
name_library() (
    kit=$(rt version) && tell_about "$kit" "$(sum_of_library_sources)" || exit 1
    sources=$(sum_of_library_sources) && tell_about "$kit" "$sources"
)

# What the record says of `kit` or `sources`.
library_recorded() (
    record=$library_record
    recorded "$1"
)

# The sums of its files in a folder, as sha256sum prints them.
sums_of_library() (
    cd "$1" && sha256sum $library_files
)

# Whether the shipped files are those that the record names.
is_library_recorded() {
    [ "$(sums_of_library "$library_shipped" 2>/dev/null)" = "$(grep '  ' "$library_record" 2>/dev/null)" ]
}

# Whether they are built of the sources of this checkout.
is_library_of_these() {
    is_library_recorded && [ "$(sum_of_library_sources)" = "$(library_recorded sources)" ]
}

# Has the kit prove its crates in a copy, and packs what it makes of them into a folder.
build_library() (
    root=flagops_c
    room=$(mktemp -d) || exit 1
    trap 'rm -rf "$room"' EXIT
    trap 'exit 130' INT TERM
    copy "$room/copy" || exit 1
    echo "flagops: proving and building the library, $(crate_names | grep -c .) crates .." >&2
    (cd "$room/copy" && RT_JOBS=$(lanes) rt ci) >"$room/log" 2>&1 && (cd "$room/copy/crates/flagops_c" && rt lib) >>"$room/log" 2>&1 || {
        tail -n 30 "$room/log" >&2
        exit 1
    }
    "$here/library/pack.sh" "$room/copy/crates/flagops_c/out/libflagops_c.a" "$1"
)

# Builds the library and ships it, with what it was built of.
ship_library() (
    name_library && kit=$(rt version) && sources=$(sum_of_library_sources) || exit 1
    made=$(mktemp -d) || exit 1
    trap 'rm -rf "$made"' EXIT
    build_library "$made" || exit 1
    [ "$(sum_of_library_sources)" = "$sources" ] || { echo "build: the sources were changed meanwhile; run ./build again" >&2; exit 1; }
    for file in $library_files; do cp "$made/$file" "$library_shipped" || exit 1; done
    { printf 'kit %s\nsources %s\n' "$kit" "$sources" && sums_of_library "$library_shipped"; } >"$library_record"
    echo "build: release/x86_64-linux/libflagops is built of these sources:" >&2
    cat "$library_record" >&2
)
