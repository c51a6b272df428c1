# What the program is built of, the sum of it, and whether the shipped program is built of this checkout. Read by ./flagops,
# ./build and .ci/run, which set `here` to the top of the checkout. It needs a POSIX shell and coreutils, nothing else.

shipped=$here/release/x86_64-linux/flagops
record=$here/release/BUILT-FROM

newline='
'

# The lines of crates.txt of the program, or of another crate that is `root`, and of all crates that it stands on, in the order of
# the file.
crate_lines() (
    set -f
    IFS=$newline
    lines=$(cat "$here/crates.txt")
    wanted=" ${root:-flagops} "
    before=
    while [ "$wanted" != "$before" ]; do
        before=$wanted
        for line in $lines; do
            case $wanted in *" ${line%%[: ]*} "*) ;; *) continue ;; esac
            IFS=' '
            for below in ${line#*:}; do
                case $wanted in *" $below "*) ;; *) wanted="$wanted$below " ;; esac
            done
            IFS=$newline
        done
    done
    for line in $lines; do
        case $wanted in *" ${line%%[: ]*} "*) printf '%s\n' "$line" ;; esac
    done
)

# The files below a folder, without what is made there (out) and the planted bugs (must-fail).
files_below() {
    for path in "$1"/*; do
        case ${path##*/} in out | must-fail) continue ;; esac
        if [ -d "$path" ]; then files_below "$path"; elif [ -f "$path" ]; then printf '%s\n' "$path"; fi
    done
}

# The lines that sha256sum prints of files. Of those that are `telling` the sum itself, it is that of their text without its digits.
sums_of_files() (
    sums=$(sha256sum "$@") || exit 1
    if [ -z "${telling:-}" ]; then
        printf '%s\n' "$sums"
        exit
    fi
    printf '%s\n' "$sums" | while IFS= read -r line; do
        case " $telling " in
            *" ${line#*  } "*) printf '%s  %s\n' "$(sed 's/[0-9a-f]\{64\}//' "${line#*  }" | sum_of /dev/stdin)" "${line#*  }" ;;
            *) printf '%s\n' "$line" ;;
        esac
    done
)

# The SHA-256 of all that the program is built of: of the text that has, for HANDLES and for each file of those crates, in the
# order of the bytes of their paths, the line that sha256sum prints, and then the crates' lines of crates.txt, in that order. The
# files that are `beside` them come behind HANDLES.
sum_of_sources() (
    cd "$here" || exit 1
    LC_ALL=C
    export LC_ALL
    lines=$(crate_lines) || exit 1
    # shellcheck disable=SC2046
    set -- HANDLES ${beside:-} $(printf '%s\n' "$lines" | while IFS= read -r line; do files_below "crates/${line%%[: ]*}"; done | sort)
    { sums_of_files "$@" && printf '%s\n' "$lines" | sort; } | sha256sum | cut -d ' ' -f 1
)

# What BUILT-FROM says of `kit`, `program` or `sources`.
recorded() {
    while read -r word rest; do
        if [ "$word" = "$1" ]; then
            printf '%s\n' "$rest"
            return
        fi
    done <"$record"
}

# The SHA-256 of a file.
sum_of() {
    sha256sum <"$1" | cut -d ' ' -f 1
}

# Whether the shipped program is built of the sources of this checkout, and runs here. Where it is not, `why` says it.
is_built_of_these() {
    if ! [ -x "$shipped" ] || ! [ -r "$record" ]; then
        why='there is no shipped program in release/'
    elif [ "$(uname -sm)" != 'Linux x86_64' ]; then
        why="the shipped program is for x86-64 Linux, and this is $(uname -sm)"
    elif [ "$(sum_of "$shipped")" != "$(recorded program)" ]; then
        why='release/x86_64-linux/flagops is not the program that release/BUILT-FROM names'
    elif [ "$(sum_of_sources)" != "$(recorded sources)" ]; then
        why='the sources of this checkout are not those that the shipped program was built of'
    else
        why=
    fi
    [ -z "$why" ]
}

# What to do about it without the kit, and where git can tell, what differs.
say_differences() {
    since=$(git -C "$here" log -1 --format=%H -- release/BUILT-FROM 2>/dev/null)
    if [ -n "$since" ]; then
        git -C "$here" diff --stat "$since" -- HANDLES crates.txt crates ':!crates/*/must-fail'
        git -C "$here" ls-files --others --exclude-standard -- crates
    fi
    echo 'flagops: put the sources back (git checkout, or a new clone), or have the Rattle kit (rt on the path) prove and build these:'
    echo 'flagops: with it, ./build does that in about an hour. The program of the shipped sources is release/x86_64-linux/flagops.'
}

# All that the answer depends on: the files and the folders, so that a new file is seen too.
watched() (
    cd "$here" || exit 1
    printf '%s\n' HANDLES crates.txt release release/* release/x86_64-linux/* crates
    crate_lines | while IFS= read -r line; do folders_and_files "crates/${line%%[: ]*}"; done
)

folders_and_files() {
    printf '%s\n' "$1"
    for path in "$1"/*; do
        case ${path##*/} in out | must-fail) continue ;; esac
        if [ -d "$path" ]; then folders_and_files "$path"; else printf '%s\n' "$path"; fi
    done
}

# The sum of the numbers, sizes and times of change of what is watched, as it was listed in out/watched: where it is as it was, so
# is the answer. Empty where that can't be told.
state_of_checkout() (
    cd "$here" 2>/dev/null && [ -r out/watched ] || exit 0
    # shellcheck disable=SC2046
    state=$(stat -c '%i %s %.9Z' $(cat out/watched) 2>/dev/null | sha256sum)
    printf '%s\n' "${state%% *}"
)

# The same as `is_built_of_these`, which is asked once for a state of the checkout: its answer is remembered in out/.
is_current() {
    known=
    why=
    [ -r "$here/out/shipped" ] && { read -r known; IFS= read -r why; } <"$here/out/shipped"
    if [ -z "$known" ] || [ "$known" != "$(state_of_checkout)" ]; then
        is_built_of_these
        remember 2>/dev/null
    fi
    [ -z "$why" ]
}

# Remembers the answer; a folder that may not be written has it found anew each time.
remember() {
    mkdir -p "$here/out" && watched >"$here/out/watched.$$" && mv "$here/out/watched.$$" "$here/out/watched" &&
        printf '%s\n%s\n' "$(state_of_checkout)" "$why" >"$here/out/shipped.$$" && mv "$here/out/shipped.$$" "$here/out/shipped"
}
