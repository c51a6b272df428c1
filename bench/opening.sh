# The opening lines of the benchmarks of the program, which read this file: the repository in `here`, a folder of
# their own in `folder`, and the program built before any run is timed.

name=bench/$(basename -- "$0")
here=$(CDPATH='' cd -- "$(dirname -- "$0")/.." && pwd -P) || exit 1
if ! command -v python3 >/dev/null 2>&1; then
    echo "$name: needs python3, which is not on the path" >&2
    exit 1
fi
folder=$(mktemp -d) || exit 1
trap 'rm -rf "$folder"' EXIT
"$here/flagops" --version >/dev/null || exit 1
