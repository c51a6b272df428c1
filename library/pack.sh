#!/bin/sh
# Makes of the proved archive what is shipped: libflagops.a, whose only global names are the header's, libflagops.so.0, the
# header, and what pkg-config reads.
#   library/pack.sh ARCHIVE FOLDER
# ARCHIVE is what `rt lib` makes of crates/flagops_c, crates/flagops_c/out/libflagops_c.a. It needs the kit that made it, whose linker
# and archiver it uses, and python3: so the same archive gives the same files on each machine.
set -e

archive=${1:?the archive} folder=${2:?the folder}
here=$(CDPATH='' cd -- "$(dirname -- "$0")" && pwd -P)
kit=${KIT:-$(dirname "$(dirname "$(readlink -f "$(command -v rt)")")")}
bin=$kit/toolchain/bin
heap=$kit/c/liblibc_c.a
# the division of 128-bit numbers, as the kit links it into programs
numbers=$kit/toolchain/lib/libgcc.a
work=$(mktemp -d)
trap 'rm -rf "$work"' EXIT

mkdir -p "$folder"
printf '{ global: flagops_*; local: *; };\n' >"$work/names.map"
"$bin/ld.lld" -shared -o "$folder/libflagops.so.0" --version-script "$work/names.map" --soname libflagops.so.0 --build-id=none \
    --gc-sections -z now -z relro -s --whole-archive "$archive" --no-whole-archive "$heap" "$numbers" --allow-shlib-undefined \
    -L/lib/x86_64-linux-gnu -l:libc.so.6

# One object, so that names between the archive's own objects can be hidden.
"$bin/ld.lld" -r -o "$work/flagops.o" --whole-archive "$archive" "$heap" --no-whole-archive "$numbers"
python3 "$here/hide.py" "$work/flagops.o"
rm -f "$folder/libflagops.a"
"$bin/llvm-ar" rcsD "$folder/libflagops.a" "$work/flagops.o"

cp "$here/flagops.h" "$here/flagops.pc" "$folder"
