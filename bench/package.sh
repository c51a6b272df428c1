#!/bin/sh
# The package of tools/package.sh in a root of Debian alone: it is installed, runs, and is removed without a trace.
# bench/package.sh [SUITE [MIRROR]], by default bookworm and the mirror that apt has here. Needs root, debootstrap and dpkg-deb, and
# some 300 MB in $TMPDIR. Prints what it has shown; ends with 1 where something is wrong.
set -eu
cd "$(dirname "$0")/.."
suite=${1:-bookworm}
mirror=${2:-$(apt-get indextargets --format '$(REPO_URI)' 'Created-By: Packages' | grep -m 1 debian/*$)}
room=$(mktemp -d)
trap 'rm -rf "$room"' EXIT

wrong() {
    echo "wrong: $*"
    exit 1
}
package=$(tools/package.sh "$room")
debootstrap --variant=minbase "$suite" "$room/root" "$mirror" >"$room/log" 2>&1 || { tail "$room/log"; exit 1; }
(cd "$room/root" && find . -xdev ! -type d ! -path './var/lib/dpkg/*' ! -path './var/log/*' ! -path './var/cache/*' | sort) >"$room/before"
cp "$package" "$room/root/tmp/flagops.deb"
in_root() { chroot "$room/root" /usr/bin/env -i PATH=/usr/sbin:/usr/bin:/sbin:/bin "$@"; }

in_root dpkg -i /tmp/flagops.deb >"$room/log" 2>&1 || { cat "$room/log"; wrong "dpkg -i"; }
rm "$room/root/tmp/flagops.deb"
said=$(in_root flagops --version | head -n 1)
[ "$said" = "flagops $(in_root dpkg-query -W -f '${Version}' flagops)" ] || wrong "$said"
echo '[["on",10],["off",90]]' >"$room/root/tmp/rule"
in_root flagops bucket /tmp/rule test >"$room/log" || wrong "flagops bucket"
rm "$room/root/tmp/rule"
needs=$(in_root ldd /usr/bin/flagops | awk '{ print $1 }' | tr '\n' ' ')
files=$(in_root dpkg -L flagops | grep -c flagops)
in_root dpkg --verify flagops || wrong "dpkg --verify"
in_root dpkg -r flagops >"$room/log" 2>&1 || { cat "$room/log"; wrong "dpkg -r"; }
in_root dpkg -P flagops >>"$room/log" 2>&1 || true
! in_root dpkg-query -W -f '${Status}' flagops 2>/dev/null | grep -q installed || wrong "it is installed still"
(cd "$room/root" && find . -xdev ! -type d ! -path './var/lib/dpkg/*' ! -path './var/log/*' ! -path './var/cache/*' | sort) >"$room/after"
cmp -s "$room/before" "$room/after" || { diff "$room/before" "$room/after"; wrong "files are left"; }
[ -z "$(find "$room/root" -name '*flagops*' ! -path '*/var/log/*')" ] || wrong "$(find "$room/root" -name '*flagops*')"
echo "$suite: $said installed ($files paths, it needs $needs), run, removed: nothing is left"
