#!/bin/sh
# A package of the shipped program for Debian: tools/package.sh [FOLDER] writes FOLDER/flagops_VERSION_amd64.deb, by default here.
# It has the program, its man page, the completions of the shells, the unit of systemd, the licence and the pages on operations.
# Needs dpkg-deb. The same files give the same bytes.
set -eu
root=$(CDPATH='' cd -- "$(dirname -- "$0")/.." && pwd -P)
out=${1:-.}
program=$root/release/x86_64-linux/flagops
version=$("$program" --version | sed -n '1s/^flagops //p')
room=$(mktemp -d)
trap 'rm -rf "$room"' EXIT

put() {
    install -D -m "$1" "$2" "$room/$3"
}
umask 022
put 755 "$program" usr/bin/flagops
mkdir -p "$room/usr/share/man/man1" "$room/usr/share/doc/flagops"
gzip -9nc "$root/release/flagops.1" >"$room/usr/share/man/man1/flagops.1.gz"
for of in bash:usr/share/bash-completion/completions/flagops fish:usr/share/fish/vendor_completions.d/flagops.fish zsh:usr/share/zsh/vendor-completions/_flagops; do
    mkdir -p "$room/$(dirname "${of#*:}")"
    "$program" completions "${of%%:*}" >"$room/${of#*:}"
done
put 644 "$root/deploy/flagops.service" usr/lib/systemd/system/flagops.service
put 644 "$root/LICENSE" usr/share/doc/flagops/copyright
for page in OPERATIONS FORMATS REFUSALS; do
    put 644 "$root/docs/$page.md" "usr/share/doc/flagops/$page.md"
done
mkdir "$room/DEBIAN"
cat >"$room/DEBIAN/control" <<END
Package: flagops
Version: $version
Architecture: amd64
Maintainer: The flagops developers <flagops@example.com>
Section: net
Priority: optional
Description: Feature flags with proved rollouts
 Reads flagd's flag definitions, answers OpenFeature's SDKs over HTTP, records
 who was told what, and plans each change of a rollout so that the fewest
 recorded users switch.
END
SOURCE_DATE_EPOCH=${SOURCE_DATE_EPOCH:-0}
export SOURCE_DATE_EPOCH
find "$room" -newermt "@$SOURCE_DATE_EPOCH" -exec touch -h -d "@$SOURCE_DATE_EPOCH" {} +
package=flagops_${version}_amd64.deb
dpkg-deb --root-owner-group -Zxz --build "$room" "$out/$package.new" >/dev/null
mv "$out/$package.new" "$out/$package"
echo "$out/$package"
