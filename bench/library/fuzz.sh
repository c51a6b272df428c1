#!/bin/sh
# libFuzzer over the archive, with AddressSanitizer around it and what the header promises asserted behind each call. It needs clang with its
# runtime. The archive is not instrumented: the fuzzer is led by the answers.
#   bench/library/fuzz.sh [SECONDS [FOLDER]]     600 seconds are the check; FOLDER has libflagops.a (release/x86_64-linux)
set -e
here=$(CDPATH='' cd -- "$(dirname -- "$0")/../.." && pwd -P)
library=${2:-$here/release/x86_64-linux}
work=$(mktemp -d)
trap 'rm -rf "$work"' EXIT

clang -std=c11 -g -O1 -fsanitize=fuzzer,address -I "$here/library" -o "$work/fuzz" "$here/bench/library/fuzz.c" "$library/libflagops.a"
mkdir "$work/seeds"
python3 - "$here" "$work/seeds" <<'PYTHON'
import os, struct, sys
here, seeds = sys.argv[1:]
CUT = b"\xfe"
with open(os.path.join(here, "library", "tests", "flags.json"), "rb") as file:
    flags = file.read()
frame = struct.pack(">IQ", 8 + len(flags), 1) + flags
ann, request = b'{"targetingKey":"ann","email":"a@example.com"}', b'{"plan":1,"flag":"checkout","totals":{"on":30,"off":70}}'
lines = b'["checkout",0,null,"checkoutann"]\n["checkout",0,null,"checkoutbob"]\n'
counts = b'{"tally":1}\n{"by":null,"first":null,"flag":"checkout","inputs":0,"last":null,"site":0,"total":100}\n'
plan = b'{"alpha":[["off",0,0],["on",0,0]],"beta":[["off",0],["on",0]],"cost":0,"plan":1,"rule":[["on",30],["off",70]]}'
asks = b"".join(bytes([0, 255, kind, 1, 1]) + CUT.join((key, fallback, ann)) + CUT for kind, key, fallback in ((0, b"checkout", b"false"), (1, b"banner", b'"x"'), (2, b"limit", b"7"), (3, b"theme", b"{}"), (2, b"odd", b"7")))
kept = b"\x04" + ann + CUT + bytes([1, 255, 0, 1, 1]) + b"checkout" + CUT + b"false" + CUT
for name, data in {
    "open": b"\x03" + flags + CUT + asks + kept + b"\x05\xff\x06\xff\x07", "feed": b"\x02" + frame[:40] + CUT + b"\x02" + frame[40:] + CUT + asks,
    "tally": b"\x08\xff" + CUT.join((flags, request, lines)) + CUT, "plan": b"\x09\xff" + CUT.join((flags, request, counts)) + CUT,
    "verify": b"\x0a" + b"\xff" + CUT.join((flags, request, counts, plan)) + CUT, "apply": b"\x0b" + b"\xff" + CUT.join((flags, request, counts, plan)) + CUT,
}.items():
    with open(os.path.join(seeds, name), "wb") as file:
        file.write(data)
PYTHON
cat >"$work/dictionary" <<'WORDS'
"\x22flags\x22:{"
"\x22state\x22:\x22ENABLED\x22"
"\x22variants\x22:{"
"\x22defaultVariant\x22:"
"\x22targeting\x22:"
"\x22fractional\x22:["
"\x22if\x22:["
"\x22var\x22:"
"\x22$ref\x22:"
"\x22$evaluators\x22:"
"\x22totals\x22:"
"\x22prices\x22:"
"\x22forbid\x22:"
"\xfe"
WORDS
cd "$work"
ASAN_OPTIONS=detect_leaks=1 ./fuzz -max_total_time="${1:-60}" -max_len=8192 -rss_limit_mb=4096 -timeout=25 -dict=dictionary -print_final_stats=1 -verbosity=1 seeds 2>fuzz.log || {
    tail -n 40 fuzz.log >&2
    exit 1
}
grep -E 'number_of_executed_units|peak_rss_mb' fuzz.log
echo "fuzz: no crash"
