#!/bin/sh
# Runs `flagops drive` 200 times with 8 workers on a document with several `fractional` operations, and compares what each
# run prints and each book file with the first run's, byte for byte. The last line is 'N runs agree, M differ'.
#
# Needs python3, which makes the files.

. "$(dirname -- "$0")/opening.sh"
python3 - "$here/flagops" "$folder" "${RUNS:-200}" <<'PYTHON'
import json, os, subprocess, sys

program, folder, runs = sys.argv[1], sys.argv[2], int(sys.argv[3])


def put(name, value):
    path = os.path.join(folder, name)
    with open(path, "w") as file:
        json.dump(value, file, separators=(",", ":"))
    return path


def flag(targeting):
    return {"state": "ENABLED", "variants": {"a": 1, "b": 2, "c": 3}, "defaultVariant": "a", "targeting": targeting}


by_key = {"fractional": [["a", 1], ["b", 2], ["c", 3]]}
by_mail = {"fractional": [{"var": "mail"}, ["a", 50], ["b", 50]]}
document = put("document.json", {"flags": {
    "one": flag(by_key),
    "two": flag({"if": [{"ends_with": [{"var": "mail"}, "7@mail.example"]}, by_mail, by_key]}),
    "each": flag({"if": [{"some": [{"var": "teams"}, {"==": [{"fractional": [{"var": ""}, ["a", 1], ["b", 1]]}, "a"]}]}, "a", "b"]}),
}})
asks = put("asks.json", [
    {"key": key, "want": "whole", "default": 0, "moment": 0,
     "context": {"targetingKey": f"user-{n % 700}", "mail": f"user-{n % 90}@mail.example", "teams": [f"team-{n % 31}", f"team-{n % 13}"]}}
    for n in range(1000) for key in ("one", "two", "each")
])
first = None
agree = differ = 0
for run in range(runs):
    book = os.path.join(folder, f"book-{run}")
    child = subprocess.run([program, "drive", document, asks, "8", book], stdout=subprocess.PIPE)
    if child.returncode != 0:
        sys.exit(child.stdout.decode()[:200])
    with open(book, "rb") as file:
        told = (child.stdout, file.read())
    os.remove(book)
    first = first or told
    if told == first:
        agree += 1
    else:
        differ += 1
        print(f"run {run} differs")
print(b" ".join(first[0].split(b"\n")[-6:-1]).decode(), f"({len(first[1])} bytes of book)")
print(f"{agree} runs agree, {differ} differ")
sys.exit(1 if differ else 0)
PYTHON
