#!/bin/sh
# Time and peak memory of `flagops check` on documents near the limit of 4 MiB: thousands of flags, and evaluators that
# refer to one another in chains of 100,000 names.
#
# Needs python3, which makes the files and reads the figures of each run from the system.

. "$(dirname -- "$0")/opening.sh"
python3 - "$here/flagops" "$folder/document.json" <<'PYTHON'
import json, os, random, subprocess, sys, time

program, path = sys.argv[1:]


def flag(targeting):
    return {"state": "ENABLED", "variants": {"on": True, "off": False}, "defaultVariant": "off", "targeting": targeting}


def chain(names, last):
    """Evaluators that are references to the next one, in a given order of the names."""
    return {name: {"$ref": after} for name, after in zip(names, names[1:] + [last])}


def measure(title, document):
    with open(path, "w") as file:
        json.dump(document, file, separators=(",", ":"))
    best = peak = None
    for _ in range(3):
        started = time.perf_counter()
        run = subprocess.Popen([program, "check", path], stdout=subprocess.PIPE)
        lines = run.stdout.read().decode().splitlines()
        _, _, used = os.wait4(run.pid, 0)
        taken = (time.perf_counter() - started) * 1000
        best = taken if best is None else min(best, taken)
        peak = used.ru_maxrss if peak is None else max(peak, used.ru_maxrss)
    good = sum(line.endswith(" good") for line in lines)
    print(f"{title}: {os.path.getsize(path) / 1e6:.2f} MB, {good} of {len(lines)} good, {best:.0f} milliseconds (best of 3), {peak / 1024:.0f} MB at most")


rollout = {"if": [{"in": [{"var": "email"}, ["ann@example.com", "bob@example.com"]]}, "on",
                  {"if": [{"sem_ver": [{"var": "version"}, ">=", "2.1.0"]}, {"fractional": [["on", 5], ["off", 95]]}, None]}]}
measure("flags", {"flags": {f"flag-{i:05}": flag(rollout) for i in range(9_500)}})
names = [f"e{i:06}" for i in range(100_000)]
mixed = names[:]
random.Random(1).shuffle(mixed)
measure("a chain", {"$evaluators": chain(names, "end") | {"end": rollout}, "flags": {"f": flag({"$ref": names[0]})}})
measure("a chain in no order", {"$evaluators": chain(mixed, "end") | {"end": rollout}, "flags": {"f": flag({"$ref": mixed[0]})}})
measure("a cycle", {"$evaluators": chain(names, names[0]), "flags": {"f": flag({"$ref": names[0]})}})
PYTHON
