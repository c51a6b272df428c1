#!/bin/sh
# Time and peak memory of `flagops price` on a key file of about 4 MB, at rules of 1,000 to 1,000,000
# entries with as many names, on one processor and on all.
#
# Needs python3, which makes the files and reads the figures of each run from the system.

. "$(dirname -- "$0")/opening.sh"
python3 - "$here/flagops" "$folder" <<'PYTHON'
import json, os, subprocess, sys, time

program, folder = sys.argv[1:]


def put(name, value):
    path = os.path.join(folder, name)
    with open(path, "w") as file:
        json.dump(value, file, separators=(",", ":"))
    return path


keys = put("keys.json", [f"u{i}" for i in range(420_000)])
print(f"key file: {os.path.getsize(keys) / 1e6:.2f} MB, 420000 keys")
for entries in (1_000, 10_000, 100_000, 1_000_000):
    names = [f"variant-{i}" for i in range(entries)]
    old = put("old.json", [[name, 10] for name in names])
    new = put("new.json", [[name, 9 + i % 3] for i, name in enumerate(names[:-1])] + [[names[-1], 10 + (entries * 10 - sum(9 + i % 3 for i in range(entries - 1)) - 10)]])
    pairs = [[names[i], names[(i * 7 + 1) % entries], i % 100] for i in range(min(entries, 50_000)) if i != (i * 7 + 1) % entries]
    request = put("request.json", {"plan": 1, "flag": "f", "totals": {}, "prices": pairs})
    for processors in ({min(os.sched_getaffinity(0))}, os.sched_getaffinity(0)):
        best = peak = None
        for _ in range(3):
            started = time.perf_counter()
            run = subprocess.Popen([program, "price", old, new, request, keys], stdout=subprocess.PIPE, preexec_fn=lambda: os.sched_setaffinity(0, processors))
            report = run.stdout.read().decode().splitlines()
            _, status, used = os.wait4(run.pid, 0)
            if status != 0:
                sys.exit("\n".join(report[-3:]))
            taken = (time.perf_counter() - started) * 1000
            best = taken if best is None else min(best, taken)
            peak = used.ru_maxrss if peak is None else max(peak, used.ru_maxrss)
        print(f"{entries} entries, {len(pairs)} prices, {len(processors)} processors: {best:.0f} milliseconds (best of 3), {peak / 1024:.0f} MB at most, {report[-1]}")
PYTHON
