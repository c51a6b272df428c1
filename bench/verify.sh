#!/bin/sh
# Time and peak memory of `flagops plan` and `flagops verify` with a book of one page with 1,000,000 inputs, on one
# processor and on all, at rules of 1,000 to 1,000,000 points and 8 and 64 variants, with prices, prohibitions and ranges.
#
# Needs python3, which makes the files and reads the figures of each run from the system.

. "$(dirname -- "$0")/opening.sh"
python3 - "$here/flagops" "$folder" <<'PYTHON'
import json, os, random, subprocess, sys, time

program, folder = sys.argv[1:]


def put(name, text):
    path = os.path.join(folder, name)
    with open(path, "w") as file:
        file.write(text)
    return path


def compact(value):
    return json.dumps(value, separators=(",", ":"))


def run(words, processors):
    """The best time of three runs, the highest peak, and what was printed."""
    best = peak = None
    for _ in range(3):
        started = time.perf_counter()
        child = subprocess.Popen([program, *words], stdout=subprocess.PIPE, preexec_fn=lambda: os.sched_setaffinity(0, processors))
        report = child.stdout.read().decode()
        _, status, used = os.wait4(child.pid, 0)
        taken = (time.perf_counter() - started) * 1000
        if status != 0:
            sys.exit(report[:200])
        best = taken if best is None else min(best, taken)
        peak = used.ru_maxrss if peak is None else max(peak, used.ru_maxrss)
    return best, peak / 1024, report


def asked(kind, weight, draws):
    """A range around the weight: for one in four above it, for one in four below it."""
    low = weight + draws.randrange(weight // 2) if kind == 0 else weight // 2
    high = weight // 2 + draws.randrange(weight // 2) if kind == 1 else 2 * weight
    return [low, high]


page = {"by": None, "flag": "f", "site": 0}
inputs = "".join(f'"user-{i:07}"\n' for i in range(1_000_000))
book = put("book", f'{compact({"book": 1})}\n{compact(page)}\n{inputs}')
print(f"book: {os.path.getsize(book) / 1e6:.2f} MB, 1000000 inputs")
for names, total in ((8, 1_000), (8, 100_000), (64, 100_000), (64, 1_000_000)):
    draws = random.Random(1)
    variants = [f"variant-{i:02}" for i in range(names)]
    share = total // names
    weights = [share] * (names - 1) + [total - share * (names - 1)]
    flag = {"state": "ENABLED", "variants": {name: name for name in variants}, "targeting": {"fractional": list(map(list, zip(variants, weights)))}}
    document = put("document.json", compact({"flags": {"f": flag}}))
    pairs = [(old, new) for old in variants for new in variants if old != new]
    request = put("request.json", compact({
        "plan": 2, "flag": "f",
        "totals": {name: asked(i % 4, weight, draws) for i, (name, weight) in enumerate(zip(variants, weights))},
        "prices": [[old, new, draws.randrange(1000)] for old, new in pairs],
        "forbid": [[old, new] for old, new in pairs if draws.randrange(10) == 0],
    }))
    for processors in ({min(os.sched_getaffinity(0))}, os.sched_getaffinity(0)):
        planned, most, text = run(["plan", document, request, book], processors)
        plan = put("plan.json", text)
        verified, peak, report = run(["verify", document, request, book, plan], processors)
        print(f"{names} variants, {total} points, {len(processors)} processors: plan {planned:.0f} ms, {most:.0f} MB; verify {verified:.0f} ms, {peak:.0f} MB (best of 3); {report.strip()}")
PYTHON
