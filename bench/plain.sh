#!/bin/sh
# Time and peak memory of the proved program beside a plain Rust program of the same command line (bench/plain), by turns in
# one run, best of three, outputs compared; then how both grow with the inputs of a book of four pages.
#
# Needs python3, which makes the files and reads the figures of each run from the system, and cargo with the crates
# mio, rayon and serde_json as Debian's librust-{mio,rayon,serde-json}-dev put them under /usr/share/cargo/registry;
# nothing is fetched.

. "$(dirname -- "$0")/opening.sh"
if ! command -v cargo >/dev/null 2>&1; then
    echo "$name: needs cargo, which is not on the path" >&2
    exit 1
fi
# from its folder, where cargo reads the place of the crates
(cd "$here/bench/plain" && CARGO_TARGET_DIR=$folder/target cargo build --quiet --release --offline) || exit 1
python3 - "$here/crates/flagops/out/flagops" "$folder/target/release/plain" "$folder" <<'PYTHON'
import json, os, random, subprocess, sys

proved, plain, folder = sys.argv[1:]


def path(name):
    return os.path.join(folder, name)


def put(name, value):
    with open(path(name), "w") as file:
        file.write(value if isinstance(value, str) else json.dumps(value, separators=(",", ":")))
    return path(name)


# A small process of its own starts the programs: the system counts the memory of the one that starts to what it starts.
runner = subprocess.Popen([sys.executable, "-S", "-c", """
import os, sys, time
for line in sys.stdin:
    printed, *words = line.split()
    started = time.perf_counter()
    child = os.posix_spawn(words[0], words, os.environ, file_actions=[(os.POSIX_SPAWN_OPEN, 1, printed, os.O_WRONLY | os.O_CREAT | os.O_TRUNC, 0o600)])
    _, status, used = os.wait4(child, 0)
    print((time.perf_counter() - started) * 1000, used.ru_maxrss / 1024, status, flush=True)
"""], stdin=subprocess.PIPE, stdout=subprocess.PIPE, text=True)


def once(program, words):
    """The milliseconds of one run, its peak in MB, and what it printed."""
    print(path("printed"), program, *words, file=runner.stdin, flush=True)
    taken, peak, status = map(float, runner.stdout.readline().split())
    with open(path("printed")) as printed:
        text = printed.read()
    if status != 0:
        sys.exit(f"{program} {words[0]}: status {status}: {text[:200]}")
    return taken, peak, text


def both(title, words, same=str):
    """A line of the table; what the proved program printed."""
    runs = [(once(proved, words), once(plain, words)) for _ in range(3)]
    ours, theirs = ([run[i] for run in runs] for i in (0, 1))
    if title != "start" and len({same(run[2]) for run in ours + theirs}) != 1:
        sys.exit(f"{title}: the outputs differ")
    times = [min(run[0] for run in side) for side in (ours, theirs)]
    peaks = [max(run[1] for run in side) for side in (ours, theirs)]
    print(f"| {title} | {times[0]:,.1f} ms | {times[1]:,.1f} ms | {times[0] / times[1]:.1f} | {peaks[0]:.0f} and {peaks[1]:.0f} MB |", flush=True)
    return ours[0][2], theirs[0][2]


def cost_of(plan):
    return str(json.loads(plan)["cost"])


def page(flag):
    return json.dumps({"by": None, "flag": flag, "site": 0}, separators=(",", ":")) + "\n"


def book(flags, inputs):
    lines = (page(flag) + "".join(f'"{flag}user-{i:010}"\n' for i in range(inputs // len(flags))) for flag in flags)
    return put("book.txt", '{"book":1}\n' + "".join(lines))


def asked(kind, weight, draws):
    """A range around the weight: for one in four above it, for one in four below it."""
    low = weight + draws.randrange(weight // 2) if kind == 0 else weight // 2
    high = weight // 2 + draws.randrange(weight // 2) if kind == 1 else 2 * weight
    return [low, high]


def rollout(names, total):
    """A document and a request: with 8 names exact totals, with more ranges, prices and prohibitions."""
    draws = random.Random(1)
    variants = [f"variant-{i:02}" for i in range(names)]
    share = total // names
    weights = [share] * (names - 1) + [total - share * (names - 1)]
    flag = {"state": "ENABLED", "variants": {name: name for name in variants}, "targeting": {"fractional": list(map(list, zip(variants, weights)))}}
    document = put("document.json", {"flags": {"checkout": flag}})
    if names == 8:
        totals = {name: weight + (1000 if i % 2 else -1000) for i, (name, weight) in enumerate(zip(variants, weights))}
        return document, put("request.json", {"plan": 1, "flag": "checkout", "totals": totals})
    pairs = [(old, new) for old in variants for new in variants if old != new]
    return document, put("request.json", {
        "plan": 2, "flag": "checkout",
        "totals": {name: asked(i % 4, weight, draws) for i, (name, weight) in enumerate(zip(variants, weights))},
        "prices": [[old, new, draws.randrange(1000)] for old, new in pairs],
        "forbid": [[old, new] for old, new in pairs if draws.randrange(10) == 0],
    })


def plan_and_verify(title, words):
    """Both commands; each program verifies the plan of the other too."""
    plans = [put(f"plan-{i}.json", text) for i, text in enumerate(both(f"`plan`, {title}", ["plan", *words], cost_of))]
    if once(proved, ["verify", *words, plans[1]])[2] != once(plain, ["verify", *words, plans[0]])[2]:
        sys.exit(f"{title}: the programs verify one another's plans otherwise")
    both(f"`verify` of its plan ({os.path.getsize(plans[0]) / 1e6:.1f} MB)", ["verify", *words, plans[0]])


targeting = {"if": [{"and": [{"in": [{"var": "email"}, [f"user-{i}@example.com" for i in range(16)]]},
                             {"sem_ver": [{"var": "version"}, ">=", "2.1.0"]}, {">": [{"var": "age"}, 17]}]}, "on",
                    {"if": [{"ends_with": [{"cat": [{"var": "name"}, "@", {"var": "host"}]}, "@staff.example.com"]}, "on",
                            {"fractional": [{"cat": [{"var": "$flagd.flagKey"}, {"var": "email"}]}, ["on", 5], ["off", 95]]}]}]}
flags = {f"flag-{i:05}": {"state": "ENABLED", "variants": {"on": True, "off": False}, "defaultVariant": "off", "targeting": targeting} for i in range(4_746)}
names = [f"variant-{i}" for i in range(1_000)]

print("| workload | proved | plain Rust | ratio | memory |\n|---|---|---|---|---|")
recorded = book(["checkout"], 1_000_000)
for count in (8, 64):
    document, request = rollout(count, 1_000_000)
    plan_and_verify(f"total 10^6, {count} names, 1,000,000 inputs ({os.path.getsize(recorded) / 1e6:.0f} MB)", [document, request, recorded])
rule = put("rule.json", [[f"variant-{i % 100}", i % 1000] for i in range(2_140_000)])
both(f"`bucket`, a rule of {os.path.getsize(rule) / 1e6:.0f} MB", ["bucket", rule, "test"])
checked = put("flags.json", {"flags": flags})
both(f"`check`, {os.path.getsize(checked) / 1e6:.1f} MB, {len(flags):,} flags", ["check", checked])
old, new = put("old.json", [[name, 1000] for name in names]), put("new.json", [[name, 999 + 2 * (i % 2)] for i, name in enumerate(names)])
prices = put("prices.json", {"plan": 1, "flag": "f", "totals": {}, "prices": [[names[i], names[i + 1], i % 100] for i in range(999)]})
keys = put("keys.json", [f"checkoutuser-{i:06}" for i in range(175_000)])
both("`price`, 175,000 keys", ["price", old, new, prices, keys])
for count in (8, 64):
    document, _ = rollout(count, 1_000_000)
    with open(document) as file:
        edited = json.load(file)
    buckets = edited["flags"]["checkout"]["targeting"]["fractional"]
    for place, bucket in enumerate(buckets):
        bucket[1] += 1000 if place % 2 else -1000
    both(f"`compare`, total 10^6, {count} names, 1,000,000 inputs", ["compare", document, put("edited.json", edited), recorded, "--flag", "checkout"])
both("start", ["--version"])
document, request = rollout(8, 1_000_000)
for inputs in (100_000, 1_000_000, 4_000_000):
    recorded = book(["banner", "checkout", "search", "theme"], inputs)
    both(f"`plan`, 8 names, {inputs:,} inputs on four pages", ["plan", document, request, recorded], cost_of)
PYTHON
