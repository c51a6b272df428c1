#!/usr/bin/env python3
"""From contexts to a plan: `record | sort -u | tally`, then `plan` and `verify` on the tally, with the time and the peak memory of each.

    bench/records.py [COUNT [FOLDER [PLAIN]]]

COUNT contexts (100,000,000 where it is left out, some 10 GB) are made in FOLDER: nine tenths of them are of users of their own, the
others come again, and every thirtieth is of the staff, who reach no `fractional`. The counts of the tally and the cost of the plan
are compared with those that this script finds by itself from the users' numbers (by numpy). Where PLAIN names the program of
`bench/plain`, the first 1,000,000 lines go through both, and the notes and the counts are compared. The last line is
'N cases, M bad'. It needs GNU sort and python3-numpy."""
import json
import os
import subprocess
import sys
import time

import numpy

HERE = os.path.dirname(os.path.abspath(__file__))
BUILT = os.path.join(HERE, "..", "crates", "flagops", "out", "flagops")
SHIPPED = os.path.join(HERE, "..", "release", "x86_64-linux", "flagops")
PROGRAM = os.environ.get("FLAGOPS") or (BUILT if os.path.exists(BUILT) else SHIPPED)
SORT = ["sort", "-u", "--parallel=4", "-S", "2G"]
ON = 5
DOCUMENT = {"flags": {"checkout": {
    "state": "ENABLED", "variants": {"on": True, "off": False}, "defaultVariant": "off",
    "targeting": {"if": [{"==": [{"var": "group"}, "staff"]}, "on", {"fractional": [["on", ON], ["off", 100 - ON]]}]}}}}
REQUEST = {"plan": 1, "flag": "checkout", "totals": {"on": 10, "off": 90}, "price": 1, "forbid": [["on", "off"]]}


def key_of(user):
    return f"user-{user:012d}"


def users_of(count):
    """The number of users, and of how many the contexts come twice."""
    return count - count // 10


def make_contexts(path, count):
    """Writes the contexts, one a line."""
    users = users_of(count)
    pad = "x" * 20
    with open(path, "w", buffering=1 << 22) as file:
        for first in range(0, count, 100_000):
            file.write("".join(
                f'{{"targetingKey":"{key_of(n % users)}","group":"{"staff" if n % users % 30 == 0 else "none"}","agent":"{pad}"}}\n'
                for n in range(first, min(first + 100_000, count))))


def hashes_of(users):
    """MurmurHash3 x86 32-bit of the flag's key followed by the key of each user, all of one length (25 bytes)."""
    size = len("checkout" + key_of(0))
    text = numpy.zeros((len(users), size), dtype=numpy.uint32)
    text[:, :size - 12] = numpy.frombuffer(b"checkoutuser-", dtype=numpy.uint8)
    left = users.copy()
    for at in range(size - 1, size - 13, -1):
        text[:, at] = left % 10 + ord("0")
        left //= 10
    turn = lambda x, r: (x << numpy.uint32(r)) | (x >> numpy.uint32(32 - r))
    mix = lambda k: turn(k * numpy.uint32(0xCC9E2D51), 15) * numpy.uint32(0x1B873593)
    h = numpy.zeros(len(users), dtype=numpy.uint32)
    for at in range(0, size - size % 4, 4):
        block = sum(text[:, at + i] << numpy.uint32(8 * i) for i in range(4)).astype(numpy.uint32)
        h = turn(h ^ mix(block), 13) * numpy.uint32(5) + numpy.uint32(0xE6546B64)
    if size % 4:
        block = sum(text[:, size - size % 4 + i] << numpy.uint32(8 * i) for i in range(size % 4)).astype(numpy.uint32)
        h ^= mix(block)
    h ^= numpy.uint32(size)
    h = (h ^ (h >> numpy.uint32(16))) * numpy.uint32(0x85EBCA6B)
    h = (h ^ (h >> numpy.uint32(13))) * numpy.uint32(0xC2B2AE35)
    return h ^ (h >> numpy.uint32(16))


def counts_of(count):
    """How many of the users that reach the operation fall on each of 100 points."""
    users, counts = users_of(count), numpy.zeros(100, dtype=numpy.int64)
    for first in range(0, users, 1_000_000):
        some = numpy.arange(first, min(first + 1_000_000, users), dtype=numpy.int64)
        points = (hashes_of(some[some % 30 != 0]).astype(numpy.uint64) * numpy.uint64(100)) >> numpy.uint64(32)
        counts += numpy.bincount(points.astype(numpy.int64), minlength=100)
    return counts.tolist()


def ran(stages, given, kept):
    """Runs commands as a pipe from a file to a file, and tells the time of all, and of each the processor time and the memory."""
    environment = {**os.environ, "LC_ALL": "C"}
    started, source, children = time.perf_counter(), open(given, "rb"), []
    for at, words in enumerate(stages):
        last = at + 1 == len(stages)
        child = subprocess.Popen(words, stdin=source, stdout=open(kept, "wb") if last else subprocess.PIPE, env=environment)
        source.close()
        source = None if last else child.stdout
        children.append(child)
    peaks, ended = [0] * len(children), {}
    while len(ended) < len(children):
        for at, child in enumerate(children):
            if at in ended:
                continue
            peaks[at] = max(peaks[at], resident(child.pid))
            pid, child.returncode, used = os.wait4(child.pid, os.WNOHANG)
            if pid:
                ended[at] = (os.path.basename(stages[at][0]), stages[at][1], child.returncode, used.ru_utime + used.ru_stime, peaks[at])
        time.sleep(0.02)
    return time.perf_counter() - started, [ended[at] for at in range(len(children))]


def resident(pid):
    """The peak of a process's own memory in MB. (What the system gives of a child that ended counts who started it.)"""
    with open(f"/proc/{pid}/status", encoding="ascii", errors="replace") as file:
        return max((int(line.split()[1]) for line in file if line.startswith("VmHWM:")), default=0) / 1024


def tell(what, seconds, told):
    print(f"{what}: {seconds:.1f} s")
    for name, word, status, processor, memory in told:
        print(f"    {name} {word}: status {status}, {processor:.1f} s of processor time, {memory:.0f} MB")


def whole_way(folder, contexts, count):
    """The tally of all contexts, its plan and their check; how many of the cases are bad."""
    document, request, tally, plan, verdict = (os.path.join(folder, name) for name in ("doc.json", "request.json", "tally", "plan", "verdict"))
    sort = [*SORT, "-T", folder]
    tell("record | sort | tally", *ran([[PROGRAM, "record", document, "checkout", "--workers", "4"], sort, [PROGRAM, "tally", document, "checkout", "0"]], contexts, tally))
    tell("plan", *ran([[PROGRAM, "plan", document, request, tally]], os.devnull, plan))
    tell("verify", *ran([[PROGRAM, "verify", document, request, tally, plan]], os.devnull, verdict))
    wanted = counts_of(count)
    found = [0] * 100
    with open(tally) as file:
        for line in file.read().splitlines()[2:]:
            point, inputs = json.loads(line)
            found[point] = inputs
    with open(plan) as file:
        answer = json.loads(file.read())
    names = [name for name, weight in answer["rule"] for _ in range(weight)]
    cost = sum(n for point, n in enumerate(wanted) if (names[point] == "on") != (point < ON))
    least = sum(sorted(wanted[ON:])[:10 - ON])
    print(f"inputs {sum(found)}, cost {answer['cost']}, by this script {sum(wanted)}, {cost}, and the least is {least}")
    with open(verdict) as file:
        said = file.read()
    return [found == wanted, answer["cost"] == cost == least, said == f"valid cost {cost}\n"]


def beside_plain(folder, contexts, plain):
    """The first million lines through both programs."""
    some, document = os.path.join(folder, "some"), os.path.join(folder, "doc.json")
    with open(contexts, "rb") as source, open(some, "wb") as file:
        for _ in range(1_000_000):
            file.write(source.readline())
    results = []
    for program in (PROGRAM, plain):
        name = "proved" if program == PROGRAM else "plain"
        notes, order, tally = (os.path.join(folder, f"{name}.{part}") for part in ("notes", "sorted", "tally"))
        best = lambda words, given, kept: min((ran([words], given, kept) for _ in range(3)), key=lambda run: run[0])
        tell(f"{name} record, 1,000,000 lines", *best([program, "record", document, "checkout"], some, notes))
        ran([[*SORT, "-T", folder]], notes, order)
        tell(f"{name} tally of them", *best([program, "tally", document, "checkout", "0"], order, tally))
        with open(notes, "rb") as one, open(tally) as other:
            results.append((one.read(), [line for line in other.read().splitlines() if line.startswith("[")]))
    return [results[0][0] == results[1][0], results[0][1] == results[1][1]]


def main():
    count = int(sys.argv[1]) if len(sys.argv) > 1 else 100_000_000
    folder = sys.argv[2] if len(sys.argv) > 2 else "/tmp/flagops-records"
    os.makedirs(folder, exist_ok=True)
    for name, value in (("doc.json", DOCUMENT), ("request.json", REQUEST)):
        with open(os.path.join(folder, name), "w") as file:
            json.dump(value, file)
    contexts = os.path.join(folder, "contexts")
    make_contexts(contexts, count)
    print(f"{count} contexts, {os.path.getsize(contexts)} bytes")
    cases = whole_way(folder, contexts, count)
    if len(sys.argv) > 3:
        cases += beside_plain(folder, contexts, sys.argv[3])
    print(f"{len(cases)} cases, {cases.count(False)} bad")
    sys.exit(cases.count(False) > 0)


if __name__ == "__main__":
    main()
