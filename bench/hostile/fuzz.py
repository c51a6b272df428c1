#!/usr/bin/env python3
"""Fuzzes a command of the shipped program with AFL++, led by the blocks of its code that a run comes to.

    bench/hostile/fuzz.py COMMAND [SECONDS [FOLDER]]

COMMAND is `check`, `plan`, `verify` or `follow`, SECONDS 3,600 where it is left out. AFL++ (`apt-get install afl++`) mutates the
inputs of corpus/COMMAND.jsonl, a JSON text a line with a character for each byte, and the files of the demo; `blocks.c`, loaded
before the program, tells it the blocks, for which no part of the program is built in another way. The files of an input are
divided by lines '%%'; that of `follow` is what its server sends. A run is a crash where it is ended by a signal, has another status
than those of the documents, or takes more than 500 MB, and a hang where it takes more than 2 seconds of the clock. Behind it each
input that was kept runs once more as `mutate.py` runs its own, and is bad where that finds a fault: so a hang of a busy machine is
none where the run takes less than 2 seconds of a processor. With SECONDS 0 only that is done, of what FOLDER has. FOLDER keeps what AFL++ writes, and in it
`corpus.jsonl`: the fewest and shortest inputs that come to all the blocks. The last line is 'N cases, M bad', N being the runs of
AFL++ and those behind it; ends with 1 where M is not 0."""
import glob
import json
import os
import re
import struct
import subprocess
import sys
import tempfile

from forks import HERE, PROGRAM, TOP, Forks, built
from mutate import Trial
from network import frame
from rows import Row, looks, write

WORDS = {
    "check": ["check", "1"],
    "plan": ["plan", "1", "2", "3"],
    "verify": ["verify", "1", "2", "3", "4"],
    "follow": ["follow", "9", "1000"],
}
SEEDS = {
    "check": ["flags/shop.json", "flags/sale.json", "mistakes/rules.json"],
    "plan": ["flags/shop.json", "rollout/request.json", "rollout/book.txt"],
    "verify": ["flags/shop.json", "rollout/request.json", "rollout/book.txt", "rollout/plan.json"],
    "follow": ["flags/shop.json", "flags/sale.json"],
}
TOKENS = """"flags" "$evaluators" "state" "ENABLED" "DISABLED" "variants" "defaultVariant" "targeting" "$ref" "fractional" "var"
"if" "and" "or" "!" "!!" "==" "===" "!=" "!==" "<" "<=" ">" ">=" "+" "-" "*" "%" "max" "min" "map" "filter" "reduce" "all" "some" "none"
"merge" "in" "cat" "substr" "missing" "missing_some" "sem_ver" "starts_with" "ends_with" "$flagd" "targetingKey" "accumulator" "current"
true false null 9007199254740991 9007199254740992 2147483647 1000001 1.5 1e3 -0 \\ud83d\\ude00 \\udfff {} [] "^" "~"
"plan" "flag" "site" "totals" "price" "prices" "forbid" "book" "by" "tally" "first" "last" "inputs" "total"
"alpha" "beta" "cost" "rule" "under" "over" "side" %% on off""".split()
MOST = 45_000
ENDS = re.compile(r"(execs_done|corpus_count|saved_crashes|saved_hangs|edges_found|execs_per_sec) *: *([\d.]+)")


def blocks():
    """The addresses of the blocks of the program's code: of each call's start, of what a jump leads to, and of what stands behind one."""
    found, code, is_behind = set(), set(), False
    listed = subprocess.run(["objdump", "-d", "--no-show-raw-insn", "-j", ".text", PROGRAM], stdout=subprocess.PIPE, text=True, check=True)
    for line in listed.stdout.splitlines():
        if start := re.match(r"([0-9a-f]+) <", line):
            found.add(int(start[1], 16))
        elif step := re.match(r"\s+([0-9a-f]+):\s+(\S+)(?:\s+([0-9a-f]+) <)?", line):
            address, name, to = int(step[1], 16), step[2], step[3]
            code.add(address)
            found |= {address} if is_behind else set()
            found |= {int(to, 16)} if to and name.startswith("j") else set()
            is_behind = name.startswith("j") and name != "jmp"
    return sorted(found & code)


def file_of(path):
    """The bytes of a file."""
    with open(path, "rb") as file:
        return file.read()


def kept(command):
    """The inputs of the corpus."""
    path = os.path.join(HERE, "corpus", f"{command}.jsonl")
    lines = file_of(path).splitlines() if os.path.exists(path) else []
    return [json.loads(line).encode("latin-1") for line in lines]


def seeds(command):
    """The inputs of the demo and of the corpus."""
    files = [file_of(os.path.join(TOP, "demo", path)) for path in SEEDS[command]]
    if command == "check":
        return [*files, *kept(command)]
    if command == "follow":
        return [b"".join(frame(number, text) for number, text in enumerate(files, 1)), *kept(command)]
    return [b"%%\n".join(files), *kept(command)]


def laid(command, folder):
    """Puts what AFL++ needs into a folder, and tells its settings."""
    for name in ("in", "run"):
        os.makedirs(os.path.join(folder, name), exist_ok=True)
    for number, text in enumerate(seeds(command)):
        write(os.path.join(folder, "in"), f"{number:04}", text)
    places = blocks()
    write(folder, "blocks", struct.pack(f"{len(places)}I", *places))
    quoted = [token.replace("\\", "\\\\").replace('"', '\\"') for token in TOKENS]
    write(folder, "tokens", "".join(f't{number}="{token}"\n' for number, token in enumerate(quoted)).encode())
    names = ("NO_UI", "SKIP_CPUFREQ", "NO_AFFINITY", "I_DONT_CARE_ABOUT_MISSING_CRASHES", "SKIP_BIN_CHECK", "AUTORESUME")
    settings = {f"AFL_{name}": "1" for name in names} | ({"STREAM": "1"} if command == "follow" else {})
    settings |= {"AFL_PRELOAD": built("blocks", folder), "BLOCKS": os.path.join(folder, "blocks"), "INPUT": os.path.join(folder, "input")}
    return {**os.environ, **settings, "LD_BIND_NOW": "1"}


def fuzzed(command, seconds, folder):
    """Runs AFL++ so long, or not at all where it ran before: its counts."""
    how = laid(command, folder)
    words = ["afl-fuzz", "-i", "../in", "-o", "../out", "-f", how["INPUT"], "-x", "../tokens", "-t", "2000", "-m", "none", "-V", str(seconds)]
    with open(os.path.join(folder, "log"), "ab") as log:
        _ = seconds and subprocess.run([*words, "--", PROGRAM, *WORDS[command]], cwd=os.path.join(folder, "run"), env=how, stdout=log, stderr=log, check=True)
    with open(os.path.join(folder, "out", "default", "fuzzer_stats"), encoding="ascii") as stats:
        return dict(ENDS.findall(stats.read()))


def reached(command, folder, paths):
    """The blocks that each of these inputs comes to."""
    found, place = {}, os.path.join(folder, "reached")
    with Forks("blocks", BLOCKS=os.path.join(folder, "blocks")) as forks:
        for path in paths:
            tried = put(command, file_of(path), os.path.join(folder, "run"))
            write(folder, "reached", bytes(65536))
            forks.run(tried.words, os.path.join(folder, "run"), REACHED=place, **tried.settings)
            found[path] = {number for number, byte in enumerate(file_of(place)) if byte}
    return found


def fewest(command, folder, paths):
    """Lines of the fewest and shortest of these inputs that come to all the blocks, or to most, where they have more than MOST bytes."""
    found, taken, covered = reached(command, folder, paths), [], set()
    for path in sorted(paths, key=os.path.getsize):
        if not found[path] <= covered:
            taken.append(path)
            covered |= found[path]
    for path in reversed(taken[:]):
        others = set().union(*(found[other] for other in taken if other != path))
        if found[path] <= others:
            taken.remove(path)
    lines = [json.dumps(file_of(path).decode("latin-1")) + "\n" for path in taken]
    return [line for at, line in enumerate(lines) if sum(map(len, lines[: at + 1])) <= MOST]


def put(command, text, folder):
    """The row of an input, whose files are put into a folder."""
    for name in os.listdir(folder):
        os.remove(os.path.join(folder, name))
    parts = [text] if command == "follow" else re.split(rb"(?<![^\n])%%\n", text)
    for name, part in zip("123456789", parts):
        write(folder, name, part)
    return Row(tuple(WORDS[command]), stream="1" if command == "follow" else None)


def again(command, text, trial):
    """What is bad about a run on an input, or nothing."""
    tried = put(command, text, trial.folder)
    trial.looks = looks(trial.folder)
    return trial.judged(tried, trial.run(tried))


def main(command, seconds="3600", folder=None):
    with tempfile.TemporaryDirectory(dir="/dev/shm" if os.path.isdir("/dev/shm") else None) as top:
        folder = os.path.abspath(folder or top)
        os.makedirs(folder, exist_ok=True)
        counts = fuzzed(command, int(seconds), folder)
        paths = sorted(glob.glob(os.path.join(folder, "out", "default", "queue", "id*")))
        bad, kept_ones = 0, [path for kind in ("queue", "crashes", "hangs") for path in glob.glob(os.path.join(folder, "out", "default", kind, "id*"))]
        with Forks() as forks:
            trial = Trial(forks, os.path.join(top, "again"), {})
            for path in kept_ones:
                if why := again(command, file_of(path), trial):
                    bad += 1
                    print(f"BAD {path}: {why}", flush=True)
        if folder != top:
            write(folder, "corpus.jsonl", "".join(fewest(command, folder, paths)).encode())
    print(", ".join(f"{name} {count}" for name, count in counts.items()))
    print(f"{int(counts['execs_done']) + len(kept_ones)} cases, {bad} bad")
    return 1 if bad else 0


if __name__ == "__main__":
    sys.exit(main(*sys.argv[1:]))
