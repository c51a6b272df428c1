#!/usr/bin/env python3
"""Refuses each request for memory that a run of the shipped program makes: the answer is the row's or a named WantOfMemory.

    bench/hostile/memory.py [COUNT [WORD]]

For each row of `rows.py` (of those whose words hold WORD) over `memory.c` that is loaded before it: the N-th request is refused,
and once more each from the N-th on, for each N (for COUNT of them, spread over all, where it is given). A thread that can't be made
is a request, too. The stack and what the loader maps before the program's start are none, and are met by address spaces that grow
by 64 KB, for `check` by 4. A run is bad where it is ended by a signal, goes on after 10 seconds of a processor, takes more than 2 or 500 MB, prints or
leaves anything but what it does with memory enough, unless it is refused by `refused CALL 0 WantOfMemory` with status 1 (behind
whole lines of the answer where it is a filter, or `stopped WantOfMemory` where it follows a stream), or by the loader with status
127, its files as they were and none beside them. Prints of each row its requests, those of the loader and the C library before its
start, and how often each answer came. The last line is 'N cases, M bad'; ends with 1 where M is not 0."""
import os
import re
import resource
import struct
import subprocess
import sys
import tempfile
from collections import Counter

from forks import PROGRAM, Forks, Ran
from rows import ROWS, changed, read, restored, texts, write

WANT = re.compile(rb"(refused [\w:-]+ 0 WantOfMemory)\n$")
FILTERS = ("record", "tally", "join")

# Kilobytes of address space in which the program has room, and the loader can't map the C library beside it. (In fewer than the program
# needs itself, the system ends it by a signal before its start.)
SPACE = os.path.getsize(PROGRAM) // 1024 + 400
SECONDS, KILOBYTES = 2, 500_000


class Trial:
    """The runs of one row, its files, and what it answers with memory enough."""

    def __init__(self, tried, forks, top, whole):
        self.tried, self.forks, self.before = tried, forks, whole
        self.folder, self.counts = os.path.join(top, "run"), os.path.join(top, "counts")
        restored(self.folder, whole)
        self.right, (self.made, _) = self.counted()
        self.after = {**whole, **({tried.writes: read(self.folder, tried.writes)} if tried.writes else {})}
        self.answers, self.places = Counter(), {}

    def counted(self, **settings):
        """A run, how many requests it made, and how many were made before it was started."""
        write(os.path.dirname(self.counts), "counts", bytes(16))
        ran = self.forks.run(self.tried.words, self.folder, COUNTS=self.counts, **self.tried.settings, **settings)
        return ran, struct.unpack("2q", read(os.path.dirname(self.counts), "counts"))

    def answer(self, ran):
        """What a run answered, and whether that is bad."""
        if ran.seconds > SECONDS or ran.kilobytes > KILOBYTES:
            return f"{ran.seconds:.1f} s, {ran.kilobytes} KB", True
        others = changed(self.folder, self.before)
        if ran.status == self.right.status and ran.out == self.right.out:
            others = [name for name in others if read_or_none(self.folder, name) != self.after.get(name)]
            return (f"the answer, but files changed: {others}", True) if others else ("the answer", False)
        want, lines = WANT.search(ran.out), ran.out.splitlines(keepends=True)
        front = b"".join(lines[:-1])
        if self.tried.stream and lines and lines[-1] == b"stopped WantOfMemory\n":
            want = re.match(rb"(stopped WantOfMemory)", lines[-1])
        is_front = front == b"" or ((self.tried.words[0] in FILTERS or self.tried.stream) and self.right.out.startswith(front))
        if ran.status != 1 or not want or not is_front:
            return f"status {ran.status}, {ran.out[:80]!r} {ran.err[:80]!r}", True
        line = want[1].decode() + (", behind lines of the answer" if front else "")
        return (f"{line}, but files changed: {others}", True) if others else (line, False)

    def count(self, said, place):
        """One more answer."""
        self.answers[said] += 1
        self.places.setdefault(said, []).append(place)

    def requests(self, most):
        """Refuses requests, alone and with all later ones."""
        for every in ({}, {"REFUSE_ON": 1}):
            for number in range(1, 1 + self.made, max(1, -(-self.made // most))):
                ran, (made, _) = self.counted(REFUSE_AT=number, **every)
                said = self.answer(ran)
                self.count(("the answer, with fewer requests", False) if made < number and said == ("the answer", False) else said, number)
                restored(self.folder, self.before)

    def spaces(self, most):
        """Runs in address spaces that grow by a step, until 512 KB more suffice."""
        step = 4 if self.tried.name == "check doc" else 64
        enough, kilobytes = 0, SPACE
        while enough * step < 512 and kilobytes < SPACE + step * most:
            ran = self.within(kilobytes)
            said = self.answer(ran)
            if ran.status == 127 and ran.out == b"" and not changed(self.folder, self.before):
                said = ("the loader refuses, status 127", False)
            enough = enough + 1 if said == ("the answer", False) else 0
            self.count((f"in a small address space: {said[0]}", said[1]), f"{kilobytes} KB")
            restored(self.folder, self.before)
            kilobytes += step

    def within(self, kilobytes):
        """A run of its own start, in so many kilobytes of address space."""
        limit = lambda: (resource.setrlimit(resource.RLIMIT_AS, (kilobytes * 1024,) * 2), resource.setrlimit(resource.RLIMIT_CPU, (10, 11)))
        with open(os.path.join(self.folder, self.tried.stdin) if self.tried.stdin else os.devnull, "rb") as given:
            ran = subprocess.run([PROGRAM, *self.tried.words], cwd=self.folder, env={}, stdin=given, preexec_fn=limit, capture_output=True, check=False)
        return Ran(ran.returncode, ran.stdout, ran.stderr, 0, 0)

    def early(self):
        """How many requests the loader and the C library make before the start."""
        write(os.path.dirname(self.counts), "counts", bytes(16))
        how = {"LD_PRELOAD": self.forks.library, "COUNTS": self.counts}
        null = subprocess.DEVNULL
        subprocess.run([PROGRAM, "--version"], env=how, stdin=null, stdout=null, check=True)
        return struct.unpack("2q", read(os.path.dirname(self.counts), "counts"))[1]


def read_or_none(folder, name):
    """The bytes of a file of a folder, or nothing where it is not there."""
    return read(folder, name) if os.path.exists(os.path.join(folder, name)) else None


def main(most=1_000_000, word=""):
    number = bad = 0
    with tempfile.TemporaryDirectory(dir="/dev/shm" if os.path.isdir("/dev/shm") else None) as top, Forks("memory") as forks:
        whole = texts()
        for tried in (it for it in ROWS if word in it.name):
            trial = Trial(tried, forks, top, whole)
            restored(trial.folder, whole)
            trial.requests(int(most))
            if not tried.stream:
                trial.spaces(int(most))
            print(f"{tried.name}: {trial.made} requests, {trial.early()} before its start")
            for (said, is_bad), count in trial.answers.most_common():
                number, bad = number + count, bad + count * is_bad
                where = f", at {trial.places[said, is_bad][:10]}" if is_bad else ""
                print(f"  {count} {'BAD ' if is_bad else ''}{said}{where}", flush=True)
    print(f"{number} cases, {bad} bad")
    return 1 if bad else 0


if __name__ == "__main__":
    sys.exit(main(*sys.argv[1:]))
