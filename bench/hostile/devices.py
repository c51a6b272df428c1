#!/usr/bin/env python3
"""Runs the shipped program over files, reads, writes and outputs that fail: each run ends as the documents say.

    bench/hostile/devices.py [COUNT [WORD]]

For each row of `rows.py` (of those whose words hold WORD), over `devices.c` that is loaded before it: each file that it loads is
missing, a folder, without right, or without end (`/dev/zero`), each open and each read fails (`refused load 1 Unreadable`, no other answer, no file changed),
is interrupted or is short (the answer as ever); the standard output takes K bytes, for each K below the output's length (3,000 of
them, spread over all, where it is longer): those K bytes, status 1; or it is interrupted or short at each write; a file that is
written fails at each step of its writing (the old file, alone, status 1). COUNT bounds the places of each kind, spread over all. A
file without right is one whose open is refused, since root may read all. The last line is 'N cases, M bad'; ends with 1 where M is
not 0."""
import os
import re
import struct
import sys
import tempfile
from collections import Counter

from forks import Forks
from rows import ROWS, changed, read, restored, texts, write

UNREADABLE = re.compile(rb"refused load 1 Unreadable\n")
UNREAD_LINES = re.compile(rb"(?:.*\n)*refused (record 2|tally 4) Unreadable\n|refused load 1 Unreadable\n")
READ_FAULT = re.compile(rb"(snapshot .*\n)*stopped ReadFault\n")
UNWRITABLE = re.compile(rb"refused store 1 Unwritable\n")
STEPS = ["open", "statx", "write", "fsync", "fdatasync", "fchmod", "ftruncate", "rename", "close", "readlink"]
REFUSED = re.compile(rb"refused [\w:-]+ [1-9].*\n")
PLACES, KILOBYTES = 3000, 500_000


class Trial:
    """The runs of one row, in a folder of its own, and what was found."""

    def __init__(self, tried, forks, top, whole, most):
        self.tried, self.forks, self.most, self.before = tried, forks, min(most, PLACES), whole
        self.folder, self.counts = os.path.join(top, "run"), os.path.join(top, "counts")
        self.found, self.bad = Counter(), []
        self.right = self.run()
        self.after = {**whole, **({tried.writes: read(self.folder, tried.writes)} if tried.writes else {})}

    def run(self, **settings):
        """A run with files as they were at first."""
        restored(self.folder, self.before)
        return self.again(**settings)

    def again(self, **settings):
        """A run with the files of now."""
        write(os.path.dirname(self.counts), "counts", bytes(8))
        return self.forks.run(self.tried.words, self.folder, COUNTS=self.counts, **self.tried.settings, **settings)

    def made(self, call):
        """How many calls of a name the row makes."""
        self.run(CALL=call)
        return struct.unpack("q", read(os.path.dirname(self.counts), "counts"))[0]

    def places(self, count):
        """Places from 1 to a count: all, or as many as were asked for."""
        return range(1, 1 + count, max(1, -(-count // self.most)))

    def judge(self, kind, case, ran, is_right, files):
        """An output of this kind is wanted, and files as these."""
        others = changed(self.folder, files) if files is not None else []
        if is_right and not others:
            self.found[kind] += 1
        else:
            files_told = f", files {others}" if others else ""
            self.bad.append(f"{kind} {case}: status {ran.status}, {ran.out[:60]!r} {ran.err[:60]!r}{files_told}")

    def judge_refused(self, kind, case, ran, shape):
        """A refusal of this shape is wanted, and the files as they were."""
        self.judge(kind, case, ran, ran.status == 1 and shape.fullmatch(ran.out), self.before)

    def judge_same(self, kind, case, ran):
        """The answer as ever is wanted."""
        self.judge(kind, case, ran, ran.out == self.right.out and ran.status == self.right.status, self.after)


def looks_first(trial):
    """Whether the file that is written is looked at before others are loaded."""
    return trial.tried.name.startswith("book ")


def missing(trial):
    """Each file that is loaded is not there, or a folder."""
    for name in trial.tried.loads(trial.before):
        for kind in ("missing", "folder"):
            restored(trial.folder, trial.before)
            os.remove(os.path.join(trial.folder, name))
            if kind == "folder":
                os.mkdir(os.path.join(trial.folder, name))
            ran = trial.again()
            if kind == "folder":
                os.rmdir(os.path.join(trial.folder, name))
            write(trial.folder, name, trial.before[name])
            trial.judge_refused(f"a file is {kind}", name, ran, UNREADABLE)


def endless(trial):
    """Each file that is loaded, and the standard input, has no end: a refusal by name within 500 MB."""
    for name in trial.tried.loads(trial.before) + ([trial.tried.stdin] if trial.tried.stdin else []):
        restored(trial.folder, trial.before)
        os.remove(os.path.join(trial.folder, name))
        os.symlink("/dev/zero", os.path.join(trial.folder, name))
        ran = trial.again()
        os.remove(os.path.join(trial.folder, name))
        write(trial.folder, name, trial.before[name])
        trial.judge("a file is endless", name, ran, ran.status == 1 and REFUSED.fullmatch(ran.out) and ran.kilobytes < KILOBYTES, trial.before)


def reads(trial):
    """Each read and each open of what is loaded fails, is interrupted or is short. A book that is replaced and can't be read
    counts as none; `book` looks at it before it loads."""
    looks = looks_first(trial) or trial.tried.name.startswith("drive ") and "--add" not in trial.tried.name
    for number in range(1 + looks_first(trial), 1 + looks_first(trial) + len(trial.tried.loads(trial.before))):
        trial.judge_refused("an open without right", number, trial.run(CALL="open", CALL_AT=number, CALL_HOW="fail"), UNREADABLE)
        trial.judge_same("an open interrupted", number, trial.run(CALL="open", CALL_AT=number, CALL_HOW="interrupt"))
    for call, shape in (("read", UNREAD_LINES if trial.tried.stdin else UNREADABLE), ("recv", READ_FAULT)):
        for number in trial.places(trial.made(call)):
            ran = trial.run(CALL=call, CALL_AT=number, CALL_HOW="fail")
            if looks and call == "read" and ran.status == 0:
                trial.judge_same("a read of the book that is replaced fails, done without", number, ran)
            else:
                trial.judge_refused(f"a {call} fails", number, ran, shape)
            for how in ("interrupt", "short"):
                trial.judge_same(f"a {call} {how}", number, trial.run(CALL=call, CALL_AT=number, CALL_HOW=how))


def outputs(trial):
    """The standard output takes fewer bytes than there are, or is interrupted or short."""
    for number in trial.places(len(trial.right.out)):
        ran = trial.run(OUT_BYTES=number - 1)
        trial.judge("an output cut", number - 1, ran, ran.out == trial.right.out[: number - 1] and ran.status == 1, trial.after)
    for number in trial.places(trial.made("out")):
        for how in ("interrupt", "short"):
            trial.judge_same(f"a write {how}", number, trial.run(CALL="out", CALL_AT=number, CALL_HOW=how))


def books(trial):
    """Each step of the writing of a file fails: the old file, alone, or a step that the program can do without."""
    loads = looks_first(trial) + len(trial.tried.loads(trial.before))
    for call in STEPS if trial.tried.writes else []:
        for number in range(1 + (loads if call in ("open", "statx", "close") else 0), 1 + trial.made(call)):
            ran = trial.run(CALL=call, CALL_AT=number, CALL_HOW="fail")
            if ran.out == trial.right.out and ran.status == 0:
                trial.judge_same(f"a file's {call} fails, done without", number, ran)
            else:
                trial.judge_refused(f"a file's {call} fails", number, ran, UNWRITABLE)


def main(most=1_000_000, word=""):
    number = bad = 0
    kinds = Counter()
    with tempfile.TemporaryDirectory(dir="/dev/shm" if os.path.isdir("/dev/shm") else None) as top, Forks("devices") as forks:
        whole = texts()
        for tried in (it for it in ROWS if word in it.name):
            trial = Trial(tried, forks, top, whole, int(most))
            for kind in (missing, endless, reads, outputs, books):
                kind(trial)
            print(f"{tried.name}: {sum(trial.found.values())} as they should be, {len(trial.bad)} bad", flush=True)
            for line in trial.bad[:20]:
                print(f"  BAD {line}")
            kinds += trial.found
            number, bad = number + sum(trial.found.values()) + len(trial.bad), bad + len(trial.bad)
    for kind, count in kinds.items():
        print(f"  {count} {kind}")
    print(f"{number} cases, {bad} bad")
    return 1 if bad else 0


if __name__ == "__main__":
    sys.exit(main(*sys.argv[1:]))
