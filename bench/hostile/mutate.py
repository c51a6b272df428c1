#!/usr/bin/env python3
"""Runs the shipped program on cut and mutated files: each run is to end with a named refusal or a right answer.

    bench/hostile/mutate.py [COUNT [SEED [KIND ..]]]

The files are of 14 kinds, those of the demo and what the program makes of them. Each file of each command is cut at each byte (one
of more than 6,000 bytes at 6,000 places; with a COUNT below 100 at 10), where SEED is 0, and COUNT times for each kind (1,000 where
it is left out) a file is mutated: bytes lost, put in or changed; tokens exchanged, left out or doubled; lines doubled; members
repeated; values nested deep; huge numbers, lone surrogates and NULs. KINDS are those that are tried.
A run is bad where it is ended by a signal, takes more than 2 seconds of a processor or 500 MB, prints on both outlets what belongs
to one, refuses without a name, changes or leaves a file that it should not, or where what it prints does not read back: a plan is
to verify, a new document to be good, a book or a tally to be read, a picture to be XML. The same seed gives the same runs, all of
a few starts of the program (`forks.c`). The last line is 'N cases, M bad'; ends with 1 where M is not 0."""
import functools
import json
import os
import random
import re
import sys
import tempfile
from collections import Counter
from xml.etree import ElementTree

from forks import Forks
from rows import Row, looks, read, restored, row, texts, write

SECONDS, KILOBYTES, CUTS = 2, 500_000, 6000
CUTS_ONLY = "other files, cut"

# For each kind of file the rows, and which of their files is mutated.
KINDS = {
    "document": [
        (row("check doc"), "doc"),
        (row("check rules"), "rules"),
        (row("check doc sale"), "sale"),
        (row("check --strict --json doc rules"), "rules"),
        (row("resolve doc checkout bool false context 0"), "doc"),
        (row("resolve sale banner text EMPTY context 0"), "sale"),
        (row("plan doc request book"), "doc"),
        (row("verify doc request book plan"), "doc"),
        (row("verify --json doc request book plan"), "doc"),
        (row("apply doc plan checkout 0"), "doc"),
        (row("apply --keep doc plan request book"), "doc"),
        (row("apply --keep --write kept plan request tally", writes="kept"), "kept"),
        (row("ramp doc steps book"), "doc"),
        (row("picture doc request book plan"), "doc"),
        (row("drive --replace doc few 2 made", writes="made"), "doc"),
        (row("drive --replace --strict --json doc few 2 made", writes="made"), "doc"),
        (row("record doc checkout", stdin="contexts"), "doc"),
        (row("tally doc checkout 0", stdin="sorted"), "doc"),
    ],
    "rule": [
        (row("bucket rule test"), "rule"),
        (row("bucket --json rule test"), "rule"),
        (row("price old new prices keys"), "old"),
        (row("price --json old new prices keys"), "new"),
    ],
    "request": [
        (row("price old new prices keys"), "prices"),
        (row("plan doc request book"), "request"),
        (row("plan doc range book"), "range"),
        (row("plan doc finer tally --refine 10"), "finer"),
        (row("verify doc request tally plan"), "request"),
        (row("apply --keep doc plan request book"), "request"),
        (row("picture doc request book plan"), "request"),
    ],
    "keys": [(row("price old new prices keys"), "keys")],
    "context": [(row("resolve doc checkout bool false context 0"), "context")],
    "asks": [
        (row("drive --replace doc few 2 made", writes="made"), "few"),
        (row("drive --replace --strict --json doc few 2 made", writes="made"), "few"),
        (row("drive --add doc asks 2 made", writes="made"), "asks"),
    ],
    "book": [
        (row("plan doc request book"), "book"),
        (row("verify doc request book plan"), "book"),
        (row("ramp doc steps book"), "book"),
        (row("drive --add doc few 1 made", writes="made"), "made"),
        (row("book joined book notes", writes="joined"), "book"),
        (row("plan --picture drawn doc request book", writes="drawn"), "book"),
    ],
    "plan": [
        (row("verify doc request book plan"), "plan"),
        (row("apply doc plan checkout 0"), "plan"),
        (row("apply --keep doc plan request book"), "plan"),
        (row("picture doc request book plan"), "plan"),
    ],
    "tally": [
        (row("plan doc request tally"), "tally"),
        (row("verify doc request tally plan"), "tally"),
        (row("apply --keep doc plan request tally"), "tally"),
        (row("join first second"), "first"),
        (row("join first second"), "second"),
    ],
    "notes": [
        (row("book joined book notes", writes="joined"), "notes"),
        (row("book --torn joined torn book", writes="joined"), "torn"),
        (row("tally doc checkout 0", stdin="sorted"), "sorted"),
    ],
    "contexts": [(row("record doc checkout", stdin="contexts"), "contexts"), (row("record doc theme", stdin="contexts"), "contexts")],
    "steps": [(row("ramp doc steps book"), "steps"), (row("verify-ramp doc steps book ramp"), "steps")],
    "ramp": [
        (row("verify-ramp doc steps book ramp"), "ramp"),
        (row("apply --step 2 doc ramp checkout 0"), "ramp"),
        (row("picture --ramp doc steps book ramp"), "ramp"),
    ],
    "frames": [(row("follow 9 1000", stream="frames"), "frames")],
}

# What is only cut.
CUT = [
    (row("resolve doc checkout bool false ann 0"), "ann"),
    (row("price old at-the-end prices keys"), "at-the-end"),
    (row("price of-200 new prices keys"), "of-200"),
    (row("bucket heavy test"), "heavy"),
    (row("ramp doc back book"), "back"),
    (row("check comma"), "comma"),
    (row("plan by by-request by-book"), "by"),
    (row("plan by by-request by-book"), "by-request"),
    (row("plan by by-request by-book"), "by-book"),
    (row("plan doc request other-book"), "other-book"),
    *[(row(f"plan doc {name} book"), name) for name in ("next", "no-flag", "no-sum", "no-variant", "request-back", "wrong-price")],
]

TOKEN = re.compile(rb'"(?:[^"\\]|\\.)*"|[\[\]{},:]|[^\s\[\]{},:"]+')
TOKENS = [
    b"9" * 400, b"1e999999999", b"-9007199254740992", b"9007199254740991", b"4294967296", b"-0", b"0.1", b"1E2", b"00", b"-",
    b'"\\ud800"', b'"\\udfff\\ud800"', b'"\xed\xa0\x80"', b'"\xff"', b'"\\u0000"', b'"\x00"', b"\x00", b'"' + b"x" * 70000 + b'"',
    b"null", b"true", b"NaN", b"[]", b"{}", b'""', b'"on"', b'"off"', b'"$ref"', b'"fractional"', b'{"$ref":"staff"}',
    b'{"var":""}', b"[[[[]]]]", b",", b":", b"]", b"}", b"\xef\xbb\xbf", b"/*x*/", b"\n", b"\r",
]  # fmt: skip
REFUSAL = re.compile(r"refused [\w:-]+ .*[A-Z]\w+.*\n")
DOUBTED = re.compile(r"refused [\w-]+ 1[678] .*\n")
FOLLOWED = re.compile(r"(snapshot \d+ flags \d+\n)*(ended|stopped \w+)\n")
ENDS = {"ended": 0, "stopped Limit": 0, "stopped EndedInside": 1, "stopped Frame": 1}
SHAPES = {
    "bucket": r'hash [0-9a-f]{8}\npoint \d+\nvariant ".*"\n',
    "price": r'(total ".*" \d+\n)+forbidden (none|\d+)\ncost \d+\n',
    "check": r'(document ".*"\n|".*" (good|broken)\n)*',
    "verify": r"valid (none|cost \d+)\n",
    "verify-ramp": r"valid cost( \d+)*( none)?\n",
}

# The members of each text that is printed with --json, but of the resolutions.
MEMBERS = {
    "bucket": ["hash", "point", "variant"],
    "price": ["cost", "forbidden", "totals"],
    "check": ["broken", "document", "doubted", "good"],
    "verify": ["cost", "valid"],
    "drive": ["calls", "full", "inputs", "long", "news"],
}


class Trial:
    """The runs in one folder, with the files as they were, and as they are for the next run."""

    def __init__(self, forks, folder, whole):
        self.forks, self.folder, self.whole = forks, folder, whole
        os.makedirs(folder, exist_ok=True)
        self.restore()

    def restore(self):
        """All files are as they were at first."""
        restored(self.folder, self.whole)
        self.looks = looks(self.folder)

    def put(self, name, text):
        """The file of this name is this text from now on."""
        write(self.folder, name, text)
        self.looks = looks(self.folder)

    def run(self, tried):
        """A run of a row."""
        ran = self.forks.run(tried.words, self.folder, **tried.settings)
        return ran._replace(out=ran.out.decode(errors="surrogateescape"), err=ran.err.decode(errors="surrogateescape"))

    def fault(self, tried, name, text):
        """What is bad about a run of a row with such a file, or nothing; all files are then as they were."""
        self.put(name, text)
        ran = self.run(tried)
        why = self.judged(tried, ran)
        for other in {name, tried.writes, "joined", "printed"} & {*self.whole}:
            write(self.folder, other, self.whole[other])
        if why:
            self.restore()
        return why, ran

    def judged(self, tried, ran):
        """What is bad about a run."""
        if ran.status not in (0, 1, 3):
            return f"status {ran.status}"
        if ran.seconds > SECONDS or ran.kilobytes > KILOBYTES:
            return f"{ran.seconds:.1f} s, {ran.kilobytes} KB"
        if tried.stream:
            ends = FOLLOWED.fullmatch(ran.out)
            return None if ends and ENDS.get(ends[2]) == ran.status else "no documented end of a stream"
        seen = looks(self.folder)
        others = [name for name in {*seen, *self.looks} if seen.get(name) != self.looks.get(name) and (ran.status == 1 or name != tried.writes)]
        if others:
            return f"changed or left: {others}"
        is_list = tried.words[:2] == ("check", "--strict") and self.reads_back(tried, ran)
        if ran.status == 1 and not is_list:
            return self.refused(tried, ran)
        if "error: " in ran.err or "refused " in ran.out.split("\n", 1)[0]:
            return "an answer beside an error"
        return None if self.reads_back(tried, ran) else "what is printed does not read back"

    def refused(self, tried, ran):
        """What is bad about a refusal: a filter has printed lines before, which read back."""
        lines = lines_of(ran.out)
        opening = "note: " if lines and DOUBTED.fullmatch(lines[-1]) else "error: "
        is_named = lines and REFUSAL.fullmatch(lines[-1]) and "WantOfMemory" not in lines[-1] and ran.err.startswith(opening)
        if not is_named:
            return "a refusal without its name or its words"
        if tried.words[0] == "record":
            return None if all(is_note(line) for line in lines[:-1]) else "no note lines before a refusal"
        return None if len(lines) == 1 or tried.words[0] in ("tally", "join") else "more than a refusal"

    def reads_back(self, tried, ran):
        """Whether what a run printed and wrote reads back."""
        command, words, out = tried.words[0], tried.words, ran.out
        if "--json" in words and command != "drive":
            return are_texts_of(MEMBERS[command], out.split("\n")[:-1])
        if command in SHAPES:
            return re.fullmatch(SHAPES[command], out) is not None
        if command == "resolve":
            return is_resolution(out)
        if command == "record":
            return all(is_note(line) for line in lines_of(out))
        if command == "picture":
            return is_picture(out)
        return getattr(self, command)(words, ran)

    def plan(self, words, ran):
        """A plan is to verify, its picture to be one."""
        if words[1] == "--picture":
            return is_picture(read(self.folder, words[2]).decode()) and self.plan((words[0], *words[3:]), ran)
        return self.again("verify", *words[1:4], "printed", *words[4:], out=ran.out).startswith("valid none" if ran.status == 3 else "valid cost")

    def ramp(self, words, ran):
        """Steps are to verify."""
        return self.again("verify-ramp", *words[1:4], "printed", out=ran.out).endswith(" none\n" if ran.status == 3 else "\n")

    def apply(self, words, ran):
        """A new document is to be good in the flag, whose rule a plan was for."""
        if "--write" in words:
            text = read(self.folder, words[3])
            return ran.out == f"written {len(text)}\n" and '"checkout" good\n' in self.again("check", "printed", out=text)
        return ran.status == 3 and ran.out == "none\n" or '"checkout" good\n' in self.again("check", "printed", out=ran.out)

    def drive(self, words, ran):
        """Its book is to be read, and its lines to be resolutions."""
        lines = ran.out.split("\n")[:-1]
        count = 1 if "--json" in words else 5
        answers, counts = lines[:-count], lines[-count:]
        are_counts = are_texts_of(MEMBERS["drive"], counts) if "--json" in words else len(counts) == count
        book = read(self.folder, words[-1])
        return self.again("book", "--replace", "joined", "printed", out=book).startswith("inputs") and are_counts and all(map(is_resolution, answers))

    def book(self, words, ran):
        """The book is to be read, and to be the book of itself."""
        text = read(self.folder, "joined")
        return self.again("book", "--replace", "joined", "printed", out=text) == ran.out.split("\n")[0] + "\nfiles 1\n" and read(self.folder, "joined") == text

    def tally(self, words, ran):
        """The tally is to be that of itself."""
        return self.again("join", "printed", out=ran.out) == ran.out

    join = tally

    def again(self, *words, out):
        """What a run prints that reads the file `printed`."""
        write(self.folder, "printed", out if isinstance(out, bytes) else out.encode())
        ran = self.run(Row(words))
        return ran.out if ran.status == 0 else f"status {ran.status}"


def lines_of(text):
    """The lines of a text with their line feeds, which alone end them."""
    return re.findall(r"[^\n]*\n|[^\n]+", text)


def is_note(line):
    """Whether a line is that of a note."""
    try:
        note = json.loads(line)
    except ValueError:
        return False
    return line.endswith("\n") and len(note) == 4 and [type(note[0]), type(note[1]), type(note[3])] == [str, int, str]


def are_texts_of(names, lines):
    """Whether each line is a JSON text with these members, and there is one."""
    try:
        return len(lines) > 0 and all(list(json.loads(line)) == names for line in lines)
    except ValueError:
        return False


def is_resolution(line):
    """Whether a line is a resolution."""
    return list(json.loads(line)) == ["code", "reached", "reason", "value", "variant"]


def is_picture(text):
    """Whether a text is a picture."""
    return ElementTree.fromstring(text).tag == "{http://www.w3.org/2000/svg}svg"


@functools.lru_cache(maxsize=64)
def spans(text):
    """The places of the tokens of a text."""
    return [found.span() for found in TOKEN.finditer(text)] or [(0, len(text))]


def places_in(text, draw):
    """Places of tokens: all, or in a text of more than 16 KB those of 4 KB of it."""
    if len(text) <= 16_384:
        return spans(text)
    start = draw.randrange(len(text) - 4_096)
    return [(start + one, start + other) for one, other in spans(text[start : start + 4_096])]


def mutated(text, draw):
    """A file with one to three mutations."""
    for _ in range(draw.choice([1, 1, 2, 3])):
        places = places_in(text, draw)
        start, end = draw.choice(places)
        kind = draw.randrange(9)
        if kind == 0:
            place = draw.randrange(len(text) + 1)
            text = text[:place] + bytes([draw.randrange(256)]) + text[place + draw.randrange(3) :]
        elif kind == 1:
            text = text[:start] + text[end:]
        elif kind == 2:
            text = text[:end] + b"," * draw.randrange(2) + text[start:end] + text[end:]
        elif kind == 3:
            other = draw.choice(places)
            text = text[:start] + text[slice(*other)] + text[end:]
        elif kind == 4:
            depth = draw.choice([1, 5, 99, 120, 121, 127, 128, 100_000])
            front, behind = draw.choice([(b"[", b"]"), (b'{"!":', b"}"), (b'{"a":', b"}")])
            text = text[:start] + front * depth + text[start:end] + behind * depth + text[end:]
        elif kind == 5:
            members = [found.group() for found in re.finditer(rb'"\w+"\s*:\s*("[^"]*"|[\w.-]+)', text)] or [b'"a":1']
            text = text.replace(b"{", b"{" + (draw.choice(members) + b",") * draw.choice([1, 2, 3000]), 1)
        elif kind == 6:
            lines = text.splitlines(keepends=True) or [b""]
            lines.insert(draw.randrange(len(lines) + 1), draw.choice(lines))
            text = b"".join(lines)
        else:
            text = text[:start] + draw.choice(TOKENS) + text[end:]
    return text


def cases(kind, count, draw, whole, is_cut):
    """The rows, the name of the mutated file, and its bytes."""
    pairs = KINDS.get(kind, CUT)
    for tried, name in pairs if is_cut else []:
        length = len(whole[name])
        for place in range(0, length, 1 + length // (CUTS if count >= 100 else 10)):
            yield tried, name, whole[name][:place]
    for number in range(count if kind in KINDS else 0):
        tried, name = pairs[number % len(pairs)]
        yield tried, name, mutated(whole[name], draw)


def main(count="1000", seed="0", *kinds):
    found, bad = Counter(), 0
    with tempfile.TemporaryDirectory(dir="/dev/shm" if os.path.isdir("/dev/shm") else None) as folder, Forks() as forks:
        trial = Trial(forks, os.path.join(folder, "run"), texts())
        for kind in kinds or [*KINDS, CUTS_ONLY]:
            draw = random.Random(f"{seed} {kind}")
            for tried, name, text in cases(kind, int(count), draw, trial.whole, seed == "0"):
                found[kind] += 1
                try:
                    why, ran = trial.fault(tried, name, text)
                except (ValueError, OSError, ElementTree.ParseError) as fault:
                    why, ran = f"{type(fault).__name__} {fault}", trial.run(tried)
                if why:
                    bad += 1
                    print(f"BAD {tried.name}: {name} of {len(text)} bytes: {why}\n  {text[:300]!r}\n  {ran.out[:200]!r} {ran.err[:200]!r}", flush=True)
            print(f"  {found[kind]} {kind}", flush=True)
    print(f"{sum(found.values())} cases, {bad} bad")
    return 1 if bad else 0


if __name__ == "__main__":
    sys.exit(main(*sys.argv[1:]))
