"""The rows on which the commands are tried: their words, the demo's files, and what the program makes of these."""
import json
import os
import subprocess
from typing import NamedTuple, Optional

from forks import PROGRAM, TOP

FILES = {
    "doc": "flags/shop.json",
    "sale": "flags/sale.json",
    "rules": "mistakes/rules.json",
    "context": "flags/mallory.json",
    "request": "rollout/request.json",
    "range": "rollout/range.json",
    "finer": "rollout/finer.json",
    "book": "rollout/book.txt",
    "tally": "rollout/tally.txt",
    "plan": "rollout/plan.json",
    "rule": "rule.json",
    "old": "price/old.json",
    "new": "price/new.json",
    "prices": "price/request.json",
    "keys": "price/keys.json",
    "asks": "drive/asks.json",
    "steps": "ramp/steps.json",
    "contexts": "records/contexts.jsonl",
}

# The demo's other files, which are only cut.
OTHERS = {
    "ann": "flags/ann.json",
    "at-the-end": "price/new-at-the-end.json",
    "back": "ramp/back.json",
    "by": "mistakes/by.json",
    "by-book": "mistakes/by-book.txt",
    "by-request": "mistakes/by-request.json",
    "comma": "mistakes/comma.json",
    "heavy": "mistakes/heavy.json",
    "next": "rollout/next.json",
    "no-flag": "mistakes/flag.json",
    "no-sum": "mistakes/sum.json",
    "no-variant": "mistakes/variant.json",
    "of-200": "mistakes/old-of-200.json",
    "other-book": "mistakes/other-book.txt",
    "request-back": "rollout/back.json",
    "wrong-price": "mistakes/price.json",
}


class Row(NamedTuple):
    """A run's words, the file that it reads as standard input, the one that it is sent on a connection, and the one it writes."""

    words: tuple
    stdin: Optional[str] = None
    stream: Optional[str] = None
    writes: Optional[str] = None

    @property
    def name(self):
        """The words, with what is read and sent."""
        return " ".join(self.words) + (f" < {self.stdin}" if self.stdin else "") + (f" of {self.stream}" if self.stream else "")

    @property
    def settings(self):
        """What is set for the run."""
        return {name.upper(): value for name, value in (("stdin", self.stdin), ("stream", self.stream)) if value}

    def loads(self, files):
        """The files that are loaded, by their names, in the order of the words."""
        is_read = "--add" in self.words or "--keep" in self.words
        return [word for word in self.words[1:] if word in files and (word != self.writes or is_read)]


def row(words, **more):
    """A row of words that stand in a text."""
    return Row(tuple(word.replace("EMPTY", '""') for word in words.split()), **more)


ROWS = [
    row("bucket rule test"),
    row("bucket --json rule test"),
    row("price old new prices keys"),
    row("price --json old new prices keys"),
    row("check doc"),
    row("check rules"),
    row("check doc sale"),
    row("check --strict --json doc rules"),
    row("resolve doc checkout bool false context 0"),
    row("resolve sale theme text EMPTY context 0"),
    row("plan doc request book"),
    row("plan doc range book"),
    row("plan doc finer book --refine 10"),
    row("plan doc request tally"),
    row("plan --picture drawn doc request book", writes="drawn"),
    row("verify doc request book plan"),
    row("verify doc request tally plan"),
    row("verify --json doc request book plan"),
    row("apply doc plan checkout 0"),
    row("apply --step 2 doc ramp checkout 0"),
    row("apply --keep doc plan request book"),
    row("apply --keep --write kept plan request tally", writes="kept"),
    row("ramp doc steps book"),
    row("verify-ramp doc steps book ramp"),
    row("picture doc request book plan"),
    row("picture --ramp doc steps book ramp"),
    row("drive --replace doc few 1 made", writes="made"),
    row("drive --replace doc few 2 made", writes="made"),
    row("drive --add doc few 2 made", writes="made"),
    row("drive --replace --strict --json doc few 2 made", writes="made"),
    row("book joined book notes", writes="joined"),
    row("book --torn joined torn book", writes="joined"),
    row("record doc checkout", stdin="contexts"),
    row("tally doc checkout 0", stdin="sorted"),
    row("join tally"),
    row("join first second"),
    row("follow 9 1000", stream="frames"),
]


def printed(words, stdin=None):
    """What a run on the demo prints."""
    ended = subprocess.run([PROGRAM, *words.split()], cwd=os.path.join(TOP, "demo"), input=stdin, stdout=subprocess.PIPE, check=True)
    return ended.stdout


def texts():
    """The files of all rows, by their names."""
    found = {}
    for name, path in {**FILES, **OTHERS}.items():
        with open(os.path.join(TOP, "demo", path), "rb") as file:
            found[name] = file.read()
    found["few"] = json.dumps(json.loads(found["asks"])[:5]).encode()
    found["made"], found["joined"], found["kept"], found["drawn"] = found["book"], found["book"], found["doc"], b"<svg/>"
    found["notes"] = printed("record flags/shop.json checkout", found["contexts"])
    lines = sorted(found["notes"].splitlines(keepends=True))
    found["sorted"] = b"".join(lines)
    found["torn"] = b'["checkout",0,nu' + found["notes"] + b'["checkout",0,null,"checkouta'
    for name, part in (("first", lines[:20]), ("second", lines[20:])):
        found[name] = printed("tally flags/shop.json checkout 0", b"".join(part))
    found["ramp"] = printed("ramp flags/shop.json ramp/steps.json rollout/book.txt")
    flags = [found["doc"], found["sale"], b'{"flags":{"a":{}}}']
    found["frames"] = b"".join((8 + len(text)).to_bytes(4, "big") + number.to_bytes(8, "big") + text for number, text in enumerate(flags, 1))
    return found


def write(folder, name, text):
    """A file of a folder."""
    with open(os.path.join(folder, name), "wb") as file:
        file.write(text)


def read(folder, name):
    """The bytes of a file of a folder."""
    with open(os.path.join(folder, name), "rb") as file:
        return file.read()


def looks(folder):
    """What tells without reading it that a file of a folder has changed, by their names."""
    found = {}
    with os.scandir(folder) as files:
        for file in files:
            look = file.stat()
            found[file.name] = look.st_ino, look.st_size, look.st_mtime_ns
    return found


def changed(folder, files):
    """The files of a folder that are not as these, and those that are none of them."""
    found = {name: read(folder, name) for name in os.listdir(folder)}
    return sorted(name for name in {*found, *files} if found.get(name) != files.get(name))


def restored(folder, files):
    """Makes the files of a folder these again."""
    for name in changed(folder, files) if os.path.isdir(folder) else files:
        os.makedirs(folder, exist_ok=True)
        if name in files:
            write(folder, name, files[name])
        else:
            os.remove(os.path.join(folder, name))
