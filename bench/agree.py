#!/usr/bin/env python3
"""Runs two builds of flagops on the same inputs and tells where they differ in status, report, remark or book.

    bench/agree.py OLD NEW [SEED [COUNT]]

The inputs are the files of demo/, each run with one or some of them mutated: a value replaced, left out, doubled or nested
deep, bytes lost or put in, lines exchanged. Use it when the code behind what is printed or told is written anew. The same
seed gives the same runs. Ends with 1 where any differ."""
import copy
import json
import os
import random
import subprocess
import sys
import tempfile

DEMO = os.path.join(os.path.dirname(os.path.abspath(__file__)), "..", "demo")
SHOWN = 10
SECONDS = 120

# Beside the demo's document one with evaluators that are fit, unknown, wrong, cyclic and not whole, and odd keys.
EVALUATORS = {
    "$evaluators": {
        "staff": {"in": ["@x", {"var": "email"}]},
        "half": {"==": [{"var": "a"}, 1.5]},
        "loop": {"$ref": "loop"},
        "bad": {"nand": [1, 2]},
        "deep.name": {"fractional": [{"var": "k"}, ["a", 1, 2], ["b"]]},
    },
    "flags": {
        key: {"state": "ENABLED", "variants": {"on": True, "off": False}, "defaultVariant": "off", "targeting": targeting}
        for key, targeting in {
            "checkout": {"if": [{"$ref": "staff"}, "on", {"fractional": [["on", 5], ["off", 95]]}]},
            "b.c": {"if": [{"$ref": "half"}, "on", "off"]},
            "a key with blanks and with more than sixty characters, which is cut in here": {"$ref": "deep.name"},
            "loop": {"$ref": "loop"},
            "bad": {"if": [{"$ref": "bad"}]},
            "gone": {"if": [{"$ref": "gone"}]},
        }.items()
    },
}

VALUES = [
    None, True, False, 0, 1, -1, 2, 5, 100, 2**31, 2**32, 2**53 - 1, 1.5, -0.0, 1e30,
    "", "a", "on", "off", "checkout", "x" * 80, "naïve \n", "$ref", [], {}, [1], {"a": 1}, [3, 1], [1, 3],
    [["on", 5], ["off", 95]], [["on", "off"]], [["on", "on"]], [["on", "off", 1000001]], [["on", "off", 1], ["on", "off", 2]],
    {"on": 10, "off": 90}, {"on": [1, 20], "off": [80, 99]}, {"$ref": "staff"}, {"$ref": "gone"}, {"$ref": "loop"},
    {"var": "a"}, {"nand": [1]}, {"if": []}, {"%": [1]}, {"sem_ver": ["1", "2"]}, {"fractional": [["on", 1]]},
    {"fractional": [["on", {"+": [1, 2]}], ["off", 5]]}, {"fractional": [["on"], [1, 2, 3]]},
]

NAMES = (
    "plan flag site totals price prices forbid none rule alpha beta cost side state variants defaultVariant targeting "
    "$evaluators flags key want default context moment on off x.y by"
).split()

PIECES = [b",", b"]", b"}", b"\xff", b"1.5", b'"', b"\n", b"//x", b"-", b" "]

LINES = [
    b'"a"', b'"zz"', b"x", b'{"book":1}', b'"' + b"q" * 1025 + b'"',
    b'{"by":null,"flag":"checkout","site":1}', b'{"by":null,"flag":"a","site":0}',
]

DEPTHS = [5, 100, 101, 119, 120, 121, 126, 127, 128, 140]


def read(name):
    with open(os.path.join(DEMO, name), "rb") as file:
        return file.read()


class Mutations:
    """Mutated files, and runs on them, drawn from a seed."""

    def __init__(self, seed):
        self.random = random.Random(seed)
        shop = read("flags/shop.json")
        self.documents = [shop, shop, json.dumps(EVALUATORS).encode()]
        self.requests = [read(f"rollout/{it}.json") for it in ("request", "back", "range", "finer")]
        self.plans = [read("rollout/plan.json"), read("rollout/next.json"), b'{"none":["on"],"plan":1}']
        self.book = read("rollout/book.txt")
        self.asks = json.dumps(json.loads(read("drive/asks.json"))[:6]).encode()
        self.prices = {it: read(f"price/{it}.json") for it in ("old", "new", "request", "keys")}

    def of_bytes(self, text):
        text = bytearray(text)
        for _ in range(self.random.randint(1, 3)):
            at = self.random.randrange(len(text) + 1)
            kind = self.random.random()
            if kind < 0.3:
                del text[at:]
            elif kind < 0.7:
                text[at:at] = self.random.choice(PIECES)
            else:
                del text[at : at + 1]
        return bytes(text)

    def of_lines(self, text):
        lines = text.split(b"\n")
        at, other = self.random.randrange(len(lines)), self.random.randrange(len(lines))
        kind = self.random.random()
        if kind < 0.3:
            del lines[at]
        elif kind < 0.6:
            lines.insert(at, self.random.choice(LINES))
        else:
            lines[at], lines[other] = lines[other], lines[at]
        return b"\n".join(lines)

    def value(self):
        if self.random.random() < 0.93:
            return copy.deepcopy(self.random.choice(VALUES))
        tree = 1
        for level in range(self.random.choice(DEPTHS)):
            tree = [tree] if level % 3 else {f"d{level}": tree}
        return tree

    def of_tree(self, tree):
        """A tree with one of its parts replaced, left out, doubled, or with another beside it."""
        above = [(holder, key) for holder in holders(tree) for key in keys(holder)]
        if not above:
            return self.value()
        holder, key = self.random.choice(above)
        kind = self.random.random()
        if kind < 0.25:
            del holder[key]
        elif kind < 0.4 and isinstance(holder, dict):
            holder[self.random.choice(NAMES)] = self.value()
        elif kind < 0.5 and isinstance(holder, list):
            holder.insert(key, self.value())
        elif kind < 0.6 and isinstance(holder, list):
            holder.insert(key, copy.deepcopy(holder[key]))
        else:
            holder[key] = self.value()
        return tree

    def mutated(self, text):
        if self.random.random() < 0.12:
            return self.of_bytes(text)
        try:
            tree = json.loads(text)
        except ValueError:
            return self.of_lines(text)
        for _ in range(self.random.choice([1, 1, 1, 2, 3])):
            tree = self.of_tree(tree)
        return json.dumps(tree, ensure_ascii=self.random.random() < 0.5).encode()

    def files(self, **files):
        """These files, one of them mutated, or each as it falls."""
        chosen = self.random.choice([*files])
        is_one = self.random.random() < 0.75
        return {
            name: self.mutated(text) if (name == chosen if is_one else self.random.random() < 0.5) else text
            for name, text in files.items()
        }

    def run(self):
        """The words of a run and its files."""
        pick = self.random.choice
        document, request, plan = pick(self.documents), pick(self.requests), pick(self.plans)
        refine = ["--refine", str(pick([1, 2, 10, 1000000]))] if self.random.random() < 0.3 else []
        match pick("check check check resolve bucket price price plan plan plan verify verify verify apply apply drive".split()):
            case "check":
                return ["check", "doc"], self.files(doc=document)
            case "resolve":
                key, kind = pick(["checkout", "theme", "gone", "b.c"]), pick(["bool", "text", "whole", "object", "float"])
                default = pick(["false", "none", '"x"', "1.5", '{"a":', "[[1]]"])
                words = ["resolve", "doc", key, kind, default, "context", pick(["0", "7", "x"])]
                return words, self.files(doc=document, context=read("flags/mallory.json"))
            case "bucket":
                return ["bucket", "rule", pick(["test", "", "é"])], self.files(rule=read("rule.json"))
            case "price":
                return ["price", "old", "new", "request", "keys"], self.files(**self.prices)
            case "plan":
                words = ["plan", *refine, "doc", "request", "book"]
                return words, self.files(doc=document, request=request, book=self.book)
            case "verify":
                words = ["verify", *refine, "doc", "request", "book", "plan"]
                return words, self.files(doc=document, request=request, book=self.book, plan=plan)
            case "apply":
                words = ["apply", "doc", "plan", pick(["checkout", "banner", "gone", "b.c"]), pick(["0", "1", "x"])]
                return words, self.files(doc=document, plan=plan)
            case _:
                words = ["drive", "doc", "asks", pick(["1", "4", "0", "65"]), pick(["out", "none/out"])]
                return words, self.files(doc=document, asks=self.asks)


def keys(holder):
    return [*holder] if isinstance(holder, dict) else [*range(min(len(holder), 30))]


def holders(tree):
    """The lists and objects of a tree."""
    if not isinstance(tree, (dict, list)):
        return []
    return [tree, *(it for key in keys(tree) for it in holders(tree[key]))]


def ended(program, words, files):
    """What a run comes to: status, output, what a person is told, and the book."""
    with tempfile.TemporaryDirectory() as room:
        for name, text in files.items():
            with open(os.path.join(room, name), "wb") as file:
                file.write(text)
        ran = subprocess.run(
            [program, *words], cwd=room, stdin=subprocess.DEVNULL, capture_output=True, timeout=SECONDS, check=False
        )
        book = os.path.join(room, "out")
        if not os.path.exists(book):
            return ran.returncode, ran.stdout, ran.stderr, None
        with open(book, "rb") as file:
            return ran.returncode, ran.stdout, ran.stderr, file.read()


def main(old, new, seed="1", count="1000"):
    old, new = os.path.abspath(old), os.path.abspath(new)
    mutations, told, differ = Mutations(int(seed)), 0, 0
    for _ in range(int(count)):
        words, files = mutations.run()
        before, after = ended(old, words, files), ended(new, words, files)
        told += before[2] != b""
        if before != after:
            differ += 1
            if differ <= SHOWN:
                print(words, files, before, after, sep="\n", end="\n\n")
    print(f"{count} runs, in {told} of them a person was told something, {differ} differ")
    return 1 if differ else 0


if __name__ == "__main__":
    if len(sys.argv) < 3:
        sys.exit(__doc__)
    sys.exit(main(*sys.argv[1:]))
