#!/usr/bin/env python3
"""Searches for documents and bodies that are dear: small, and yet costly to answer, by time or by peak memory.

    bench/hostile/search.py SECONDS [FOLDER [SEED]]

It draws a flag's targeting, shared evaluators and a context, starts `ofrep` over the document, asks it for the flag, and goes on
from those that cost most: it grows and shrinks their lists, texts and objects, wraps and replaces parts, and joins parts of two.
Two measures lead it, each beside what an answer may take: the seconds of a processor beside 0.1 (100,000 units of a microsecond)
and 0.2 for each megabyte of the body, and the memory that the service took at most while it answered beside 64 MB and 40 bytes for
each byte of the body. Document and body have at most 1,048,576 bytes each. Prints each find that is dearer than all before, and
last those that cost most, each of other operators, with their measures; writes these into FOLDER (`N.doc`, `N.body`), where it is
given. The last line is 'N cases, M bad', of which bad are those above a measure, and those that got no answer; ends with 1 where M
is not 0."""
import http.client
import json
import os
import random
import select
import socket
import subprocess
import sys
import tempfile
import time
from typing import NamedTuple

from forks import PROGRAM

sys.path.append(os.path.join(os.path.dirname(os.path.dirname(os.path.abspath(__file__))), "service"))
from measured import Measured

MOST_BYTES = 1_048_576
SECONDS, SECONDS_A_MEGABYTE = 0.1, 0.2
MEGABYTES, BYTES_A_BYTE = 64, 40
KEPT, SHOWN = 40, 12

# (a walk over the buckets of a split, and long keys that many splits reach, are known to be dear: `costly.py` has both, and this seeks
# what is not known)
MOST_BUCKETS, MOST_KEY = 200, 1_000

PATHS = ["", "", "xs", "xs", "xs.0", "o", "o.m7", "t", "u", "names", "deep", "deep.a.a.a", "targetingKey", "accumulator", "current", "m1", "nothing", "$flagd.timestamp"]
UNARY = ["!", "!!", "missing", "cat", "max", "min", "+", "merge"]
BINARY = ["==", "===", "!=", "<", ">=", "%", "-", "in", "in", "starts_with", "ends_with", "missing_some", "substr", "merge", "cat", "and", "or", "*"]
OVER_LISTS = ["map", "map", "filter", "all", "some", "none", "reduce"]


class Case(NamedTuple):
    """What is run: a targeting, two evaluators and a context, in which lists, texts and objects stand by their sizes."""

    targeting: object
    evaluators: dict
    context: dict


class Find(NamedTuple):
    """A case, what it cost, and both measures of that."""

    case: Case
    read: int
    seconds: float
    megabytes: float
    by_time: float
    by_memory: float
    status: int


class Service(Measured):
    """A service over a document, with one worker that remembers nothing, and what it has taken."""

    def __init__(self, document, folder):
        with socket.socket() as probe:
            probe.bind(("127.0.0.1", 0))
            self.port = probe.getsockname()[1]
        words = ["ofrep", "--listen", f"127.0.0.1:{self.port}", "--workers", "1", "--poll", "0", "--log", os.path.join(folder, "log"), "--remember", "0", "--max-body", "4194304", document]
        self.child = subprocess.Popen([PROGRAM, *words], stdout=subprocess.PIPE, stderr=subprocess.DEVNULL, text=True)
        assert select.select([self.child.stdout], [], [], 60)[0] and self.child.stdout.readline() == "serving 1\n"

    def ask(self, body, path="/ofrep/v1/evaluate/flags/a", seconds=60):
        """The status of the answer, for one flag or by another path for every flag, and its bytes; 0 where there is none within so long."""
        client = http.client.HTTPConnection("127.0.0.1", self.port, timeout=seconds)
        try:
            client.request("POST", path, body, {"Content-Type": "application/json"})
            answer = client.getresponse()
            return answer.status, len(answer.read())
        except OSError:
            return 0, 0
        finally:
            client.close()

    def forget_most(self):
        """What it held at most begins anew with what it holds now."""
        with open(f"/proc/{self.child.pid}/clear_refs", "w", encoding="utf-8") as file:
            file.write("5")


# Where it begins: what was found dear before.
ENDED = {"e": {"var": "t"}, "f": {"var": "o"}}
KNOWN = [
    Case({"map": [{"var": "xs"}, {"fractional": [["on", 1], ["off", 1]]}]}, ENDED, {"xs": {"#list": [6_000, 0]}, "targetingKey": {"#text": [MOST_KEY, "k"]}}),
    Case({"missing": {"var": "names"}}, ENDED, {"names": {"#names": [40_000, "o.m"]}, "o": {"#members": [40_000, 1]}}),
    Case({"map": [{"var": "xs"}, {"fractional": [{"#spread": [200, ["on", 1]]}]}]}, ENDED, {"xs": {"#list": [24_000, 0]}, "targetingKey": "k"}),
    Case({"map": [{"var": "xs"}, {"cat": [{"var": "t"}, "x"]}]}, ENDED, {"xs": {"#list": [20_000, 0]}, "t": {"#text": [60_000, "x"]}}),
    Case({"reduce": [{"var": "xs"}, {"merge": [{"var": "accumulator"}, {"var": "current"}]}, []]}, ENDED, {"xs": {"#list": [20_000, 0]}}),
    Case({"map": [{"var": "xs"}, {"in": [{"var": "u"}, {"var": "t"}]}]}, ENDED, {"xs": {"#list": [20_000, 0]}, "t": {"#text": [200_000, "x"]}, "u": {"#text": [1_000, "x"]}}),
]


def size(draw):
    """A size: as often in the ones as in the tens of thousands."""
    return int(10 ** draw.uniform(0, 4.8))


def literal(draw):
    """A value that stands in an expression."""
    kind = draw.randrange(8)
    if kind == 0:
        return {"#list": [size(draw), draw.choice([0, "n", ["on", 1], {"var": ""}, {"var": "o"}, {}, []])]}
    if kind == 1:
        return {"#text": [size(draw), draw.choice(["x", "a.", "1.", "\u00fc"])]}
    if kind == 2:
        return {"#members": [size(draw), draw.choice([1, 8, 200])]}
    return draw.choice([0, 1, -1, "", "on", "xs", "o", True, None, 9007199254740991, [], "1.2.3"])


def fractional(draw, levels):
    """A split, with or without an expression to bucket by."""
    kind = draw.randrange(4)
    by = [expression(draw, levels - 1)] if kind % 2 else []
    if kind < 2:
        return {"fractional": [*by, {"#spread": [draw.randrange(1, MOST_BUCKETS), ["on", 1]]}]}
    return {"fractional": [*by, [expression(draw, 0), draw.choice([1, 50])], ["off", 1]]}


def expression(draw, levels=3):
    """An expression of so many levels at most."""
    kind = draw.randrange(12) if levels > 0 else draw.randrange(3)
    below = lambda: expression(draw, levels - 1)
    if kind == 0:
        return literal(draw)
    if kind < 3:
        return {"var": draw.choice(PATHS)}
    if kind < 5:
        return {draw.choice(UNARY): [below()]}
    if kind < 7:
        return {draw.choice(BINARY): [below(), below(), *([below()] if draw.randrange(4) == 0 else [])]}
    if kind < 9:
        name = draw.choice(OVER_LISTS)
        return {name: [draw.choice([{"var": "xs"}, below()]), below(), *([below()] if name == "reduce" else [])]}
    if kind == 9:
        return fractional(draw, levels)
    if kind == 10:
        return draw.choice([{"$ref": "e"}, {"$ref": "f"}, {"if": [below(), below(), below()]}, {"sem_ver": [below(), ">", below()]}])
    return {draw.choice(["in", "or", "and", "merge", "cat", "max", "missing"]): [below(), {"#list": [size(draw), below()]}]}


def value(draw):
    """A value of a context."""
    item = draw.choice([0, "", "k", "m1", "a.b", [], {}, {"m1": 1}, [0], {"#members": [size(draw) // 100 + 1, 6]}, {"#text": [size(draw) // 100 + 1, "y"]}])
    return draw.choice(
        [
            {"#list": [size(draw), item]},
            {"#list": [size(draw), item]},
            {"#names": [size(draw), draw.choice(["m", "o.m", "q"])]},
            {"#members": [size(draw), draw.choice([1, 6, 40])]},
            {"#text": [size(draw), draw.choice(["x", "a.", "1.", "\u00fc", "m1"])]},
            {"#nest": [draw.randrange(1, 110), 0]},
            0,
        ]
    )


def drawn(draw):
    """A case from nothing."""
    context = {name: value(draw) for name in ("xs", "o", "t", "u", "names", "deep") if draw.randrange(3)}
    context["targetingKey"] = draw.choice(["k", {"#text": [draw.randrange(MOST_KEY), "k"]}])
    evaluators = {"e": expression(draw, 2), "f": expression(draw, 1)}
    return Case(expression(draw), evaluators, context)


def whole(tree):
    """A tree with its lists, texts and objects in full."""
    if isinstance(tree, list):
        made = []
        for item in tree:
            made += whole(item) if isinstance(item, dict) and "#spread" in item else [whole(item)]
        return made
    if not isinstance(tree, dict):
        return tree
    name, given = next(iter(tree.items()), ("", None))
    if name in ("#list", "#spread"):
        return [whole(given[1])] * given[0]
    if name == "#text":
        return given[1] * given[0]
    if name == "#names":
        return [f"{given[1]}{number}" for number in range(given[0])]
    if name == "#members":
        return {f"m{number}".ljust(given[1], "z"): number for number in range(given[0])}
    if name == "#nest":
        made = given[1]
        for _ in range(given[0]):
            made = {"a": made}
        return made
    return {key: whole(part) for key, part in tree.items()}


def weight(tree):
    """About how many bytes a tree has in full, counted without making it."""
    if isinstance(tree, list):
        return 2 + sum(weight(item) + 1 for item in tree)
    if not isinstance(tree, dict):
        return len(str(tree)) + 2
    name, given = next(iter(tree.items()), ("", None))
    if name in ("#list", "#spread", "#text"):
        return 2 + given[0] * (weight(given[1]) + (-2 if name == "#text" else 1))
    if name in ("#names", "#members", "#nest"):
        return 2 + given[0] * (12 if name == "#names" else given[1] + 12 if name == "#members" else 6)
    return 2 + sum(len(key) + 4 + weight(part) for key, part in tree.items())


def places(tree, path=()):
    """Each place of a tree, as the keys that lead to it."""
    yield path
    if isinstance(tree, (dict, list)):
        for key in range(len(tree)) if isinstance(tree, list) else list(tree):
            yield from places(tree[key], (*path, key))


def at(tree, path):
    for key in path:
        tree = tree[key]
    return tree


def put(tree, path, part):
    """The tree with another part at a place."""
    if not path:
        return part
    made = list(tree) if isinstance(tree, list) else dict(tree)
    made[path[0]] = put(tree[path[0]], path[1:], part)
    return made


def is_size(tree, path):
    """Whether a place holds a size."""
    return len(path) > 1 and path[-1] == 0 and isinstance(path[-2], str) and path[-2][:1] == "#" and isinstance(at(tree, path), int)


def resized(draw, tree):
    """A tree in which one size is another."""
    found = [path for path in places(tree) if is_size(tree, path)]
    if not found:
        return tree
    path = draw.choice(found)
    most = MOST_KEY if path[0] == "targetingKey" else {"#nest": 110, "#spread": MOST_BUCKETS}.get(path[-2], 200_000)
    return put(tree, path, max(1, min(most, int(at(tree, path) * draw.choice([0.5, 0.8, 1.2, 2, 4, 10])))))


def is_part(path):
    """Whether an expression or a value stands at a place: no size, and nothing of how a list or a text is spelled."""
    marks = [(number, key) for number, key in enumerate(path) if isinstance(key, str) and key[:1] == "#"]
    return all(key in ("#list", "#spread") and path[number + 1 : number + 2] == (1,) for number, key in marks)


def parts(tree):
    """The places of the expressions and values of a tree."""
    return [path for path in places(tree) if is_part(path)]


def changed(draw, tree, other, make):
    """A tree with one part replaced, wrapped, or taken from another tree."""
    path = draw.choice(parts(tree))
    part, kind = at(tree, path), draw.randrange(5)
    if kind == 0:
        return put(tree, path, make(draw))
    if kind == 1:
        return put(tree, path, at(other, draw.choice(parts(other))))
    if kind == 2:
        return put(tree, path, {"#list": [size(draw), part]})
    if kind == 3:
        return put(tree, path, {draw.choice(OVER_LISTS[:6]): [{"var": "xs"}, part]})
    return put(tree, path, {draw.choice(["cat", "merge", "!", "missing", "in", "or", "fractional", "substr"]): [part, make(draw)]})


def varied(draw, case, other):
    """A case near another."""
    for _ in range(draw.randrange(1, 4)):
        kind = draw.randrange(8)
        if kind < 2:
            case = case._replace(targeting=resized(draw, case.targeting))
        elif kind < 4:
            case = case._replace(context=resized(draw, case.context))
        elif kind < 6:
            case = case._replace(targeting=changed(draw, case.targeting, other.targeting, lambda by: expression(by, 2)))
        elif kind == 6:
            name = draw.choice(["xs", "o", "t", "u", "names", "deep"])
            case = case._replace(context={**case.context, name: draw.choice([value(draw), other.context.get(name, 0)])})
        else:
            name = draw.choice("ef")
            case = case._replace(evaluators={**case.evaluators, name: draw.choice([expression(draw, 2), case.targeting, other.evaluators[name]])})
    return case


def texts_of(case):
    """The document and the body of a case; nothing where one is too long. The targeting comes to a variant whatever its value is, since
    an answer costs more than an error."""
    if max(weight(case.targeting), weight(case.evaluators), weight(case.context)) > 2 * MOST_BYTES:
        return None
    flag = {"state": "ENABLED", "variants": {"on": True, "off": False}, "defaultVariant": "off", "targeting": {"if": [{"!": [whole(case.targeting)]}, "on", "off"]}}
    trees = {"flags": {"a": flag}, "$evaluators": whole(case.evaluators)}, {"context": whole(case.context)}
    texts = [json.dumps(tree, separators=(",", ":"), ensure_ascii=False).encode() for tree in trees]
    return texts if max(map(len, texts)) <= MOST_BYTES else None


def operators(tree):
    """The names of the objects of a tree: the operators, and how lists and texts are made."""
    if isinstance(tree, list):
        return frozenset().union(*map(operators, tree))
    if isinstance(tree, dict):
        return frozenset(tree).union(*map(operators, tree.values()))
    return frozenset()


def measured(case, folder):
    """What a case costs; nothing where it is too long."""
    texts = texts_of(case)
    if texts is None:
        return None
    with open(os.path.join(folder, "doc"), "wb") as file:
        file.write(texts[0])
    with Service(os.path.join(folder, "doc"), folder) as service:
        seconds, held = service.seconds(), service.megabytes()
        status, _ = service.ask(texts[1])
        if status:
            seconds, held = service.seconds() - seconds, service.megabytes("VmHWM") - held
    os.remove(os.path.join(folder, "log", "worker-1.log"))
    size = len(texts[1]) / 1e6
    return Find(case, len(texts[1]), seconds, held, seconds / (SECONDS + SECONDS_A_MEGABYTE * size), held / (MEGABYTES + BYTES_A_BYTE * size), status)


class Dearest:
    """Those that cost most by one measure, each of other operators."""

    def __init__(self, name):
        self.name, self.finds = name, {}

    def worth(self, find):
        return getattr(find, self.name)

    def sorted(self):
        return sorted(self.finds.values(), key=self.worth, reverse=True)

    def add(self, find):
        """Takes a find; says whether it costs more than all before."""
        most = max(map(self.worth, self.finds.values()), default=0)
        form = operators(find.case.targeting)
        if form not in self.finds or self.worth(self.finds[form]) < self.worth(find):
            self.finds[form] = find
        if len(self.finds) > KEPT:
            self.finds = {operators(it.case.targeting): it for it in self.sorted()[:KEPT]}
        return self.worth(find) > most


def row(find):
    return f"| {find.by_time:.2f} | {find.by_memory:.2f} | {find.seconds:.2f} s | {find.megabytes:.0f} MB | {find.read:,} | {find.status} | {json.dumps(find.case)[:600]} |"


def search(draw, end, folder):
    """Goes on until the end: those that cost most by each measure, how many cases there were, and how many of them are bad."""
    ranks, cases, bad = [Dearest("by_time"), Dearest("by_memory")], 0, 0
    while time.monotonic() < end:
        known = [find.case for rank in ranks for find in rank.sorted()]
        if cases < len(KNOWN):
            case = KNOWN[cases]
        else:
            case = varied(draw, draw.choice(known), draw.choice(known)) if draw.randrange(6) else drawn(draw)
        find = measured(case, folder)
        if find:
            cases, bad = cases + 1, bad + (find.status == 0 or find.by_time > 1 or find.by_memory > 1)
            if [rank for rank in ranks if rank.add(find)]:
                print(f"{cases}: {row(find)}", flush=True)
    return ranks, cases, bad


def main(seconds, out=None, seed="1"):
    with tempfile.TemporaryDirectory(dir="/dev/shm" if os.path.isdir("/dev/shm") else None) as folder:
        ranks, cases, bad = search(random.Random(int(seed)), time.monotonic() + float(seconds), folder)
    print("| by time | by memory | CPU | memory | body | status | what |\n|---|---|---|---|---|---|---|")
    for number, find in enumerate(find for rank in ranks for find in rank.sorted()[:SHOWN]):
        print(row(find))
        for name, text in zip(("doc", "body"), texts_of(find.case)) if out else ():
            with open(os.path.join(out, f"{number}.{name}"), "wb") as file:
                file.write(text)
    print(f"{cases} cases, {bad} bad")
    return 1 if bad else 0


if __name__ == "__main__":
    sys.exit(main(*sys.argv[1:]))
