"""The calls of rollouts from a running service, answered by the commands on the same files: what the service is compared with. It knows
documents of one source, with a targeting that is a `fractional` or holds some."""
import hashlib
import json
import os
import re
import subprocess
import tempfile

from program import PROGRAM


class Spelled(str):
    """A number that is not whole, as it is spelled."""

    MARK = "\ufdd0"

    def __new__(cls, text):
        return super().__new__(cls, cls.MARK + text)


def parsed(text):
    return json.loads(text, parse_float=Spelled)


def compact(value):
    text = json.dumps(value, separators=(",", ":"), sort_keys=True, ensure_ascii=False)
    return re.sub(f'"{Spelled.MARK}([^"]*)"', r"\1", text)


def spelled(value):
    """An expression as `apply` prints it: an operator with its arguments in a list."""
    if isinstance(value, dict) and len(value) == 1:
        (name, given), = value.items()
        return {name: [spelled(it) for it in (given if isinstance(given, list) else [given])]}
    return [spelled(it) for it in value] if isinstance(value, list) else value


def rules_of(value):
    """The arguments of each `fractional` of a targeting, in the order of their sites."""
    if isinstance(value, list):
        return [rule for it in value for rule in rules_of(it)]
    if not isinstance(value, dict) or len(value) != 1:
        return []
    (name, given), = value.items()
    given = given if isinstance(given, list) else [given]
    below = [rule for it in given for rule in rules_of(it)]
    return [given, *below] if name == "fractional" else below


def is_bucket(it):
    return isinstance(it, list) and len(it) in (1, 2) and isinstance(it[0], str) and all(isinstance(weight, int) for weight in it[1:])


def site_of(given):
    """What a site hashes by, and its entries; none where an entry is computed."""
    by = None if isinstance(given[0], list) else given[0]
    entries = given if by is None else given[1:]
    rule = [[it[0], it[1] if len(it) == 2 else 1] for it in entries] if all(map(is_bucket, entries)) else None
    return by if by is None else compact(spelled(by)), rule


def points_of(rule):
    return [name for name, weight in rule for _ in range(weight)]


def obvious(old, new):
    """The rule with the totals of another, each name in one block, in the order of the old one."""
    totals = {}
    for name, weight in new:
        totals[name] = totals.get(name, 0) + weight
    return [[name, totals[name]] for name in dict.fromkeys([name for name, _ in old + new]) if name in totals]


def switches_of(old, new, counts):
    """How many go from each name to each other one."""
    pairs = {}
    for point, (one, other) in enumerate(zip(points_of(old), points_of(new))):
        if one != other and counts.get(point):
            pairs[one, other] = pairs.get((one, other), 0) + counts[point]
    return [{"from": one, "inputs": users, "to": other} for (one, other), users in sorted(pairs.items())]


def kind_of(values):
    """The word for the type of a flag with these values."""
    kinds = {bool: "bool", str: "text", int: "whole", Spelled: "float", dict: "object"}
    return "float" if Spelled in map(type, values) else kinds[type(values[0])]


# What is doubted of a flag ends with its name.
DOUBTS = ["Weight", "Variant", "Never"]
DOUBTED = re.compile(r'^note: .*?: flag ("(?:[^"\\]|\\.)*") .*\((Weight|Variant|Never)\)$')

# Logs with such an end are not read.
COMPRESSED = (".gz", ".xz", ".zst", ".bz2")

# The words for a plan, among others on the request and the tally.
EXPLAINED = re.compile(r'^note: "request": .*\n(?:  .*\n)*', re.MULTILINE)

# What is said of a broken flag begins with its place in the document.
BROKEN = re.compile(r'broken: flags(?:\.([\w-]+)|\[("(?:[^"\\]|\\.)*")\])')


def tag_of(text):
    return hashlib.sha256(text.encode()).hexdigest()


class Refused(Exception):
    """A call that a command refuses."""

    def __init__(self, call, number, name):
        super().__init__(name)
        self.body = {"refused": call, "number": number, "name": name}


class Commands:
    """What is answered of a document at a path and of the logs in a folder, with the number of the first snapshot."""

    def __init__(self, document, logs):
        self.document, self.logs, self.read = document, logs, {}

    def text(self):
        with open(self.document, encoding="utf-8") as file:
            return file.read()

    def run(self, words, given=None):
        """What a command prints; its refusal where it is refused."""
        ended = subprocess.run([PROGRAM, *words], input=given, capture_output=True, check=False)
        out = ended.stdout.decode()
        if ended.returncode not in (0, 3):
            found = re.search(r"^refused (\w+) (\d+) (\w+)", out, re.MULTILINE)
            raise Refused(found[1], int(found[2]), found[3])
        return out, ended.stderr.decode()

    def names(self):
        """The names of all logs, those that were rotated among them."""
        return [name for name in sorted(os.listdir(self.logs)) if re.fullmatch(r"worker-.*\.log.*", name)]

    def lines(self):
        """The lines of all logs, each once, as they are sorted."""
        names = [name for name in self.names() if not name.endswith(COMPRESSED)]
        state = [(name, os.stat(os.path.join(self.logs, name)).st_size) for name in names]
        if self.read.get("state") != state:
            found = set()
            for name in names:
                with open(os.path.join(self.logs, name), "rb") as file:
                    found.update(file.read().split(b"\n")[:-1])
            self.read = {"state": state, "lines": sorted(found - {b""}), "tallies": {}}
        return self.read["lines"]

    def tally(self, key, site):
        lines, asked = self.lines(), (self.text(), key, site)
        if asked not in self.read["tallies"]:
            self.read["tallies"][asked] = self.run(["tally", "--floats", self.document, key, str(site)], b"".join(line + b"\n" for line in lines))[0]
        return self.read["tallies"][asked]

    def evidence(self, request):
        """The tally for a request; a book of nothing where it has none, so that the next command says what is wrong with the request."""
        try:
            return self.tally(request["flag"], request.get("site", 0))
        except Refused as refused:
            if refused.body["refused"] != "plan":
                raise
            return '{"book":1}\n'

    def flags(self):
        """The flags of the document as the service prints them, and what is said of them: a broken one is an empty object."""
        text = self.text()
        remarks = self.run(["check", "--floats", self.document])[1].splitlines()
        broken = {found[1] or json.loads(found[2]) for found in map(BROKEN.match, remarks) if found}
        merged, sites, kinds = {}, [], []
        for key, flag in sorted(parsed(text)["flags"].items(), key=lambda it: it[0].encode()):
            members = {name: spelled(flag[name]) if name == "targeting" else flag[name] for name in ("defaultVariant", "state", "targeting", "variants") if flag.get(name) is not None}
            merged[key] = {} if key in broken else members
            if key not in broken:
                kinds.append([key, kind_of([*flag["variants"].values()])])
            for site, given in enumerate(rules_of(merged[key].get("targeting"))):
                by, rule = site_of(given)
                total = sum(weight for _, weight in rule) if rule else None
                sites.append({"by": by, "flag": key, "site": site, "rule": rule, "total": total, "inputs": self.counted(key, site, by)})
        doubts = sorted(([json.loads(found[1]), found[2]] for found in map(DOUBTED.search, remarks) if found), key=lambda it: (it[0].encode(), DOUBTS.index(it[1])))
        head = {"snapshot": 1, "may_apply": False, "remarks": "".join(line + "\n" for line in remarks if BROKEN.match(line))}
        return {**head, "sources": [self.document], "sites": sites, "doubts": doubts, "kinds": kinds, "merged": {"flags": merged}}

    def counted(self, key, site, by):
        """How many inputs are noted of a page."""
        page = compact([key, site, by])[:-1].encode() + b","
        return sum(line.startswith(page) for line in self.lines())

    def plan(self, body):
        text = self.text()
        request = json.loads(body)
        with tempfile.TemporaryDirectory() as folder:
            path = lambda name: os.path.join(folder, name)
            with open(path("request"), "wb") as file:
                file.write(body)
            with open(path("tally"), "w", encoding="utf-8") as file:
                file.write(self.evidence(request))
            printed, words = self.run(["plan", "--floats", "--explain", "--picture", path("picture"), self.document, path("request"), path("tally")])
            with open(path("plan"), "w", encoding="utf-8") as file:
                file.write(printed)
            plan = json.loads(printed)
            with open(path("picture"), encoding="utf-8") as file:
                picture = file.read()
            with open(path("tally"), encoding="utf-8") as file:
                head, *points = [json.loads(line) for line in file.read().splitlines()[1:]]
            new = plan.get("rule")
            document = self.run(["apply", "--keep", "--floats", self.document, path("plan"), path("request"), path("tally")])[0] if new else None
        _, old = site_of(rules_of(parsed(text)["flags"][request["flag"]]["targeting"])[request.get("site", 0)])
        counts = dict(points)
        switches = switches_of(old, new, counts) if new else []
        by_hand = sum(row["inputs"] for row in switches_of(old, obvious(old, new), counts)) if new else None
        answer = {
            "by_hand": by_hand, "inputs": head["inputs"], "snapshot": 1, "switch": sum(row["inputs"] for row in switches), "switches": switches,
            "document": document, "explained": EXPLAINED.search(words.replace(path("request"), "request"))[0], "picture": picture, "plan": plan, "token": {"document": tag_of(text), "plan": plan, "request": request},
        }
        passed_over = [name for name in self.names() if name.endswith(COMPRESSED)]
        return {**answer, "passed_over": passed_over} if passed_over else answer

    def check(self, body):
        """That a plan is right on what is recorded, with its cost; or why it is not."""
        asked = json.loads(body)
        request, plan = asked["request"], asked["plan"]
        with tempfile.TemporaryDirectory() as folder:
            path = lambda name: os.path.join(folder, name)
            for name, text in [("request", compact(request)), ("plan", compact(plan)), ("tally", self.evidence(request))]:
                with open(path(name), "w", encoding="utf-8") as file:
                    file.write(text)
            return json.loads(self.run(["verify", "--json", "--floats", self.document, path("request"), path("tally"), path("plan")])[0])
