"""What `plan` emits, beside each rule of the same total weight: whether one fits, and the least that one costs."""
import functools
import itertools
import json
import random
import unittest

from program import ProgramTest, run

MASK = 0xFFFFFFFF


def rotated(word, bits):
    """A word of 32 bits, turned to the left."""
    return (word << bits | word >> 32 - bits) & MASK


def scrambled(block):
    """A block, as MurmurHash3 x86 32-bit mixes it before it joins the hash."""
    return rotated(block * 0xCC9E2D51 & MASK, 15) * 0x1B873593 & MASK


@functools.lru_cache(maxsize=1024)
def mixed(key):
    """The state of MurmurHash3 x86 32-bit behind whole blocks, with the seed 0. Those of long keys that begin alike are found once."""
    front = max(len(key) - 4, 0) // 64 * 64
    code = mixed(key[:front]) if front else 0
    for start in range(front, len(key), 4):
        code ^= scrambled(int.from_bytes(key[start : start + 4], "little"))
        code = (rotated(code, 13) * 5 + 0xE6546B64) & MASK
    return code


def murmur3(key):
    """MurmurHash3 x86 32-bit of bytes, with the seed 0."""
    whole = len(key) // 4 * 4
    code = mixed(key[:whole])
    code ^= scrambled(int.from_bytes(key[whole:], "little")) ^ len(key)
    code = (code ^ code >> 16) * 0x85EBCA6B & MASK
    code = (code ^ code >> 13) * 0xC2B2AE35 & MASK
    return code ^ code >> 16


class Problem:
    """A flag with a rule, inputs, and what a request asks of the rule refined by a factor."""

    def __init__(self, draw):
        self.names = "abcd"[: draw.randint(2, 4)]
        self.factor = 2 if len(self.names) == 2 and draw.random() < 0.2 else 1
        self.rule = [("a", 1)] + [(draw.choice(self.names), draw.choice(weights)) for weights in [(0, 1, 2), (0, 1, 2), (0, 1)]]
        self.points = [name for name, weight in self.rule for _ in range(weight * self.factor)]
        self.inputs = sorted({f"user-{draw.randrange(1000)}" for _ in range(draw.randrange(12))})
        self.limits = {}
        self.prices = {}
        self.forbidden = set()
        for name in self.names:
            low = draw.randrange(3) * self.factor
            self.limits[name] = (low, low + draw.randrange(4) * self.factor)
            for other in self.names.replace(name, ""):
                self.prices[name, other] = draw.randrange(5)
                if draw.random() < 0.25:
                    self.forbidden.add((name, other))

    def files(self):
        """Its document, its request and its book."""
        buckets = [{"var": "key"}, *map(list, self.rule)]
        variants = {name: name for name in self.names}
        flag = {"state": "ENABLED", "variants": variants, "defaultVariant": "a", "targeting": {"fractional": buckets}}
        request = {
            "plan": 2,
            "flag": "f",
            "totals": {name: list(limits) for name, limits in self.limits.items()},
            "prices": [[*change, price] for change, price in self.prices.items()],
            "forbid": [list(change) for change in sorted(self.forbidden)],
        }
        page = {"by": '{"var":["key"]}', "flag": "f", "site": 0}
        lines = [{"book": 1}, *([page] if self.inputs else []), *self.inputs]
        book = "".join(json.dumps(line, separators=(",", ":")) + "\n" for line in lines)
        return {"d": json.dumps({"flags": {"f": flag}}), "r": json.dumps(request), "b": book}

    def users(self):
        """How many inputs lie on each point."""
        counts = [0] * len(self.points)
        for text in self.inputs:
            counts[murmur3(text.encode()) * len(counts) >> 32] += 1
        return counts

    def cost(self, points, users):
        """What new names of the points cost the inputs; none where they do not fit."""
        changes = list(zip(self.points, points))
        is_met = all(low <= points.count(name) <= high for name, (low, high) in self.limits.items())
        if not is_met or self.forbidden.intersection(changes):
            return None
        return sum(count * self.prices.get(change, 0) for change, count in zip(changes, users))

    def least(self, users):
        """The least cost of all rules that fit; none where none does."""
        costs = (self.cost(points, users) for points in itertools.product(self.names, repeat=len(self.points)))
        return min((cost for cost in costs if cost is not None), default=None)


class Planner(ProgramTest):
    def test_against_all_rules(self):
        draw = random.Random(12345)
        seen = {"rule": 0, "none": 0, "refused": 0}
        for number in range(250):
            problem = Problem(draw)
            with self.subTest(number=number, files=problem.files()):
                seen[self.answer(problem)] += 1
        self.assertGreater(min(seen.values()), 20, seen)

    def answer(self, problem):
        """The kind of the answer, which is told to be valid, fits and costs the least, where one does."""
        users = problem.users()
        least = problem.least(users)
        by = ["--refine", str(problem.factor)]
        files = problem.files()
        ran = run(["plan", "d", "r", "b", *by], files)
        if ran.status == 1:
            self.assertEqual((ran.out, least), ("refused plan 6 TotalsSum\n", None))
            return "refused"
        planned = json.loads(ran.out)
        verdict = run(["verify", "d", "r", "b", "p", *by], {**files, "p": ran.out})
        if "none" in planned:
            self.assertEqual((ran.status, least, verdict.out), (3, None, "valid none\n"))
            return "none"
        points = [name for name, weight in planned["rule"] for _ in range(weight)]
        self.assertEqual((ran.status, len(points), planned["cost"]), (0, len(problem.points), least))
        self.assertEqual((problem.cost(points, users), verdict.out), (least, f"valid cost {least}\n"))
        return "rule"


if __name__ == "__main__":
    unittest.main()
