"""Records: note lines of contexts, tallies of sorted lines, and joins, against a model of the test's own.

They run the filters of the program, and wait for a release that has them: one that takes their words for a mistake has none.
"""
import json
import random
import unittest

from program import ProgramTest, run
from test_planner import murmur3

# What the words of a command that the program does not have end with.
MISTAKE = 2

CASES = 2_000
SEED = 20_241_125

BY = '{"var":["key"]}'
WEIGHTS = [["red", 3], ["blue", 5]]
TOTAL = 8
PAGE = {"flag": "color", "site": 0, "by": BY}


COMPACT = json.JSONEncoder(separators=(",", ":"), ensure_ascii=False)


def compact(value):
    """A value as the program prints it: no blanks, and no escape that a text can do without."""
    return COMPACT.encode(value)


DOCUMENT = compact(
    {
        "flags": {
            "color": {
                "state": "ENABLED",
                "variants": {"red": 1, "blue": 2},
                "defaultVariant": "red",
                "targeting": {"fractional": [{"var": ["key"]}, *WEIGHTS]},
            }
        }
    }
)


def note(text, page=None):
    """The line of an input on a page."""
    page = page or PAGE
    return compact([page["flag"], page["site"], page["by"], text]) + "\n"


def hashed(text, page=None):
    """The line of the hash of an input on a page."""
    page = page or PAGE
    return compact([page["flag"], page["site"], page["by"], murmur3(text.encode())]) + "\n"


def hash_in(line):
    """The hash of what a line has."""
    last = json.loads(line)[3]
    return last if isinstance(last, int) else murmur3(last.encode())


def tally(lines, factor=1):
    """The tally of the page's lines among these, sorted and each once."""
    own = sorted({line for line in lines if json.loads(line)[:3] == list(PAGE.values())}, key=str.encode)
    return printed(own, TOTAL * factor)


def printed(own, total):
    """The file of the tally of these lines of the page."""
    counts = {}
    for line in own:
        point = hash_in(line) * total >> 32
        counts[point] = counts.get(point, 0) + 1
    head = {
        "by": PAGE["by"],
        "first": own[0][:-1] if own else None,
        "flag": PAGE["flag"],
        "inputs": len(own),
        "last": own[-1][:-1] if own else None,
        "site": PAGE["site"],
        "total": total,
    }
    points = "".join(f"[{point},{counts[point]}]\n" for point in sorted(counts))
    return '{"tally":1}\n' + compact(head) + "\n" + points


def sorted_once(lines):
    """What `LC_ALL=C sort -u` makes of lines."""
    return sorted(set(lines), key=str.encode)


def some_lines(draw, line=note):
    """Note lines of some pages, in any order, some of them several times."""
    pages = [PAGE, {**PAGE, "site": 1}, {**PAGE, "by": None}, {**PAGE, "flag": "colour"}]
    inputs = ["", "a", "b", "ab", 'quo"te', "\\", "\n", "\u00e9", "\U0001f3a8", "k" * 1024]
    inputs += [f"user{draw.randrange(50)}" for _ in range(draw.randrange(8))]
    return [line(draw.choice(inputs), draw.choice(pages)) for _ in range(draw.randrange(12))]


class RecordsTest(ProgramTest):
    """The three filters."""

    def setUp(self):
        if run(["tally", "d", "color", "0"], {"d": DOCUMENT}, input="").status == MISTAKE:
            self.skipTest("waits for a release with the filters")

    def tallied(self, lines, factor=1):
        """What `tally` prints of these lines."""
        words = ["tally", "d", "color", "0"] + (["--refine", str(factor)] if factor > 1 else [])
        return run(words, {"d": DOCUMENT}, input="".join(lines))

    def test_record_and_tally(self):
        """Contexts, in any order and again, give the tally of their keys."""
        draw = random.Random(SEED)
        for case in range(CASES // 20):
            keys = [f"user{draw.randrange(40)}" for _ in range(draw.randrange(30))]
            contexts = "".join(compact({"key": key}) + "\n" for key in keys)
            with self.subTest(case=case):
                ran = [
                    run(["record", "d", "color", "--workers", str(n)], {"d": DOCUMENT}, input=contexts) for n in (1, 2, 4, 7)
                ]
                self.assertEqual([(each.out, each.status) for each in ran], [("".join(map(note, keys)), 0)] * len(ran))
                lines = sorted_once(ran[0].out.splitlines(keepends=True))
                self.assertEqual(self.tallied(lines).out, tally(lines))

    def test_tallies(self):
        """Sorted lines of any pages, at the rule's total and at more."""
        draw = random.Random(SEED + 1)
        for case in range(CASES):
            lines, factor = sorted_once(some_lines(draw)), draw.choice([1, 1, 5])
            with self.subTest(case=case):
                ran = self.tallied(lines, factor)
                self.assertEqual((ran.out, ran.status), (tally(lines, factor), 0))

    def test_sort_left_out(self):
        """A line that is not above the one before it is refused with its number, blank lines counted."""
        for lines, refused in [
            ([note("b"), note("a")], "2 Order 2"),
            ([note("a"), note("a")], "2 Order 2"),
            ([note("a"), "\n", note("a")], "2 Order 3"),
            ([note("a"), "[]\n"], "1 Line 2"),
            ([note("a" * 1025)], "1 Line 1"),
            ([note("a").replace(",", ", ")], "1 Line 1"),
        ]:
            with self.subTest(lines=lines):
                ran = self.tallied(lines)
                self.assertEqual((ran.out, ran.status), (f"refused tally {refused}\n", 1))

    def test_joins(self):
        """Parts whose ranges follow one another join as the whole, empty ones anywhere; parts run twice and ranges that
        overlap are refused."""
        draw = random.Random(SEED + 2)
        for case in range(CASES // 20):
            lines = [note(f"user{n}") for n in range(draw.randrange(2, 30))]
            lines = sorted_once(lines)
            cuts = sorted(draw.randrange(len(lines) + 1) for _ in range(3))
            parts = [lines[a:b] for a, b in zip([0, *cuts], [*cuts, len(lines)])]
            files = {f"t{n}": tally(part) for n, part in enumerate(parts)}
            names = sorted(files)
            with self.subTest(case=case):
                self.assertEqual(run(["join", *names], files).out, tally(lines))
                full = [name for name, part in zip(names, parts) if part]
                twice = run(["join", *names, full[-1]], files)
                self.assertEqual((twice.out, twice.status), ("refused join 2 Order\n", 1))
                overlap = {"a": tally(lines[:2]), "b": tally(lines[1:])}
                self.assertEqual(run(["join", "a", "b"], overlap).out, "refused join 2 Order\n")

    def test_other_page(self):
        """Tallies of another total don't join, and what is no tally is refused."""
        files = {"a": tally([note("a")]), "b": tally([note("b")], 5), "c": "{}\n"}
        self.assertEqual(run(["join", "a", "b"], files).out, "refused join 1 Page\n")
        self.assertEqual(run(["join", "a", "c"], files).out, "refused read_tally 1 Header\n")


class HashesTest(RecordsTest):
    """Lines with the hashes of inputs in the place of these."""

    def setUp(self):
        super().setUp()
        if self.tallied([hashed("a")]).status != 0:
            self.skipTest("waits for a release that tallies hashes")

    def test_tallies(self):
        """Sorted lines of any pages, at the rule's total and at more."""
        draw = random.Random(SEED + 3)
        for case in range(CASES // 4):
            lines, factor = sorted_once(some_lines(draw, hashed)), draw.choice([1, 1, 5])
            with self.subTest(case=case):
                ran = self.tallied(lines, factor)
                self.assertEqual((ran.out, ran.status), (tally(lines, factor), 0))

    def test_as_inputs(self):
        """Inputs of different hashes are counted as their hashes are."""
        keys = [f"user{n}" for n in range(2_000)]
        self.assertEqual(len({murmur3(key.encode()) for key in keys}), len(keys))
        inputs, hashes = (self.tallied(sorted_once(map(line, keys)), 5).out.splitlines() for line in (note, hashed))
        self.assertEqual(inputs[2:], hashes[2:])
        self.assertEqual(json.loads(hashes[1])["inputs"], len(keys))

    def test_inputs_of_one_hash(self):
        """Two inputs of one hash count once."""
        lines = sorted_once(map(hashed, ["29517", "87960", "more"]))
        self.assertEqual(len(lines), 2)
        self.assertEqual(json.loads(self.tallied(lines).out.splitlines()[1])["inputs"], 2)

    def test_sort_left_out(self):
        """What is refused, and what is the line of no hash."""
        line = hashed("a")
        number = str(json.loads(line)[3])
        for lines, refused in [
            ([line, line], "2 Order 2"),
            ([line, "\n", line], "2 Order 3"),
            ([line.replace(number, "0" + number)], "1 Line 1"),
            ([line.replace(number, "-0")], "1 Line 1"),
            ([line.replace(number, "1.0")], "1 Line 1"),
            ([line.replace(number, "4294967296")], "1 Line 1"),
            ([line.replace(number, " " + number)], "1 Line 1"),
        ]:
            with self.subTest(lines=lines):
                ran = self.tallied(lines)
                self.assertEqual((ran.out, ran.status), (f"refused tally {refused}\n", 1))
        for number in ("0", "4294967295"):
            self.assertEqual(self.tallied([compact([*PAGE.values(), int(number)]) + "\n"]).status, 0)

    def test_both_kinds(self):
        """Lines of both kinds, of whatever pages, are refused together, and so are their tallies."""
        other = {**PAGE, "flag": "colour"}
        for lines in ([note("a"), hashed("a")], [hashed("a"), note("a", other)], [note("a"), "\n", hashed("a", other)]):
            with self.subTest(lines=lines):
                ran = self.tallied(lines)
                self.assertEqual((ran.out, ran.status), (f"refused tally 6 Mixed {len(lines)}\n", 1))
                self.assertIn(f"line {len(lines)} ", ran.err)
        files = {"a": tally([note("a")]), "b": tally([hashed("b")]), "c": tally([])}
        self.assertEqual(run(["join", "a", "b"], files).out, "refused join 1 Page\n")
        self.assertEqual(run(["join", "c", "b"], files).out, tally([hashed("b")]))

    def test_joins(self):
        """Parts whose ranges follow one another join as the whole."""
        lines = sorted_once(hashed(f"user{n}") for n in range(20))
        files = {"a": tally(lines[:7]), "b": tally(lines[7:7]), "c": tally(lines[7:])}
        self.assertEqual(run(["join", "a", "b", "c"], files).out, tally(lines))
        self.assertEqual(run(["join", "c", "a"], files).out, "refused join 2 Order\n")

    def test_no_book(self):
        """No book takes such a line."""
        files = {"n": note("a") + hashed("b")}
        self.assertEqual(run(["book", "b", "n"], files).out, 'refused book 1 Line "n" 2\n')
        ran = run(["book", "b", "n", "--torn"], files)
        self.assertEqual((ran.out, ran.status), ("inputs 1\nfiles 1\n", 0))

    def test_record_and_tally(self):
        """`record` prints inputs, as before."""
        self.assertEqual(run(["record", "d", "color"], {"d": DOCUMENT}, input=compact({"key": "a"}) + "\n").out, note("a"))

    def test_other_page(self):
        """A tally of hashes of another total doesn't join."""
        files = {"a": tally([hashed("a")]), "b": tally([hashed("b")], 5)}
        self.assertEqual(run(["join", "a", "b"], files).out, "refused join 1 Page\n")


if __name__ == "__main__":
    unittest.main()
