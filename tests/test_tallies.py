"""`plan`, `verify`, `apply --keep`, the commands on steps and those that draw on the file of a tally, beside the book whose inputs it counts.

The tally is made by the tests' own program, from the inputs of the book.
"""
import json
import os
import random
import unittest
import xml.etree.ElementTree as tree

from given import BOOK, FREE, RED_3, document, request
from program import ProgramTest, run
from test_picture import points_of, texts_of
from test_planner import Problem
from test_records import compact, hashed, note, printed

CASES = int(os.environ.get("TALLY_CASES", "100"))
SEED = 20_261_126

PAGE = {"flag": "color", "site": 0, "by": '{"var":["key"]}'}
INPUTS = [json.loads(line) for line in BOOK.splitlines()[2:]]

# How a book begins: what begins otherwise than a tally is read as one.
NO_BOOK = "refused read_book 1 Header\n"


def lines_of(inputs, page):
    """The note lines of inputs on a page, sorted."""
    return sorted((note(text, page) for text in inputs), key=str.encode)


def tally_of(inputs, total, page=None):
    """The file of the tally of inputs on a page."""
    page = page or PAGE
    text = printed(lines_of(inputs, page), total)
    head = json.loads(text.splitlines()[1])
    return text.replace(compact(head), compact({**head, **page}), 1)


def tally_of_hashes(inputs, total, page=None):
    """The file of the tally of the hashes of inputs on a page."""
    page = page or PAGE
    text = printed(sorted({hashed(text, page) for text in inputs}, key=str.encode), total)
    head = json.loads(text.splitlines()[1])
    return text.replace(compact(head), compact({**head, **page}), 1)


TALLY = tally_of(INPUTS, 10)
HASHES = tally_of_hashes(INPUTS, 10)
HEADER, HEAD, *POINTS = TALLY.splitlines(keepends=True)


def changed(**members):
    """The tally with other members in its second line."""
    return HEADER + compact({**json.loads(HEAD), **members}) + "\n" + "".join(POINTS)


def counting(points, inputs=7):
    """The tally with other lines of points, and so many inputs."""
    head = compact({**json.loads(HEAD), "inputs": inputs})
    return HEADER + head + "\n" + points


# Files that begin as a tally, and the refusal of each.
BROKEN = [
    ('{"tally":2}\n' + HEAD, "1 Header"),
    ('{"tally":1}', "1 Header"),
    ('{"tally":1}\r\n' + HEAD, "1 Header"),
    (TALLY.replace("\n", "\r\n"), "1 Header"),
    (HEADER, "2 Page"),
    (HEADER + "".join(POINTS), "2 Page"),
    (HEADER + HEAD[:-1], "2 Page"),
    (HEADER + HEAD.replace(":", ": "), "2 Page"),
    (changed(total=0), "2 Page"),
    (changed(total=1_000_001), "2 Page"),
    (changed(flag="other"), "2 Page"),
    (changed(site=1), "2 Page"),
    (changed(by=None), "2 Page"),
    (changed(first=None), "2 Page"),
    (changed(last=None), "2 Page"),
    (changed(inputs=0), "2 Page"),
    (changed(first=json.loads(HEAD)["last"], last=json.loads(HEAD)["first"]), "2 Page"),
    (changed(more=1), "2 Page"),
    (changed(last=json.loads(HASHES.splitlines()[1])["last"]), "2 Page"),
    (changed(first='["color",0,"{\\"var\\":[\\"key\\"]}",01]'), "2 Page"),
    (TALLY[:-1], f"3 Line {2 + len(POINTS)}"),
    (TALLY + "\n", f"3 Line {3 + len(POINTS)}"),
    (TALLY.replace(",1]", ", 1]", 1), "3 Line 3"),
    (counting("[0,0]\n"), "3 Line 3"),
    (counting("[10,7]\n"), "3 Line 3"),
    (counting("[0,1]\n[01,6]\n"), "3 Line 4"),
    (counting("[1,1]\n[0,6]\n"), "4 Order 4"),
    (counting("[1,1]\n[1,6]\n"), "4 Order 4"),
    (counting("[1,1]\n[3,3]\n[2,3]\n[10,1]\n"), "4 Order 5"),
    (counting("[1,6]\n"), "5 Inputs"),
    (counting("[1,8]\n"), "5 Inputs"),
    (counting(""), "5 Inputs"),
    (counting("[1,67108865]\n", 67_108_865), "5 Inputs"),
]

# Tallies that are none of the request's page and total.
OTHERS = [
    tally_of(INPUTS, 10, {**PAGE, "flag": "other"}),
    tally_of(INPUTS, 10, {**PAGE, "site": 1}),
    tally_of(INPUTS, 10, {**PAGE, "by": None}),
    tally_of(INPUTS, 20),
    tally_of([], 20),
    tally_of(INPUTS, 1_000_000),
]


def drawn_totals(draw, points):
    """So many points for each of the two variants."""
    red = draw.randrange(points + 1)
    return {"red": red, "blue": points - red}


class Tallies(ProgramTest):
    def setUp(self):
        if run(["plan", "d", "r", "t"], self.files()).out == NO_BOOK:
            self.skipTest("the program takes no tallies")

    def files(self, tally=TALLY, asked=RED_3, text=None, plan=FREE):
        return {"d": text or document(), "r": asked, "t": tally, "b": BOOK, "p": plan}

    def test_as_books(self):
        draw = random.Random(SEED)
        seen = {"rule": 0, "none": 0, "refused": 0}
        for number in range(CASES):
            problem = Problem(draw)
            files = problem.files()
            page = {**PAGE, "flag": "f"}
            files["t"] = tally_of(problem.inputs, len(problem.points), page)
            with self.subTest(number=number, files=files):
                by = ["--refine", str(problem.factor)]
                counted = run(["tally", *by, "d", "f", str(PAGE["site"])], files, input="".join(lines_of(problem.inputs, page)))
                self.assertEqual((counted.out, counted.status), (files["t"], 0))
                seen[self.answer(problem, files)] += 1
        self.assertGreater(min(seen.values()), CASES // 20, seen)

    def answer(self, problem, files):
        """The kind of the answer, which is the same on both, as is what `verify` tells of it and of a changed one."""
        by = ["--refine", str(problem.factor)]
        report = self.both(["plan", *by, "d", "r"], [], files)
        if report.startswith("refused"):
            return "refused"
        planned = json.loads(report)
        wrong = {**planned, "cost": 1 + planned["cost"]} if "cost" in planned else {**planned, "none": []}
        for plan in [report, compact(wrong)]:
            held = {**files, "p": plan}
            self.both(["verify", *by, "d", "r"], ["p"], held)
            self.both(["apply", "--keep", *by, "d", "p", "r"], [], held)
            self.both(["picture", *by, "d", "r"], ["p"], held)
        self.both(["plan", "--picture", "svg", *by, "d", "r"], [], files, "svg")
        # Without the factor the total of a rule tells it; what no factor is told of is another total than the tally's.
        if "rule" in planned:
            self.both(["verify", "d", "r"], ["p"], {**files, "p": report})
            self.both(["picture", "d", "r"], ["p"], {**files, "p": report})
        return "none" if "none" in planned else "rule"

    def both(self, front, back, files, written=None):
        """What is printed on the book and on the tally, and on both the same in the file that is written."""
        book, tally = (run([*front, name, *back], files) for name in "bt")
        self.assertEqual((book.out, book.status), (tally.out, tally.status), front)
        if written:
            self.assertEqual(book.files[written], tally.files[written])
        return book.out

    def test_broken(self):
        for tally, refusal in BROKEN:
            for front, back in [
                (["plan", "d", "r"], []),
                (["verify", "d", "r"], ["p"]),
                (["apply", "--keep", "d", "p", "r"], []),
                (["picture", "d", "r"], ["p"]),
                (["plan", "--picture", "svg", "d", "r"], []),
            ]:
                with self.subTest(tally=tally, words=front):
                    ran = self.assert_ends([*front, "t", *back], self.files(tally), 1, f"refused read_tally {refusal}\n")
                    self.assertTrue(ran.err.startswith('error: "t" is not a tally: '), ran.err)
                    is_cut = not tally.endswith("\n") and refusal.startswith("3 Line")
                    self.assertEqual("its last line has no line feed" in ran.err, is_cut, ran.err)

    def test_of_hashes(self):
        """A tally of hashes serves as that of the inputs does, where no two of these have one hash."""
        self.assertEqual(HASHES.splitlines()[2:], TALLY.splitlines()[2:])
        if run(["plan", "d", "r", "t"], self.files(HASHES)).status != 0:
            self.skipTest("waits for a release that takes tallies of hashes")
        for words in (["plan", "d", "r", "t"], ["verify", "d", "r", "t", "p"], ["picture", "d", "r", "t", "p"]):
            with self.subTest(words=words):
                ran, other = run(words, self.files(HASHES)), run(words, self.files())
                self.assertEqual((ran.out, ran.status), (other.out, other.status))

    def test_others(self):
        for tally in OTHERS:
            with self.subTest(tally=tally[:300]):
                ran = self.assert_ends(["plan", "d", "r", "t"], self.files(tally), 1, "refused plan 11 OtherTally\n")
                self.assertTrue(ran.err.startswith('error: the request "r" is for another page or total than the tally "t"'), ran.err)
                self.assertIn(f", at {json.loads(tally.splitlines()[1])['total']} points\n", ran.err)
                self.assert_ends(["verify", "d", "r", "t", "p"], self.files(tally), 1, "refused verify 11 OtherTally\n")
                drawn = self.assert_ends(["picture", "d", "r", "t", "p"], self.files(tally), 1, "refused verify 11 OtherTally\n")
                self.assertEqual(drawn.err, ran.err)
                beside = self.assert_ends(["plan", "--picture", "svg", "d", "r", "t"], self.files(tally), 1, "refused plan 11 OtherTally\n")
                self.assertEqual((beside.err, "svg" in beside.files), (ran.err, False))
                # `Shared` has the number 11 there.
                self.assert_ends(["apply", "--keep", "d", "p", "r", "t"], self.files(tally), 1, "refused apply 14 OtherTally\n")

    def test_by_factor(self):
        finer = tally_of(INPUTS, 50)
        asked = request('"red":23,"blue":27')
        for factor, tally, report in [("5", finer, None), ("1", finer, "11 OtherTally"), ("5", TALLY, "11 OtherTally"), ("10", finer, "11 OtherTally")]:
            with self.subTest(factor=factor):
                ran = run(["plan", "--refine", factor, "d", "r", "t"], self.files(tally, asked))
                book = run(["plan", "--refine", factor, "d", "r", "b"], self.files(tally, asked))
                self.assertEqual(ran.out, f"refused plan {report}\n" if report else book.out)

    def test_order(self):
        """Another tally is refused behind a site without weight, and before names and sums."""
        other = OTHERS[1]
        for text, asked, refusal in [
            (None, "{", "1 Request 1 BadRequest"),
            (None, RED_3.replace("color", "colour"), "2 UnknownFlag"),
            (None, request('"red":3,"blue":7', ',"site":1'), "3 NoSite"),
            (document('[{"var":"v"},5],["blue",5]'), RED_3, "4 Computed"),
            (document('["red",0],["blue",0]'), RED_3, "9 NoWeight"),
            (None, request('"red":3,"blue":6,"pink":0'), "11 OtherTally"),
            (None, request('"red":3,"blue":6'), "11 OtherTally"),
            (document('["red",500001],["blue",500000]'), request('"red":500000,"blue":500001'), "11 OtherTally"),
        ]:
            with self.subTest(text=text, asked=asked):
                self.assert_ends(["plan", "d", "r", "t"], self.files(other, asked, text), 1, f"refused plan {refusal}\n")

    def test_empty(self):
        """A tally without inputs is told, as a book without the page is."""
        files = self.files(tally_of([], 10))
        ran = self.assert_ends(["plan", "d", "r", "t"], files, 0, run(["plan", "d", "r", "e"], {**files, "e": '{"book":1}\n'}).out)
        self.assertTrue(ran.err.startswith('note: "t" counts no input'), ran.err)
        drawn = run(["picture", "d", "r", "t", "p"], {**files, "p": ran.out})
        self.assertEqual((drawn.status, drawn.err), (0, ran.err))

    def test_more_than_a_book(self):
        """More inputs than a page of a book takes, by their counts alone."""
        counts = {0: 60_000_000, 4: 1, 7: 67_108_864}
        points = "".join(f"[{point},{count}]\n" for point, count in counts.items())
        files = self.files(counting(points, sum(counts.values())), request('"red":4,"blue":6'))
        ran = run(["plan", "d", "r", "t"], files)
        planned = json.loads(ran.out)
        self.assertEqual((ran.status, planned["cost"]), (0, 0))
        self.assertEqual(run(["verify", "d", "r", "t", "p"], {**files, "p": ran.out}).out, "valid cost 0\n")
        self.assert_drawn(files, ran.out, counts)
        self.assertEqual(run(["verify", "d", "r", "b", "p"], {**files, "p": ran.out}).out, "refused verify 8 Groups\n")

    def assert_drawn(self, files, plan, counts):
        """The picture of a plan, whose users are those of the points that move."""
        old, new = (points_of(rule) for rule in ([["red", 5], ["blue", 5]], json.loads(plan)["rule"]))
        drawn = run(["picture", "d", "r", "t", "p"], {**files, "p": plan})
        self.assertEqual(drawn.status, 0, drawn.out)
        texts = texts_of(tree.fromstring(drawn.out))
        place = texts.index("Price") + 1
        rows = [texts[at : at + 4] for at in range(place, len(texts), 5)]
        pairs = sorted(set(zip(old, new)))
        moved = [[point for point in range(10) if (old[point], new[point]) == pair] for pair in pairs]
        self.assertEqual(rows, [[*pair, str(len(points)), str(sum(counts.get(it, 0) for it in points))] for pair, points in zip(pairs, moved)])

    def test_as_many_as_a_tally_has(self):
        """128 full points: as many inputs as a tally counts, which are drawn by their numbers."""
        most = 67_108_864
        text, asked = document('["red",64],["blue",64]'), request('"red":0,"blue":128')
        head = compact({**json.loads(HEAD), "inputs": 128 * most, "total": 128})
        files = self.files(HEADER + head + "\n" + "".join(f"[{point},{most}]\n" for point in range(128)), asked, text)
        ran = run(["plan", "--picture", "svg", "d", "r", "t"], files)
        self.assertEqual((ran.status, json.loads(ran.out)["cost"]), (0, 64 * most))
        texts = texts_of(tree.fromstring(ran.files["svg"]))
        place = texts.index("Price") + 1
        self.assertEqual(texts[place:], [*["blue", "blue", "64", str(64 * most), "0"], *["red", "blue", "64", str(64 * most), "1"]])
        self.assertEqual(run(["picture", "d", "r", "t", "p"], {**files, "p": ran.out}).out, ran.files["svg"])

    def test_steps_as_on_books(self):
        """The steps of a rollout are planned, checked and put into a document as on the book."""
        draw = random.Random(SEED)
        seen = {"rule": 0, "none": 0}
        for number in range(CASES // 2):
            factor = draw.choice([1, 1, 2, 10])
            wanted = [drawn_totals(draw, 10 * factor) for _ in range(draw.randrange(1, 5))]
            barred = [["blue", "red"]] if draw.random() < 0.3 else []
            asked = compact({"plan": 1, "flag": "color", "price": draw.randrange(3), "forbid": barred, "steps": wanted})
            files = {**self.files(tally_of(INPUTS, 10 * factor)), "s": asked}
            with self.subTest(number=number, files=files):
                by = ["--refine", str(factor)]
                files["ramp"] = self.both(["ramp", *by, "d", "s"], [], files)
                answers = files["ramp"].splitlines(keepends=True)
                plans = [json.loads(line)["plan"] for line in answers]
                self.check_steps(by, files, plans)
                self.both(["verify-ramp", *by, "d", "s"], ["ramp"], {**files, "ramp": "".join(answers[:-1])})
                for plan in plans:
                    seen["none" if "none" in plan else "rule"] += 1
        self.assertGreater(min(seen.values()), 0, seen)

    def check_steps(self, by, files, plans):
        """What is told of right answers, and of a wrong one, and what is put into the document."""
        self.assertTrue(self.both(["verify-ramp", *by, "d", "s"], ["ramp"], files).startswith("valid cost "))
        self.both(["picture", "--ramp", *by, "d", "s"], ["ramp"], files)
        if "rule" not in plans[0]:
            return
        # Without the factor the total of the first rule tells it.
        self.both(["verify-ramp", "d", "s"], ["ramp"], files)
        wrong = [{"plan": {**plan, "cost": plan.get("cost", 0) + 1}, "step": n} for n, plan in enumerate(plans, 1)]
        for words in (["verify-ramp"], ["picture", "--ramp"]):
            self.both([*words, *by, "d", "s"], ["ramp"], {**files, "ramp": "".join(compact(it) + "\n" for it in wrong)})
        first = self.both(["apply", "--step", "1", "--keep", *by, "d", "ramp", "s"], [], files)
        if len(plans) > 1:
            self.both(["apply", "--step", "2", "--keep", "d", "ramp", "s"], [], {**files, "d": first})

    def test_steps_on_another_tally(self):
        """It is refused of the first step. The rules of all steps have one total."""
        asked = '{"plan":1,"flag":"color","steps":[{"red":4,"blue":6},{"red":3,"blue":7}]}'
        files = {**self.files(), "s": asked}
        files["p"] = run(["ramp", "d", "s", "b"], files).out
        self.assertEqual(run(["ramp", "d", "s", "t"], files).out, files["p"])
        for tally in OTHERS:
            with self.subTest(tally=tally[:300]):
                there = {**files, "t": tally}
                ran = self.assert_ends(["ramp", "d", "s", "t"], there, 1, "refused ramp 11 OtherTally\n")
                self.assertTrue(ran.err.startswith('error: "s", step 1: '), ran.err)
                self.assert_ends(["verify-ramp", "d", "s", "t", "p"], there, 1, "refused verify-ramp 11 OtherTally\n")
                self.assert_ends(["picture", "--ramp", "d", "s", "t", "p"], there, 1, "refused verify-ramp 11 OtherTally\n")
                self.assert_ends(["apply", "--step", "1", "--keep", "d", "p", "s", "t"], there, 1, "refused verify-ramp 11 OtherTally\n")

    def test_steps_on_a_broken_tally(self):
        asked = '{"plan":1,"flag":"color","steps":[{"red":3,"blue":7}]}'
        for tally, refusal in BROKEN:
            for words in (
                ["ramp", "d", "s", "t"],
                ["verify-ramp", "d", "s", "t", "p"],
                ["picture", "--ramp", "d", "s", "t", "p"],
                ["apply", "--step", "1", "--keep", "d", "p", "s", "t"],
            ):
                with self.subTest(tally=tally, words=words):
                    self.assert_ends(words, {**self.files(tally), "s": asked}, 1, f"refused read_tally {refusal}\n")

    def test_steps_on_an_empty_tally(self):
        asked = '{"plan":1,"flag":"color","steps":[{"red":3,"blue":7}]}'
        files = {**self.files(tally_of([], 10)), "s": asked}
        ran = run(["ramp", "d", "s", "t"], files)
        self.assertEqual(ran.status, 0, ran.out)
        self.assertTrue(ran.err.startswith('note: "t" counts no input'), ran.err)
        strict = run(["ramp", "--strict", "d", "s", "t"], files)
        self.assertEqual((strict.status, strict.out, strict.err), (1, "refused ramp 17 Unrecorded\n", ran.err))


if __name__ == "__main__":
    unittest.main()
