"""The commands `ramp`, `verify-ramp` and `apply --step`."""
import functools
import itertools
import json
import os
import random
import unittest

from given import BOOK, EMPTY_BOOK, FIVES, KEYED, KEYED_PAGE, document, forbid
from program import ROOT, ProgramTest, run, text_of

# How many of the book's inputs lie on each of the ten points.
COUNTS = [1, 1, 0, 0, 2, 0, 1, 2, 0, 0]


def steps(*totals, more="", plan=1):
    """Steps of these totals, and what more they have."""
    return f'{{"plan":{plan},"flag":"color","steps":[{",".join("{" + it + "}" for it in totals)}]{more}}}'


THREE = steps('"red":4,"blue":6', '"red":2,"blue":8', '"red":0,"blue":10')
BACK = forbid(("blue", "red"), ("blue", "green"))

# What more the steps have, the book, what is refused under `--strict`, and how the note begins.
DOUBTS = [
    (',"forbidden":[["blue","red"]]', BOOK, "16 Unread", 'note: "steps" has a member that is not read:\n  "forbidden"; perhaps "forbid" is meant\n'),
    # This name comes after `steps`.
    (',"weights":[]', BOOK, "16 Unread", 'note: "steps" has a member that is not read:\n  "weights"\n'),
    (',"flag":"color"', BOOK, "16 Unread", 'note: "steps" has a member that stands more than once, and the last counts: flag\n'),
    ("", EMPTY_BOOK, "17 Unrecorded", 'note: "book" has no input on the page of the request'),
    (
        ',"forbidden":[]',
        EMPTY_BOOK,
        "16 Unread",
        'note: "steps" has a member that is not read:\n  "forbidden"; perhaps "forbid" is meant\nnote: "book" has no input',
    ),
]


def points_of(rule):
    """The name at each point."""
    return [name for name, weight in rule for _ in range(weight)]


def least(old, totals, prices, usual, barred, counts):
    """What the cheapest assignment of names to points costs, none where there is none: over the totals that are left, point by
    point."""
    names = sorted(totals)

    @functools.lru_cache(maxsize=None)
    def rest(point, left):
        if point == len(old):
            return 0 if not any(left) else None
        best = None
        for i, name in enumerate(names):
            change = (old[point], name)
            if left[i] == 0 or (old[point] != name and change in barred):
                continue
            more = rest(point + 1, left[:i] + (left[i] - 1,) + left[i + 1 :])
            if more is not None:
                price = 0 if old[point] == name else prices.get(change, usual)
                cost = more + counts[point] * price
                best = cost if best is None or cost < best else best
        return best

    return rest(0, tuple(totals[name] for name in names))


class RampTest(ProgramTest):
    """Runs over a flag of ten points and its book of seven inputs."""

    def files(self, asked, ramp=None, buckets=FIVES):
        given = {"doc": document(buckets), "steps": asked, "book": BOOK}
        if ramp is not None:
            given["ramp"] = ramp
        return given

    def planned(self, asked, buckets=FIVES, status=0):
        ran = run(["ramp", "doc", "steps", "book"], self.files(asked, buckets=buckets))
        self.assertEqual(ran.status, status, ran.out + ran.err)
        return ran.out

    def verified(self, asked, ramp, status, report, buckets=FIVES):
        self.assert_ends(["verify-ramp", "doc", "steps", "book", "ramp"], self.files(asked, ramp, buckets), status, report)

    def test_each_step_costs_the_least_on_the_rule_before(self):
        chance = random.Random(19)
        names = ["red", "blue", "green"]
        for _ in range(60):
            usual = chance.randrange(4)
            prices = {
                (a, b): chance.randrange(9)
                for a, b in itertools.permutations(names, 2)
                if chance.random() < 0.5
            }
            barred = {it for it in itertools.permutations(names, 2) if chance.random() < 0.2}
            wanted = []
            for _ in range(chance.randrange(1, 6)):
                red = chance.randrange(11)
                blue = chance.randrange(11 - red)
                wanted.append({"red": red, "blue": blue, "green": 10 - red - blue})
            asked = json.dumps(
                {
                    "plan": 1,
                    "flag": "color",
                    "price": usual,
                    "prices": [[a, b, n] for (a, b), n in prices.items()],
                    "forbid": [list(it) for it in sorted(barred)],
                    "steps": wanted,
                }
            )
            ran = run(["ramp", "doc", "steps", "book"], self.files(asked))
            lines = ran.out.splitlines()
            old, costs = points_of([["red", 5], ["blue", 5]]), []
            for n, totals in enumerate(wanted, 1):
                cost = least(tuple(old), totals, prices, usual, barred, COUNTS)
                line = json.loads(lines[n - 1])
                self.assertEqual(line["step"], n)
                if cost is None:
                    self.assertIn("none", line["plan"])
                    costs.append("none")
                    break
                self.assertEqual(line["plan"]["cost"], cost)
                new = points_of(line["plan"]["rule"])
                self.assertEqual({name: new.count(name) for name in names}, totals)
                costs.append(str(cost))
                old = new
            self.assertEqual(len(lines), len(costs))
            self.assertEqual(ran.status, 3 if costs[-1] == "none" else 0)
            self.verified(asked, ran.out, 0, f"valid cost {' '.join(costs)}\n")

    def test_nobody_falls_back(self):
        asked = steps('"red":4,"blue":6', '"red":2,"blue":7,"green":1', '"red":0,"blue":9,"green":1', more=BACK)
        had = {p for p, name in enumerate(points_of([["red", 5], ["blue", 5]])) if name == "blue"}
        for line in self.planned(asked).splitlines():
            now = {p for p, name in enumerate(points_of(json.loads(line)["plan"]["rule"])) if name == "blue"}
            self.assertLessEqual(had, now)
            had = now

    def test_it_ends_where_no_rule_fits(self):
        asked = steps('"red":4,"blue":6', '"red":6,"blue":4', '"red":0,"blue":10', more=BACK)
        ramp = self.planned(asked, status=3)
        lines = ramp.splitlines()
        self.assertEqual(len(lines), 2)
        self.assertEqual(json.loads(lines[1])["plan"]["none"], ["blue"])
        self.verified(asked, ramp, 0, "valid cost 0 none\n")

    def test_lines_are_compact(self):
        for n, line in enumerate(self.planned(THREE).splitlines(), 1):
            self.assertEqual(line, json.dumps(json.loads(line), separators=(",", ":"), ensure_ascii=False))
            self.assertTrue(line.startswith('{"plan":{"alpha":') and line.endswith(f',"step":{n}}}'))

    def test_one_step_is_what_plan_prints(self):
        asked = steps('"red":3,"blue":7')
        plan = run(
            ["plan", "doc", "request", "book"],
            {**self.files(asked), "request": asked.replace('"steps":[', '"totals":').replace("}]", "}")},
        )
        self.assertEqual(self.planned(asked), f'{{"plan":{plan.out.strip()},"step":1}}\n')

    def test_refusals(self):
        cases = [
            ("{}", "refused ramp 1 Request 1 BadRequest\n"),
            (steps(), "refused ramp 1 Request 1 BadRequest\n"),
            (steps(*['"red":5,"blue":5'] * 101), "refused ramp 1 Request 1 BadRequest\n"),
            (steps('"red":5,"blue":5', more=',"totals":{"red":5,"blue":5}'), "refused ramp 1 Request 1 BadRequest\n"),
            (steps('"red":5,"blue":5').replace("[{", "").replace("}]", ""), "refused ramp 1 Request 1 BadRequest\n"),
            (steps('"red":5,"blue":5', '"red":"x"'), "refused ramp 1 Request 1 BadRequest\n"),
            (steps('"red":5,"blue":5', '"red":[6,5]', plan=2), "refused ramp 1 Request 5 EmptyRange\n"),
            (steps('"red":5,"blue":5', more=forbid(("red", "red"))), "refused ramp 1 Request 3 SelfPair\n"),
            (steps('"red":5,"blue":5').replace("color", "none"), "refused ramp 2 UnknownFlag\n"),
            (steps('"red":5,"blue":5', '"red":5,"pink":5'), "refused ramp 5 UnknownVariant\n"),
            (steps('"red":5,"blue":5', '"red":5,"blue":6'), "refused ramp 6 TotalsSum\n"),
        ]
        for asked, line in cases:
            ran = self.assert_ends(["ramp", "doc", "steps", "book"], self.files(asked), 1, line)
            self.assertIn('"steps"', ran.err)

    def test_what_a_text_of_steps_lacks(self):
        """It is told of a text that is no JSON as of a request, and else that there are no steps."""
        asked = steps('"red":4,"blue":6')
        for text, told in [
            ("", '"steps" is empty, which is not valid JSON\n'),
            ("\ufeff" + asked, '"steps" begins with a byte order mark, so it is not valid JSON\n  save it as UTF-8 without the mark\n'),
            (asked[:-1], '"steps" is not valid JSON: '),
            ("{}", '"steps": it is not a request with "steps", a list of 1 to 100 totals, '),
        ]:
            given = {**self.files(text), "ramp": ""}
            for words, line in [
                (["ramp", "doc", "steps", "book"], "refused ramp 1 Request 1 BadRequest\n"),
                (["verify-ramp", "doc", "steps", "book", "ramp"], "refused verify-ramp 1 Request 1 BadRequest\n"),
                (["picture", "--ramp", "doc", "steps", "book", "ramp"], "refused verify-ramp 1 Request 1 BadRequest\n"),
            ]:
                with self.subTest(text=text, words=words):
                    ran = self.assert_ends(words, given, 1, line)
                    self.assertTrue(ran.err.startswith("error: " + told), ran.err)

    def test_a_refusal_tells_its_step(self):
        asked = steps('"red":5,"blue":5', '"red":4,"blue":6', '"red":5,"blue":6')
        ran = run(["ramp", "doc", "steps", "book"], self.files(asked))
        self.assertEqual((ran.status, ran.out), (1, "refused ramp 6 TotalsSum\n"))
        self.assertIn("step 3", ran.err)

    def test_what_is_doubted(self):
        totals = ('"red":4,"blue":6', '"red":2,"blue":8')
        for more, book, doubt, note in DOUBTS:
            plain = {**self.files(steps(*totals)), "book": book}
            given = {**plain, "steps": steps(*totals, more=more)}
            answers = run(["ramp", "doc", "steps", "book"], plain).out
            given["ramp"] = answers
            for words in (["ramp", "doc", "steps", "book"], ["verify-ramp", "doc", "steps", "book", "ramp"]):
                with self.subTest(words=words, doubt=doubt, more=more):
                    ran = run(words, given)
                    self.assertEqual((ran.status, ran.err[: len(note)]), (0, note))
                    self.assertEqual(ran.out, run(words, {**plain, "ramp": answers}).out)
                    strict = run([words[0], "--strict", *words[1:]], given)
                    self.assertEqual((strict.status, strict.out), (1, f"refused {words[0]} {doubt}\n"))
                    self.assertEqual((strict.err, strict.files), (ran.err, given))

    def test_inputs_of_another_flag(self):
        totals = ('"red":4,"blue":6', '"red":2,"blue":8')
        given = {"doc": KEYED, "steps": steps(*totals), "book": f'{{"book":1}}\n{KEYED_PAGE}\n"ann"\n"colorann"\n'}
        given["ramp"] = run(["ramp", "doc", "steps", "book"], given).out
        note = 'note: "book" has inputs on the page of the request that are not of its flag: 1 of 2 do not begin with its key\n'
        for words in (["ramp", "doc", "steps", "book"], ["verify-ramp", "doc", "steps", "book", "ramp"]):
            with self.subTest(words=words):
                ran = run(words, given)
                self.assertEqual((ran.status, ran.err[: len(note)]), (0, note))
                strict = run([words[0], "--strict", *words[1:]], given)
                self.assertEqual((strict.status, strict.out), (1, f"refused {words[0]} 18 Foreign\n"))
                self.assertEqual((strict.err, strict.files), (ran.err, given))

    def test_no_doubt(self):
        given = self.files(THREE)
        plain = run(["ramp", "doc", "steps", "book"], given)
        self.assertEqual((plain.status, plain.err), (0, ""))
        self.assertEqual(run(["ramp", "--strict", "doc", "steps", "book"], given), plain)
        given["ramp"] = plain.out
        checked = run(["verify-ramp", "doc", "steps", "book", "ramp"], given)
        self.assertEqual((checked.status, checked.err), (0, ""))
        self.assertEqual(run(["verify-ramp", "--strict", "doc", "steps", "book", "ramp"], given), checked)

    def test_a_refusal_goes_before_a_doubt(self):
        asked = steps('"red":4,"blue":6', '"red":4,"blue":7', more=',"forbidden":[]')
        ran = run(["ramp", "--strict", "doc", "steps", "book"], self.files(asked))
        self.assertEqual((ran.status, ran.out), (1, "refused ramp 6 TotalsSum\n"))
        # No rule fits the second step: that is an answer, beside which the doubt is told.
        asked = steps('"red":4,"blue":6', '"red":6,"blue":4', more=BACK + ',"forbidden":[]')
        ran = run(["ramp", "doc", "steps", "book"], self.files(asked))
        self.assertEqual((ran.status, ran.err[:6]), (3, "note: "))

    def test_a_hundred_steps(self):
        asked = steps(*(f'"red":{5 - n % 6},"blue":{5 + n % 6}' for n in range(100)))
        ramp = self.planned(asked)
        self.assertEqual(len(ramp.splitlines()), 100)
        ran = run(["verify-ramp", "doc", "steps", "book", "ramp"], self.files(asked, ramp))
        self.assertEqual((ran.status, len(ran.out.split())), (0, 102))

    def test_answers_that_are_not_right(self):
        ramp = self.planned(THREE)
        lines = ramp.splitlines(keepends=True)
        again = json.loads(lines[0])["plan"]
        self.verified(THREE, "".join(lines[:2]), 1, "refused verify-ramp 14 Lines\n")
        self.verified(THREE, "", 1, "refused verify-ramp 14 Lines\n")
        more = lines[0].replace('"step":1', '"step":4')
        self.verified(THREE, ramp + more, 1, "refused verify-ramp 14 Lines\n")
        dear = dict(again, cost=again["cost"] + 1)
        wrong = json.dumps({"plan": dear, "step": 1}) + "\n"
        self.verified(THREE, wrong + "".join(lines[1:]), 1, "refused verify-ramp 5 Sum\n")
        # The second step answered on the first rule, and not on what the first step left, where all points are blue.
        back = steps('"red":0,"blue":10', '"red":5,"blue":5')
        first = run(["ramp", "doc", "steps", "book"], self.files(steps('"red":5,"blue":5'))).out
        swapped = self.planned(back).splitlines(keepends=True)[0] + first.replace('"step":1', '"step":2')
        ran = self.assert_ends(["verify-ramp", "doc", "steps", "book", "ramp"], self.files(back, swapped), 1, "refused verify-ramp 8 Groups\n")
        self.assertIn("step 2", ran.err)

    def test_files_that_are_no_answers(self):
        ramp = self.planned(THREE)
        lines = ramp.splitlines(keepends=True)
        for text, line in [
            (ramp[:-1], 3),
            (lines[1] + lines[0] + lines[2], 1),
            (lines[0] + "\n" + lines[1], 2),
            (lines[0] + lines[1].replace('"step":2', '"step":3'), 2),
            (lines[0] + '{"step":2}\n', 2),
            (lines[0] + '{"plan":{},"step":2}\n', 2),
            ("x\n", 1),
        ]:
            self.verified(THREE, text, 1, f"refused read_ramp 1 Line {line}\n")

    def test_answers_behind_a_mark_and_none(self):
        ramp = self.planned(THREE)
        words = ["verify-ramp", "doc", "steps", "book", "ramp"]
        marked = self.assert_ends(words, self.files(THREE, "\ufeff" + ramp), 1, "refused read_ramp 1 Line 1\n")
        self.assertIn('"ramp" begins with a byte order mark', marked.err)
        empty = self.assert_ends(words, self.files(THREE, ""), 1, "refused verify-ramp 14 Lines\n")
        self.assertIn("an empty file has none", empty.err)

    def test_finer_points(self):
        asked = steps('"red":45,"blue":55', '"red":42,"blue":58')
        ran = run(["ramp", "--refine", "10", "doc", "steps", "book"], self.files(asked))
        told = 'note: "steps": with --refine 10 the rule has 100 points where it had 10:\n  later requests ask totals that sum to 100\n'
        self.assertEqual((ran.status, ran.err), (0, told), ran.out)
        for line in ran.out.splitlines():
            self.assertEqual(sum(weight for _, weight in json.loads(line)["plan"]["rule"]), 100)
        for words in (["verify-ramp"], ["verify-ramp", "--refine", "10"]):
            checked = run([*words, "doc", "steps", "book", "ramp"], self.files(asked, ran.out))
            self.assertEqual(checked.status, 0, checked.out)
        other = run(["verify-ramp", "--refine", "5", "doc", "steps", "book", "ramp"], self.files(asked, ran.out))
        self.assertEqual(other.status, 1)

    def test_the_document_after_a_step(self):
        ramp = self.planned(THREE)
        given = self.files(THREE, ramp)
        before = given["doc"]
        for n, line in enumerate(ramp.splitlines(), 1):
            plan = json.dumps(json.loads(line)["plan"])
            wanted = run(["apply", "doc", "plan", "color", "0"], {"doc": before, "plan": plan})
            ran = run(["apply", "--step", str(n), "doc", "ramp", "color", "0"], given)
            self.assertEqual((ran.status, ran.out), (0, wanted.out))
            before = wanted.out
        words = ["apply", "--step", "4", "doc", "ramp", "color", "0"]
        ran = self.assert_ends(words, given, 1, "refused apply 15 NoStep\n")
        self.assertIn("step 4", ran.err)
        self.assert_ends([*words[:2], "1", "doc", "ramp", "none", "0"], given, 1, "refused apply 2 UnknownFlag\n")
        self.assert_ends([*words[:2], "1", "doc", "ramp", "color", "1"], given, 1, "refused apply 3 NoSite\n")
        self.assert_ends([*words[:2], "1", "doc", "doc", "color", "0"], given, 1, "refused read_ramp 1 Line 1\n")
        self.assert_mistake(["apply", "--step", "0", "doc", "ramp", "color", "0"], given, "--step")
        self.assert_mistake(["apply", "--step", "1", "doc", "ramp", "color"], given, "SITE")

    def test_a_step_without_a_rule_leaves_no_document(self):
        asked = steps('"red":4,"blue":6', '"red":6,"blue":4', more=BACK)
        given = self.files(asked, self.planned(asked, status=3))
        ran = run(["apply", "--step", "2", "doc", "ramp", "color", "0"], given)
        self.assertEqual((ran.status, ran.out), (3, "none\n"))

    def test_words(self):
        self.assert_mistake(["ramp", "doc", "steps"], {}, "BOOK")
        self.assert_mistake(["verify-ramp", "doc", "steps", "book"], {}, "RAMP")
        self.assert_mistake(["ramp", "--refine", "0", "doc", "steps", "book"], {}, "--refine")
        self.assert_ends(["ramp", "doc", "steps", "book"], {}, 1, "refused load 1 Unreadable\n")

    def test_the_demo(self):
        folder = os.path.join(ROOT, "demo")
        given = {
            "doc": text_of(os.path.join(folder, "flags", "shop.json")),
            "book": text_of(os.path.join(folder, "rollout", "book.txt")),
            "steps": text_of(os.path.join(folder, "ramp", "steps.json")),
        }
        ran = run(["ramp", "doc", "steps", "book"], given)
        self.assertEqual((ran.status, len(ran.out.splitlines())), (0, 4))
        given["ramp"] = ran.out
        self.assertEqual(run(["verify-ramp", "doc", "steps", "book", "ramp"], given).status, 0)
        given["steps"] = text_of(os.path.join(folder, "ramp", "back.json"))
        ran = run(["ramp", "doc", "steps", "book"], given)
        self.assertEqual((ran.status, len(ran.out.splitlines())), (3, 2))


if __name__ == "__main__":
    unittest.main()
