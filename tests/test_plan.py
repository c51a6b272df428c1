"""The command `plan`."""
import json
import unittest

from given import (
    BOOK,
    EMPTY_BOOK,
    FIVES,
    RED_3,
    RED_GREEN,
    UNMET,
    UNMET_BY_5,
    UNMET_RANGES,
    document,
    forbid,
    none_of,
    none_under,
    request,
)
from program import ProgramTest, run

RED_2_COSTS_1 = [
    '"cost":1,"plan":1,"rule":[["red",1],["blue",3],["red",1],["blue",5]]}\n',
    '"cost":1,"plan":1,"rule":[["blue",1],["red",1],["blue",2],["red",1],["blue",5]]}\n',
]

# The buckets, a request, the factor, and texts one of which the plan has.
PLANS = [
    (FIVES, RED_3, 1, [',"cost":0,"plan":1,"rule":[["red",2],["blue",2],["red",1],["blue",5]]}\n']),
    (
        FIVES,
        request('"red":[0,3],"blue":[7,10]', plan=2),
        1,
        [',"cost":0,"plan":1,"rule":[["red",2],["blue",2],["red",1],["blue",5]]}\n'],
    ),
    (
        FIVES,
        request('"red":3,"blue":4,"green":3', RED_GREEN),
        1,
        [',"cost":0,"plan":1,"rule":[["red",2],["blue",2],["red",1],["green",1],["blue",2],["green",2]]}\n'],
    ),
    (
        FIVES,
        request('"red":1,"blue":5,"green":4', RED_GREEN),
        1,
        [',"cost":3,"plan":1,"rule":[["blue",4],["red",1],["green",2],["blue",1],["green",2]]}\n'],
    ),
    (FIVES, request('"red":2,"blue":8'), 1, RED_2_COSTS_1),
    (FIVES, request('"red":[0,2],"blue":[8,10]', plan=2), 1, RED_2_COSTS_1),
    (
        '["red",2],["red",3],["blue",5]',
        request('"red":5,"blue":5', forbid(("red", "blue"), ("blue", "red"))),
        1,
        [',"cost":0,"plan":1,"rule":[["red",5],["blue",5]]}\n'],
    ),
    ('["red",501],["blue",500]', request('"red":500,"blue":501'), 1, [',"cost":0,"plan":1,"rule":[']),
    ('["red",50000],["blue",50000]', request('"red":30000,"blue":70000'), 1, [',"cost":0,']),
    ('["red",50001],["blue",50000]', request('"red":50000,"blue":50001'), 1, [',"cost":0,']),
    (FIVES, request('"red":23,"blue":27'), 5, [',"cost":0,"plan":1,"rule":[']),
]

# A request, the factor, the book and the names that show that no rule fits. Points without inputs are forbidden a change as
# others are; in the last one only green itself may become green, and it has no points.
CUTS = [
    (UNMET, 1, BOOK, none_of("red")),
    (UNMET, 1, EMPTY_BOOK, none_of("red")),
    (UNMET_BY_5, 5, BOOK, none_of("red")),
    (UNMET_RANGES, 1, BOOK, none_under("green")),
    (
        request('"red":5,"blue":4,"green":1', forbid(("red", "green"), ("blue", "green"))),
        1,
        BOOK,
        none_of("blue", "red"),
    ),
]

# The buckets, a request, the factor and the refusal: the first fault, of a request with its own number and name.
REFUSED = [
    (FIVES, request('"red":[0,3],"blue":7'), 1, "1 Request 1 BadRequest"),
    (FIVES, request('"red":[4,3],"blue":7', plan=2), 1, "1 Request 5 EmptyRange"),
    (FIVES, request('"red":3,"blue":7', forbid(("red", "red"))), 1, "1 Request 3 SelfPair"),
    (FIVES, request('"red":3,"blue":7', ',"price":1000001'), 1, "1 Request 4 PriceRange"),
    (FIVES, '{"plan":1,"flag":"nope","totals":{"red":3,"blue":7}}', 1, "2 UnknownFlag"),
    (FIVES, request('"red":3,"blue":7', ',"site":1'), 1, "3 NoSite"),
    (FIVES, request('"red":3,"blue":6,"pink":0'), 1, "5 UnknownVariant"),
    (FIVES, request('"red":3,"blue":6'), 1, "6 TotalsSum"),
    (FIVES, request('"red":[0,3],"blue":[0,6]', plan=2), 1, "6 TotalsSum"),
    (FIVES, RED_3, 5, "6 TotalsSum"),
    ('[{"var":"v"},5],["blue",5]', RED_3, 1, "4 Computed"),
    ('["red",0],["blue",0]', RED_3, 1, "9 NoWeight"),
    ('["red",500001],["blue",500000]', request('"red":500000,"blue":500001'), 1, "7 TotalTooLarge"),
    (FIVES, request('"red":500005,"blue":500005'), 100_001, "7 TotalTooLarge"),
]

# What is asked of red, blue and green, and the totals of a rule that meet it.
LIMITED = request('"red":[1,3],"blue":7', ',"prices":[["red","green",2]]' + forbid(("green", "blue")), plan=2)
MEETING = range(8, 11)


def by(factor):
    """The words that refine a rule, none for the rule as it stands."""
    return ["--refine", str(factor)] if factor > 1 else []


class Plan(ProgramTest):
    def assert_verified(self, files, planned, factor, verdict):
        """The answer that was printed is told to be valid; a rule tells its own factor."""
        files = {**files, "p": planned}
        self.assert_ends(["verify", "d", "r", "b", "p", *by(factor)], files, 0, verdict)
        if '"rule"' in planned:
            self.assert_ends(["verify", "d", "r", "b", "p"], files, 0, verdict)

    def assert_planned(self, files, factor, texts):
        """The plan has one of the texts, and is valid."""
        ran = run(["plan", "d", "r", "b", *by(factor)], files)
        self.assertEqual(ran.status, 0, ran.out)
        self.assertTrue(any(text in ran.out for text in texts), ran.out)
        cost = ran.out.partition('"cost":')[2].partition(",")[0]
        self.assert_verified(files, ran.out, factor, f"valid cost {cost}\n")

    def test_cheapest_rules(self):
        for buckets, asked, factor, texts in PLANS:
            with self.subTest(buckets=buckets, asked=asked, factor=factor):
                self.assert_planned({"d": document(buckets), "r": asked, "b": BOOK}, factor, texts)

    def test_no_rules(self):
        for asked, factor, book, names in CUTS:
            with self.subTest(asked=asked, factor=factor, book=book):
                files = {"d": document(), "r": asked, "b": book}
                ran = run(["plan", "d", "r", "b", *by(factor)], files)
                self.assertEqual((ran.status, ran.out), (3, names + "\n"))
                self.assert_verified(files, ran.out, factor, "valid none\n")

    def test_a_factor_of_1_changes_nothing(self):
        for asked in [RED_3, UNMET, UNMET_RANGES]:
            with self.subTest(asked=asked):
                files = {"d": document(), "r": asked, "b": BOOK}
                self.assertEqual(run(["plan", "d", "r", "b", "--refine", "1"], files), run(["plan", "d", "r", "b"], files))

    def test_finer_points(self):
        """How many points a rule has is told where it was planned in finer ones, and of no set of names."""
        asked = request('"red":45,"blue":55')
        ran = run(["plan", "d", "r", "b", *by(10)], {"d": document(), "r": asked, "b": BOOK})
        told = 'note: "r": with --refine 10 the rule has 100 points where it had 10:\n  later requests ask totals that sum to 100\n'
        self.assertEqual((ran.status, ran.err), (0, told))
        for asked, factor, book, _ in CUTS:
            with self.subTest(asked=asked, factor=factor, book=book):
                ran = run(["plan", "d", "r", "b", *by(factor)], {"d": document(), "r": asked, "b": book})
                self.assertNotIn("points where it had", ran.err)

    def test_totals_of_coarser_points(self):
        """Where the totals sum to a part of the rule's points it is told by how much to multiply them, and else it is not."""
        files = {"d": document(FIVES), "r": RED_3, "b": BOOK}
        ran = self.assert_ends(["plan", "d", "r", "b", *by(5)], files, 1, "refused plan 6 TotalsSum\n")
        self.assertIn("\n  that is 5 times as many: multiply each total by 5\n", ran.err)
        other = self.assert_ends(["plan", "d", "r", "b"], {**files, "r": request('"red":3,"blue":6')}, 1, "refused plan 6 TotalsSum\n")
        self.assertNotIn("multiply", other.err)

    def test_refusals(self):
        for buckets, asked, factor, refusal in REFUSED:
            with self.subTest(buckets=buckets, asked=asked, factor=factor):
                files = {"d": document(buckets), "r": asked, "b": BOOK}
                self.assert_ends(["plan", "d", "r", "b", *by(factor)], files, 1, f"refused plan {refusal}\n")

    def test_totals_of_all_names(self):
        """A variant that is not named gets none; the request names no others."""
        for total in range(7, 12):
            with self.subTest(total=total):
                files = {"d": document(f'["red",{total}]'), "r": LIMITED, "b": BOOK}
                if total in MEETING:
                    ran = run(["plan", "d", "r", "b"], files)
                    rule = json.loads(ran.out)["rule"]
                    totals = {name: sum(weight for other, weight in rule if other == name) for name, _ in rule}
                    self.assertEqual((ran.status, totals), (0, {"red": total - 7, "blue": 7}))
                else:
                    self.assert_ends(["plan", "d", "r", "b"], files, 1, "refused plan 6 TotalsSum\n")
        for variants in ['"red":"r","green":"g"', '"red":"r","blue":"b"']:
            with self.subTest(variants=variants):
                files = {"d": document('["red",8]', variants=variants), "r": LIMITED, "b": BOOK}
                self.assert_ends(["plan", "d", "r", "b"], files, 1, "refused plan 5 UnknownVariant\n")

    def test_the_variants_are_told_beside_a_name_that_is_none(self):
        files = {"d": document(), "r": request('"red":3,"blue":6,"pink":0'), "b": BOOK}
        self.assertIn('known variants: "blue", "green", "red"\n', run(["plan", "d", "r", "b"], files).err)

    def test_many_names(self):
        """The points that stay are those with the most inputs: of seven inputs on five points of 4 names, one of which may
        keep 4 of 10, and on seven points of 64 names, each of which has one point."""
        for names, weight, totals, cost in [
            (4, 10, '"0":4,"1":2,"2":2,"3":2', 1),
            (64, 64, ",".join(f'"{name}":1' for name in range(64)), 6),
        ]:
            with self.subTest(names=names):
                variants = ",".join(f'"{name}":"v{name}"' for name in range(names))
                flags = document(f'["0",{weight}]', "0", variants)
                self.assert_planned({"d": flags, "r": request(totals), "b": BOOK}, 1, [f'"cost":{cost},'])

    def test_all_totals(self):
        """There is a rule exactly where green, which red may not become, has no more than the five blue points."""
        for red in range(11):
            for green in range(11 - red):
                with self.subTest(red=red, green=green):
                    asked = request(f'"red":{red},"blue":{10 - red - green},"green":{green}', RED_GREEN)
                    ran = run(["plan", "d", "r", "b"], {"d": document(), "r": asked, "b": BOOK})
                    self.assertEqual((ran.status, '"rule"' in ran.out), (0, True) if green <= 5 else (3, False))


if __name__ == "__main__":
    unittest.main()
