"""The command `verify`."""
import unittest

from given import (
    BOOK,
    EMPTY_BOOK,
    FINER,
    FINER_PLAN,
    FIVES,
    FREE,
    RED_3,
    RED_GREEN,
    UNMET,
    UNMET_BY_5,
    UNMET_RANGES,
    document,
    forbid,
    none_of,
    none_under,
    plan_of,
    request,
)
from program import ProgramTest, run

# The groups of points, with a number for the red points without inputs.
GROUPS_BY_RED = '["blue",0,0],["blue",1,0],["blue",2,0],["red",0,{}],["red",1,0],["red",2,0]'

# A request, a plan, the status and what is printed.
VERDICTS = [
    (RED_3, FREE, 0, "valid cost 0\n"),
    (RED_3, plan_of(GROUPS_BY_RED.format(1)), 1, 'refused verify 4 Slack "red" 0 "blue"\n'),
    (RED_3, plan_of(GROUPS_BY_RED.format(-1)), 1, "refused verify 5 Sum\n"),
    (RED_3, plan_of(cost=1), 1, "refused verify 5 Sum\n"),
    (RED_3, plan_of(rule='[["red",3],["blue",7]]'), 1, "refused verify 6 Cost\n"),
    (
        RED_3,
        plan_of('["blue",0,0],["blue",1,0],["blue",2,0],["red",1,0],["red",2,0]'),
        1,
        "refused verify 8 Groups\n",
    ),
    (
        RED_3,
        plan_of('["blue",1,0],["blue",2,0],["red",0,0],["red",1,0],["red",2,0]'),
        1,
        "refused verify 8 Groups\n",
    ),
    (RED_3, plan_of(beta='["green",0],["red",0]'), 1, "refused verify 8 Groups\n"),
    (RED_3, plan_of(rule='[["red",3],["blue",6]]'), 1, "refused verify 1 Weight\n"),
    (RED_3, plan_of(rule='[["red",4],["blue",6]]'), 1, "refused verify 2 Totals\n"),
    (RED_3, plan_of(rule='[["red",3],["blue",6],["pink",1]]'), 1, "refused verify 2 Totals\n"),
    (request('"red":3,"blue":7', forbid(("red", "blue"))), FREE, 1, "refused verify 3 Forbidden 2\n"),
    (UNMET, none_of("blue"), 1, "refused verify 7 NotDeficient\n"),
    (UNMET, none_of("pink"), 1, "refused verify 7 NotDeficient\n"),
    (UNMET, none_of("pink", "red"), 1, "refused verify 7 NotDeficient\n"),
    (UNMET, none_of(), 1, "refused verify 7 NotDeficient\n"),
    (UNMET, none_of("red"), 0, "valid none\n"),
    (UNMET, FREE, 1, "refused verify 2 Totals\n"),
    (RED_3, none_of("blue", "red"), 1, "refused verify 7 NotDeficient\n"),
    (UNMET_RANGES, none_under("green"), 0, "valid none\n"),
    (UNMET_RANGES, none_under("blue"), 1, "refused verify 7 NotDeficient\n"),
    (UNMET_RANGES, none_of("green"), 1, "refused verify 7 NotDeficient\n"),
]

# A request, a book, a plan and what is printed: the file at fault in the order of the words, and then the request.
FILES = [
    ("{}", '{"book":2}\n', "{}", "refused read_book 1 Header\n"),
    (
        "{}",
        '{"book":1}\n{"by":null,"flag":"color","site":0}\n"b"\n"a"\n',
        "{}",
        "refused read_book 3 Order 4\n",
    ),
    ("{}", BOOK, "{}", "refused read_planned 1 BadPlan\n"),
    ("{}", BOOK, FREE, "refused verify 1 Request 1 BadRequest\n"),
]

# The buckets, a request and the refusal, whatever is to be verified.
REQUESTS = [
    (FIVES, "{", "1 Request 1 BadRequest"),
    (FIVES, request('"red":3,"blue":7', ',"price":1000001'), "1 Request 4 PriceRange"),
    (FIVES, request('"red":3,"blue":7', forbid(("red", "red"))), "1 Request 3 SelfPair"),
    (FIVES, request('"red":[4,3],"blue":7', plan=2), "1 Request 5 EmptyRange"),
    (FIVES, '{"plan":1,"flag":"nope","totals":{"red":3,"blue":7}}', "2 UnknownFlag"),
    (FIVES, request('"red":3,"blue":7', ',"site":1'), "3 NoSite"),
    ('[{"var":"v"},5],["blue",5]', RED_3, "4 Computed"),
    (FIVES, request('"red":3,"blue":6,"pink":0'), "5 UnknownVariant"),
    (FIVES + ',["pink",0]', RED_3, "5 UnknownVariant"),
    (FIVES, request('"red":3,"blue":6'), "6 TotalsSum"),
    (FIVES, request('"red":[0,3],"blue":[0,6]', plan=2), "6 TotalsSum"),
    ('["red",2147483647],["blue",2147483647]', RED_3, "6 TotalsSum"),
    (
        '["red",2147483647],["blue",2147483647]',
        request('"red":2147483647,"blue":2147483647'),
        "7 TotalTooLarge",
    ),
    ('["red",500001],["blue",500000]', request('"red":500000,"blue":500001'), "7 TotalTooLarge"),
    ('["red",0],["blue",0]', RED_3, "9 NoWeight"),
    ('["pink",0],["red",0]', RED_3, "9 NoWeight"),
]

LARGE = request('"red":500005,"blue":500005')

# A request, a plan, the factor where one is given and what is printed. A set of names for a refined rule is none for the rule
# itself; a rule tells its own factor.
REFINED = [
    (FINER, FINER_PLAN, None, "valid cost 0\n"),
    (RED_3, FINER_PLAN, None, "refused verify 6 TotalsSum\n"),
    (UNMET_BY_5, none_of("red"), None, "refused verify 6 TotalsSum\n"),
    (FINER, FINER_PLAN, "1", "refused verify 6 TotalsSum\n"),
    (RED_3, FREE, "1", "valid cost 0\n"),
    (FINER, FINER_PLAN, "5", "valid cost 0\n"),
    (FINER, FREE, "5", "refused verify 1 Weight\n"),
    (RED_3, FREE, "5", "refused verify 6 TotalsSum\n"),
    (UNMET_BY_5, none_of("red"), "5", "valid none\n"),
    (LARGE, none_of("red"), "100001", "refused verify 7 TotalTooLarge\n"),
    (LARGE, none_of("red"), "4294967295", "refused verify 6 TotalsSum\n"),
]

# A factor and the status, 2 for a mistake in the words: it is a number from 1 to 2^32-1.
FACTORS = [("1", 1), ("4294967295", 1), ("4294967296", 2), ("0", 2), ("five", 2)]


# What a line of a valid answer says of the cost.
COSTS = {"valid cost 0\n": 0, "valid none\n": None}


class Verify(ProgramTest):
    def assert_told(self, buckets, asked, plan, status, report, factor=None, book=BOOK):
        """This is told of a plan for a request."""
        words = ["verify", "d", "r", "b", "p"] + (["--refine", factor] if factor else [])
        self.assert_ends(words, {"d": document(buckets), "r": asked, "b": book, "p": plan}, status, report)

    def test_verdicts(self):
        for asked, plan, status, report in VERDICTS:
            with self.subTest(asked=asked, plan=plan):
                self.assert_told(FIVES, asked, plan, status, report)

    def test_json(self):
        """The members say what the line says; a refusal stays a line."""
        for asked, plan, status, report in VERDICTS:
            with self.subTest(asked=asked, plan=plan):
                words = ["verify", "--json", "d", "r", "b", "p"]
                files = {"d": document(FIVES), "r": asked, "b": BOOK, "p": plan}
                if status == 0:
                    self.assert_json(words, files, {"cost": COSTS[report], "valid": True})
                else:
                    self.assert_ends(words, files, status, report)

    def test_json_beside_a_note(self):
        """What is told stays, and with `--strict` it is refused."""
        files = {"d": document(FIVES), "r": RED_3, "b": EMPTY_BOOK}
        files["p"] = run(["plan", "d", "r", "b"], files).out
        words = ["verify", "d", "r", "b", "p"]
        plain, ran = run(words, files), run([*words, "--json"], files)
        self.assertEqual((ran.status, ran.out, ran.err), (0, '{"cost":0,"valid":true}\n', plain.err))
        strict = run([*words, "--json", "--strict"], files)
        self.assertEqual((strict.status, strict.out, strict.err), (1, "refused verify 17 Unrecorded\n", plain.err))

    def test_files(self):
        for asked, book, plan, report in FILES:
            with self.subTest(asked=asked, book=book, plan=plan):
                self.assert_told(FIVES, asked, plan, 1, report, book=book)

    def test_requests(self):
        for buckets, asked, refusal in REQUESTS:
            with self.subTest(buckets=buckets, asked=asked):
                self.assert_told(buckets, asked, none_of("red"), 1, f"refused verify {refusal}\n")

    def test_refined_rules(self):
        for asked, plan, factor, report in REFINED:
            with self.subTest(asked=asked, plan=plan, factor=factor):
                self.assert_told(FIVES, asked, plan, int(report.startswith("refused")), report, factor)

    def test_factors(self):
        for factor, status in FACTORS:
            with self.subTest(factor=factor):
                ran = run(["verify", "nowhere", "r", "b", "p", "--refine", factor], {"r": "", "b": "", "p": ""})
                self.assertEqual((ran.status, ran.out == ""), (status, status == 2))


if __name__ == "__main__":
    unittest.main()
