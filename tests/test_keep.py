"""The command `apply --keep`."""
import unittest

from given import BOOK, CHEAPEST, EMPTY_BOOK, FINER, FINER_PLAN, FREE, RED_3, UNMET, document, none_of, plan_of, request
from keeping import problem_of
from program import ProgramTest, run

# A document with members that no command reads, a flag that is broken here, and one bucket a line.
TEXT = """{
  "$schema": "https://flagd.dev/schema/v0/flags.json",
  "flags": {
    "discount": {"state": "ENABLED", "variants": {"low": 0.5}, "defaultVariant": "low"},
    "color": {
      "variants": {"red": "r", "blue": "b", "green": "g"}, "state": "ENABLED", "defaultVariant": "red",
      "targeting": {"fractional": [
        {"var": "key"},
        ["red", 5],
        ["blue", 5]
      ]}
    }
  },
  "metadata": {"team": "shop"}
}
"""
OLD = '["red", 5],\n        ["blue", 5]'
KEPT = TEXT.replace(OLD, '["red",2],\n        ["blue",2],\n        ["red",1],\n        ["blue",5]')

# The site stands in a member of `$evaluators`.
SHARED = """{"flags":{"color":{"state":"ENABLED","variants":{"red":"r","blue":"b","green":"g"},"defaultVariant":"red",
"targeting":{"$ref":"halves"}}},"$evaluators":{"halves":{"fractional":[{"var":"key"},["red",5],["blue",5]]}}}"""

# Of members of one name the last counts, and a text that looks like a site is none.
TWICE = """{"flags":{"color":{"state":"ENABLED","variants":{"red":"r","blue":"b","green":"g"},"defaultVariant":"red",
"targeting":{"fractional":[["red",5],["blue",5]]},"targeting":{"if":[{"==":[{"var":"x"},"{\\"fractional\\":[[\\"red\\",5]"]},
"green",{"fractional":[{"var":"key"} , ["red",5] , ["blue",5] ]}]}}}}"""
TWICE_KEPT = TWICE.replace('["red",5] , ["blue",5] ]', '["red",2] , ["blue",2] , ["red",1] , ["blue",5] ]')

MOST_BYTES = 4_194_304


def padded():
    """A document of as many bytes as there may be, most of them in a member that no command reads."""
    front = document()[:-1] + ',"metadata":"'
    return front + "m" * (MOST_BYTES - 2 - len(front)) + '"}'


# A document, a plan, a request, the status and what is printed.
ANSWERS = [
    (TEXT, FREE, RED_3, 0, KEPT),
    (TWICE, FREE, RED_3, 0, TWICE_KEPT),
    (TEXT, none_of("red"), UNMET, 3, "none\n"),
    (TEXT, plan_of(rule='[["red",3],["blue",7]]'), RED_3, 1, "refused apply 6 Cost\n"),
    (TEXT, plan_of(cost=1), RED_3, 1, "refused apply 5 Sum\n"),
    (TEXT, FREE, request('"red":5,"blue":6'), 1, "refused apply 6 TotalsSum\n"),
    (TEXT, FREE, '{"plan":1,"flag":"color"}', 1, "refused apply 1 Request 1 BadRequest\n"),
    (TEXT, FREE, RED_3.replace("color", "colour"), 1, "refused apply 2 UnknownFlag\n"),
    (TEXT, FREE, RED_3.replace("color", "discount"), 1, "refused apply 3 NoSite\n"),
    (TEXT, none_of("red"), RED_3, 1, "refused apply 7 NotDeficient\n"),
    (TEXT, "{}", RED_3, 1, "refused read_planned 1 BadPlan\n"),
    ("{", FREE, RED_3, 1, "refused read_flags 1 NotJson\n"),
    (SHARED, FREE, RED_3, 1, "refused apply 11 Shared\n"),
    (padded(), FREE, RED_3, 1, "refused apply 12 TooLong\n"),
]


def words(*options):
    """The words with these options."""
    return ["apply", "--keep", *options, "d", "p", "r", "b"]


class Keep(ProgramTest):
    def files(self, text=TEXT, plan=FREE, asked=RED_3, book=BOOK):
        return {"d": text, "p": plan, "r": asked, "b": book}

    def test_answers(self):
        for text, plan, asked, status, report in ANSWERS:
            with self.subTest(text=text[:300], plan=plan, asked=asked):
                files = self.files(text, plan, asked)
                self.assertEqual(self.assert_ends(words(), files, status, report).files, files)

    def test_the_document_is_written_over_where_there_is_a_rule(self):
        for text, plan, asked, status, report in ANSWERS:
            with self.subTest(text=text[:300], plan=plan, asked=asked):
                files = self.files(text, plan, asked)
                written = f"written {len(report)}\n" if status == 0 else report
                ran = self.assert_ends(words("--write"), files, status, written)
                self.assertEqual(ran.files, {**files, "d": report} if status == 0 else files)

    def test_a_refined_rule(self):
        rule = '["red",21],\n        ["blue",1],\n        ["red",1],\n        ["blue",1],\n        ["red",1],\n        ["blue",25]'
        kept = TEXT.replace(OLD, rule)
        files = self.files(plan=FINER_PLAN, asked=FINER)
        told = 'note: "r": with --refine 5 the rule has 50 points where it had 10:\n  later requests ask totals that sum to 50\n'
        self.assertEqual(self.assert_ends(words(), files, 0, kept).err, told)
        self.assertEqual(self.assert_ends(words("--refine", "5"), files, 0, kept).err, told)
        ran = self.assert_ends(words("--write"), files, 0, f"written {len(kept)}\n")
        self.assertEqual((ran.err, ran.files), (told, {**files, "d": kept}))
        self.assert_ends(words("--refine", "2"), files, 1, "refused apply 6 TotalsSum\n")

    def test_the_evaluator_is_told(self):
        ran = run(words(), self.files(SHARED))
        self.assertIn('error: "d": site 0 of "color" stands in the evaluator "halves"', ran.err)

    def test_a_book_without_inputs_is_told(self):
        plan = plan_of('["blue",0,0],["red",0,0]', CHEAPEST)
        ran = run(words(), self.files(plan=plan, book=EMPTY_BOOK))
        self.assertEqual((ran.status, ran.out), (0, KEPT))
        self.assertTrue(ran.err.startswith('note: "b"'), ran.err)

    def test_no_folder_for_the_document(self):
        files = self.files()
        self.assert_ends(["apply", "--keep", "--write", "no/d", "p", "r", "b"], files, 1, "refused load 1 Unreadable\n")

    def test_documents_at_random(self):
        """`bench/keep.py` takes more of them."""
        for n in range(150):
            self.assertIsNone(problem_of(f"test {n}"), n)


if __name__ == "__main__":
    unittest.main()
