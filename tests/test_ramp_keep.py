"""The command `apply --step --keep`: the steps of a rollout put into a document one after the other."""
import json
import unittest

from given import BOOK, EMPTY_BOOK, FIVES, document
from program import ProgramTest, run
from test_keep import MOST_BYTES, OLD, SHARED, TEXT, padded
from test_ramp import BACK, THREE, steps

WORDS = ["doc", "ramp", "steps", "book"]


def words(step, *options):
    """The words for a step, with these options."""
    return ["apply", "--step", str(step), "--keep", *options, *WORDS]


def rules_of(ramp):
    """The rules of the answers, in turn."""
    return [json.loads(line)["plan"]["rule"] for line in ramp.splitlines()]


def buckets_of(rule, mark=","):
    """The buckets of a rule as they are written, with this between each two."""
    return mark.join(f'["{name}",{weight}]' for name, weight in rule)


class KeepSteps(ProgramTest):
    def given(self, asked=THREE, doc=document(), book=BOOK):
        given = {"doc": doc, "steps": asked, "book": book}
        ran = run(["ramp", "doc", "steps", "book"], given)
        self.assertIn(ran.status, (0, 3), ran.out + ran.err)
        return {**given, "ramp": ran.out}

    def test_the_steps_in_turn(self):
        """Each is printed and then written, and nothing else of the text is changed."""
        given = self.given(doc=TEXT)
        mark = ",\n        "
        old = OLD
        for step, rule in enumerate(rules_of(given["ramp"]), 1):
            new = buckets_of(rule, mark)
            wanted = given["doc"].replace(old, new)
            self.assertNotEqual(wanted, given["doc"])
            self.assertEqual(self.assert_ends(words(step), given, 0, wanted).files, given)
            ran = self.assert_ends(words(step, "--write"), given, 0, f"written {len(wanted)}\n")
            self.assertEqual((ran.err, ran.files), ("", {**given, "doc": wanted}))
            given, old = ran.files, new
            if len(rule) == 1:
                mark = ","

    def test_a_step_goes_onto_the_rule_that_the_one_before_left(self):
        """Another one is refused. Of the rule before the first step no file knows: it goes where its answer is right."""
        given = self.given()
        docs = [document(), *(document(buckets_of(rule)) for rule in rules_of(given["ramp"]))]
        for step in (2, 3):
            for before, doc in enumerate(docs):
                with self.subTest(step=step, before=before):
                    there = {**given, "doc": doc}
                    ran = run(words(step, "--write"), there)
                    if before == step - 1:
                        self.assertEqual((ran.status, ran.files), (0, {**given, "doc": docs[step]}))
                    else:
                        self.assertEqual((ran.status, ran.out[:8], ran.files), (1, "refused ", there))
                        if before != step and not ran.out.startswith("refused apply"):
                            stands = f"has the rule that step {before} left, and not that of step {step - 1}" if before else f"has neither the rule that step {step - 1} left nor that of another step"
                            self.assertIn(stands, ran.err)

    def test_another_rule_of_the_same_users(self):
        """Points that no recorded input lies on make no difference to the answer, and still the step is refused."""
        asked = steps('"red":4,"blue":6', '"red":3,"blue":7')
        given = self.given(asked)
        first, second = rules_of(given["ramp"])
        # No input lies on the points 2, 3, 5, 8 and 9: one of them is blue after the first step, two after the second.
        self.assertEqual([json.loads(line)["plan"]["cost"] for line in given["ramp"].splitlines()], [0, 0])
        self.assert_ends(words(2, "--write"), given, 1, "refused apply 20 OtherRule\n")
        ran = run(words(2), given)
        self.assertTrue(ran.err.startswith('error: "doc"'), ran.err)
        there = {**given, "doc": document(buckets_of(first))}
        self.assert_ends(words(2), there, 0, document(buckets_of(second)))

    def test_what_verify_ramp_refuses(self):
        given = self.given()
        lines = given["ramp"].splitlines(keepends=True)
        dear = json.loads(lines[0])["plan"]
        dear = json.dumps({"plan": {**dear, "cost": dear["cost"] + 1}, "step": 1}) + "\n"
        for ramp, step, line in [
            ("".join(lines[:2]), 1, "refused verify-ramp 14 Lines\n"),
            (lines[0], 2, "refused apply 15 NoStep\n"),
            ("", 1, "refused apply 15 NoStep\n"),
            (given["ramp"], 4, "refused apply 15 NoStep\n"),
            (dear + "".join(lines[1:]), 1, "refused verify-ramp 5 Sum\n"),
            (given["ramp"][:-1], 1, "refused read_ramp 1 Line 3\n"),
        ]:
            for options in ([], ["--write"]):
                with self.subTest(ramp=ramp, step=step, options=options):
                    there = {**given, "ramp": ramp}
                    self.assertEqual(self.assert_ends(words(step, *options), there, 1, line).files, there)
        for asked, line in [
            ("{}", "refused verify-ramp 1 Request 1 BadRequest\n"),
            (THREE.replace("color", "none"), "refused verify-ramp 2 UnknownFlag\n"),
            (THREE.replace('"red":4,"blue":6', '"red":4,"blue":7'), "refused verify-ramp 6 TotalsSum\n"),
        ]:
            with self.subTest(asked=asked):
                self.assert_ends(words(1), {**given, "steps": asked}, 1, line)

    def test_what_apply_keep_refuses(self):
        given = self.given()
        self.assert_ends(words(1), {**given, "doc": SHARED}, 1, "refused apply 11 Shared\n")
        self.assertGreater(len(buckets_of(rules_of(given["ramp"])[0])), len(FIVES))
        self.assertEqual(len(padded()), MOST_BYTES)
        self.assert_ends(words(1), {**given, "doc": padded()}, 1, "refused apply 12 TooLong\n")

    def test_a_step_without_a_rule(self):
        asked = steps('"red":4,"blue":6', '"red":6,"blue":4', more=BACK)
        given = self.given(asked)
        there = {**given, "doc": document(buckets_of(json.loads(given["ramp"].splitlines()[0])["plan"]["rule"]))}
        for options in ([], ["--write"]):
            self.assertEqual(self.assert_ends(words(2, *options), there, 3, "none\n").files, there)

    def test_finer_points(self):
        """The factor is that of the first step, which tells it too."""
        asked = steps('"red":45,"blue":55', '"red":42,"blue":58')
        given = {"doc": document(), "steps": asked, "book": BOOK}
        given["ramp"] = run(["ramp", "--refine", "10", "doc", "steps", "book"], given).out
        first, second = (document(buckets_of(rule)) for rule in rules_of(given["ramp"]))
        told = 'note: "steps": with --refine 10 the rule has 100 points where it had 10:\n  later requests ask totals that sum to 100\n'
        self.assertEqual(self.assert_ends(words(1), given, 0, first).err, told)
        self.assertEqual(self.assert_ends(words(1, "--refine", "10"), given, 0, first).err, told)
        self.assert_ends(words(1, "--refine", "5"), given, 1, "refused verify-ramp 6 TotalsSum\n")
        self.assertEqual(self.assert_ends(words(2), {**given, "doc": first}, 0, second).err, "")

    def test_doubts(self):
        """They are told; where the document is written over, or with `--strict`, they are refused, unless `--doubted` is given."""
        for asked, book, doubt in [(steps('"red":4,"blue":6', more=',"forbidden":[]'), BOOK, "16 Unread"), (steps('"red":4,"blue":6'), EMPTY_BOOK, "17 Unrecorded")]:
            with self.subTest(doubt=doubt):
                given = self.given(asked, book=book)
                wanted = document(buckets_of(rules_of(given["ramp"])[0]))
                plain = self.assert_ends(words(1), given, 0, wanted)
                self.assertTrue(plain.err.startswith("note: "), plain.err)
                for options in (["--strict"], ["--write"], ["--write", "--strict"], ["--write", "--strict", "--doubted"]):
                    refused = run(words(1, *options), given)
                    self.assertEqual((refused.status, refused.out, refused.err, refused.files), (1, f"refused apply {doubt}\n", plain.err, given))
                written = run(words(1, "--write", "--doubted"), given)
                self.assertEqual((written.status, written.out, written.err), (0, f"written {len(wanted)}\n", plain.err))
                self.assertEqual(written.files, {**given, "doc": wanted})

    def test_words(self):
        self.assert_mistake(["apply", "--step", "1", "--keep", "doc", "ramp", "steps"], {}, "BOOK")
        self.assert_mistake(["apply", "--step", "0", "--keep", *WORDS], {}, "--step")
        self.assert_mistake(["apply", "--step", "1", "--write", "doc", "ramp", "color", "0"], {}, "unexpected argument '--write'")
        self.assert_ends(words(1), {}, 1, "refused load 1 Unreadable\n")


if __name__ == "__main__":
    unittest.main()
