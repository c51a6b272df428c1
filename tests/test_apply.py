"""The command `apply`."""
import json
import unittest

from given import FIVES, FREE, document, none_of, plan_of
from program import ProgramTest, run

APPLIED = (
    '{"flags":{"color":{"defaultVariant":"red","state":"ENABLED","targeting":{"fractional":[{"var":["key"]},'
    '["red",2],["blue",2],["red",1],["blue",5]]},"variants":{"blue":"b","green":"g","red":"r"}}}}\n'
)

# The same flag as it is printed, and with the rule of green alone.
AS_IT_WAS = APPLIED.replace('["red",2],["blue",2],["red",1],["blue",5]', FIVES)
GREEN = APPLIED.replace('["red",2],["blue",2],["red",1],["blue",5]', '["green",7]')

PINK = plan_of(rule='[["red",1],["pink",2]]')

# The buckets, a plan, a flag's key, a site, the status and what is printed.
APPLICATIONS = [
    (FIVES, FREE, "color", "0", 0, APPLIED),
    (FIVES, FREE, "colour", "0", 1, "refused apply 2 UnknownFlag\n"),
    (FIVES, FREE, "color", "1", 1, "refused apply 3 NoSite\n"),
    (FIVES, none_of("red"), "colour", "7", 3, "none\n"),
    (FIVES, "{}", "color", "0", 1, "refused read_planned 1 BadPlan\n"),
    (FIVES, PINK, "nope", "1", 1, "refused apply 2 UnknownFlag\n"),
    (FIVES, PINK, "color", "1", 1, "refused apply 3 NoSite\n"),
    (FIVES, PINK, "color", "0", 1, "refused apply 5 UnknownVariant\n"),
    ('[{"var":"v"},5],["blue",5]', PINK, "color", "0", 1, "refused apply 4 Computed\n"),
]

# Texts that are no plan: the form, and members of the other form; the names of a set; the groups and the names; the cost; the
# rule.
NO_PLANS = [
    '{"none":["red"]}',
    '{"none":["red"],"plan":3}',
    '{"none":["red"],"plan":2}',
    '{"none":["red"],"plan":2,"side":"over"}',
    '{"none":["red"],"plan":1,"cost":0}',
    '{"none":["red"],"plan":1,"rule":null}',
    '{"none":["red"],"plan":2,"side":"under","alpha":[]}',
    '{"alpha":[],"beta":[],"cost":0,"plan":2,"rule":[["a",1]],"side":"under"}',
    '{"alpha":[],"beta":[],"plan":1,"rule":[["a",1]]}',
    '{"none":["red","blue"],"plan":1}',
    '{"none":["red","red"],"plan":1}',
    '{"none":[1],"plan":1}',
    '{"none":null,"plan":1}',
    '{"alpha":[["a",1,0],["a",1,0]],"beta":[],"cost":0,"plan":1,"rule":[["a",1]]}',
    '{"alpha":[["a",2,0],["a",1,0]],"beta":[],"cost":0,"plan":1,"rule":[["a",1]]}',
    '{"alpha":[["b",0,0],["a",1,0]],"beta":[],"cost":0,"plan":1,"rule":[["a",1]]}',
    '{"alpha":[["a",4294967296,0]],"beta":[],"cost":0,"plan":1,"rule":[["a",1]]}',
    '{"alpha":[["a",-1,0]],"beta":[],"cost":0,"plan":1,"rule":[["a",1]]}',
    '{"alpha":[["a",1]],"beta":[],"cost":0,"plan":1,"rule":[["a",1]]}',
    '{"alpha":[],"beta":[["a",0],["a",1]],"cost":0,"plan":1,"rule":[["a",1]]}',
    '{"alpha":[],"beta":[["a",0,0]],"cost":0,"plan":1,"rule":[["a",1]]}',
    '{"alpha":[],"beta":[["a",1.5]],"cost":0,"plan":1,"rule":[["a",1]]}',
    '{"alpha":[],"beta":[],"cost":-1,"plan":1,"rule":[["a",1]]}',
    '{"alpha":[],"beta":[],"cost":9007199254740992,"plan":1,"rule":[["a",1]]}',
    '{"alpha":[],"beta":[],"cost":0,"plan":1,"rule":[]}',
    '{"alpha":[],"beta":[],"cost":0,"plan":1,"rule":[["a"]]}',
    '{"alpha":[],"beta":[],"cost":0,"plan":1,"rule":[["a",0],["b",1]]}',
    '{"alpha":[],"beta":[],"cost":0,"plan":1,"rule":[["a",1],["a",1]]}',
    '{"alpha":[],"beta":[],"cost":0,"plan":1,"rule":[["a",1],["a",2]]}',
    '{"alpha":[],"beta":[],"cost":0,"plan":1,"rule":[["a",1],["b",0]]}',
    '{"alpha":[],"beta":[],"cost":0,"plan":1,"rule":[["a",2147483648]]}',
    '{"alpha":[],"beta":[],"cost":0,"plan":1,"rule":[["a",2147483647],["b",1]]}',
]

# The most bytes of a document, and of what is printed.
LARGEST = 4_194_304


def largest():
    """A document that is printed as it stands, in as many bytes as there may be."""
    front = (
        '{"flags":{"color":{"state":"ENABLED","targeting":{"fractional":[{"var":["key"]},["red",5],["blue",5]]},'
        '"variants":{"blue":"b","red":"'
    )
    return front + "r" * (LARGEST - 5 - len(front)) + '"}}}}'


class Apply(ProgramTest):
    def test_applications(self):
        for buckets, plan, key, site, status, report in APPLICATIONS:
            with self.subTest(buckets=buckets, plan=plan, key=key, site=site):
                ran = run(["apply", "d", "p", key, site], {"d": document(buckets), "p": plan})
                self.assertEqual((ran.status, ran.out), (status, report))
                self.assertEqual(ran.err == "", status != 1, ran.err)

    def assert_applied(self, text, rule, printed):
        """A document with this rule at the site of the flag `color` is printed so."""
        self.assert_ends(["apply", "d", "p", "color", "0"], {"d": text, "p": plan_of(rule=rule)}, 0, printed)

    def test_a_document_is_printed_sorted_and_reads_as_itself(self):
        self.assert_applied(document(), f"[{FIVES}]", AS_IT_WAS)
        self.assert_applied(AS_IT_WAS, f"[{FIVES}]", AS_IT_WAS)

    def test_a_broken_flag_stays_beside_the_one_that_is_changed(self):
        text = document().replace('{"flags":{', '{"flags":{"b":1,')
        self.assert_applied(text, '[["green",7]]', GREEN.replace('{"flags":{', '{"flags":{"b":{},'))

    def test_what_is_left_out(self):
        """It is told, each broken flag by its key, and refused with `--strict`; the line and the status stay."""
        flags = '{"flags":{'
        for text, told in [
            (document(), []),
            (AS_IT_WAS, []),
            (document()[:-1] + ',"$schema":"s","metadata":{"team":"shop"}}', ['"$schema" is left out', '"metadata" is left out']),
            (document()[:-1] + ',"$evaluators":{}}', ['"$evaluators" is written out where a targeting refers to it']),
            (document().replace('"state"', '"metadata":{},"state"', 1), ['of the flag "color" is left out: "metadata"']),
            (document().replace(flags, flags + '"b":1,"a":{"state":"ENABLED","variants":{"low":0.5}},'), ['flag "a" is broken', 'flag "b" is broken']),
        ]:
            with self.subTest(text=text):
                words, files = ["apply", "d", "p", "color", "0"], {"d": text, "p": FREE}
                plain = run(words, files)
                self.assertEqual(plain.status, 0)
                self.assertEqual(json.loads(plain.out)["flags"]["color"], json.loads(APPLIED)["flags"]["color"])
                self.assertEqual(plain.err.startswith('note: "d" '), told != [], plain.err)
                places = [plain.err.find(it) for it in told]
                self.assertTrue(all(it >= 0 for it in places) and places == sorted(places), plain.err)
                strict = run([*words, "--strict"], files)
                refused = (1, "refused apply 19 Omitted\n", plain.err)
                self.assertEqual((strict.status, strict.out, strict.err), refused if told else (0, plain.out, ""))
                # The same of a step of a ramp.
                ramp = f'{{"plan":{FREE},"step":1}}\n'
                for options in ([], ["--strict"]):
                    step = run(["apply", "--step", "1", *options, *words[1:]], {"d": text, "p": ramp})
                    self.assertEqual(step[:3], (strict if options else plain)[:3])

    def test_finer_points(self):
        """Where the rule has a multiple of the site's points that is told, behind what is left out, and `--strict` refuses only the latter."""
        words = ["apply", "d", "p", "color", "0"]
        told = 'note: "d": with --refine 10 the rule has 100 points where it had 10:\n  later requests ask totals that sum to 100\n'
        other = document()[:-1] + ',"metadata":{}}'
        for text, rule, finer in [
            (document(), '[["red",45],["blue",55]]', told),
            (other, '[["red",45],["blue",55]]', told),
            (document(), '[["red",4],["blue",6]]', ""),
            (document(), '[["red",7],["blue",8]]', ""),
            (document(), '[["red",2],["blue",3]]', ""),
        ]:
            with self.subTest(text=text, rule=rule):
                files = {"d": text, "p": plan_of(rule=rule)}
                left = 'note: "d" has more than what is printed of it:\n  the member "metadata" is left out\n' if text == other else ""
                plain = run(words, files)
                self.assertEqual((plain.status, plain.err), (0, left + finer))
                strict = run([*words, "--strict"], files)
                self.assertEqual(strict[:3], ("refused apply 19 Omitted\n", left, 1) if left else plain[:3])
                step = run(["apply", "--step", "1", *words[1:]], {"d": text, "p": f'{{"plan":{files["p"]},"step":1}}\n'})
                self.assertEqual(step[:3], plain[:3])

    def test_a_refusal_goes_before_what_is_left_out(self):
        text = document()[:-1] + ',"metadata":{}}'
        self.assert_ends(["apply", "--strict", "d", "p", "color", "1"], {"d": text, "p": FREE}, 1, "refused apply 3 NoSite\n")
        ran = run(["apply", "--strict", "d", "p", "color", "0"], {"d": text, "p": none_of("red")})
        self.assertEqual((ran.status, ran.out, ran.err), (3, "none\n", ""))

    def test_a_rule_may_have_a_name_twice_where_another_stands_between(self):
        rule = '[["a",1],["b",2],["a",3]]'
        text = document('["a",1]', "a", '"a":"A","b":"B"')
        ran = run(["apply", "d", "p", "color", "0"], {"d": text, "p": plan_of(rule=rule)})
        self.assertEqual((ran.status, rule[1:-1] in ran.out), (0, True))

    def test_a_site_beyond_32_bits_is_a_mistake(self):
        files = {"d": document(), "p": FREE}
        self.assert_mistake(["apply", "d", "p", "color", "4294967296"], files, "from 0 to 4294967295")

    def assert_no_plan(self, text):
        """A text is refused as no plan."""
        words = ["apply", "d", "p", "color", "0"]
        self.assert_ends(words, {"d": document(), "p": text}, 1, "refused read_planned 1 BadPlan\n")

    def test_texts_that_are_no_plan(self):
        for text in NO_PLANS:
            with self.subTest(text=text):
                self.assert_no_plan(text)

    def test_fronts_of_a_plan(self):
        for taken in range(len(FREE)):
            with self.subTest(taken=taken):
                self.assert_no_plan(FREE[:taken])

    def test_large_documents(self):
        """A rule that is printed as long as the old one is taken, one that is longer is not."""
        words = ["apply", "d", "p", "color", "0"]
        ran = run(words, {"d": largest(), "p": plan_of(rule='[["red",1],["blue",9]]')})
        self.assertEqual((ran.status, len(ran.out)), (0, LARGEST + 1))
        files = {"d": largest(), "p": plan_of(rule='[["red",10],["blue",5]]')}
        self.assert_ends(words, files, 1, "refused apply 10 TooLarge\n")


if __name__ == "__main__":
    unittest.main()
