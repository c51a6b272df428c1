"""The options `--strict`, by which what is told in a note is refused, and `--explain`."""
import unittest

from given import BOOK, CHEAPEST, EMPTY_BOOK, FIVES, KEYED, KEYED_PAGE as PAGE, RED_3, document, plan_of, request
from program import ProgramTest, run

UNREAD = request('"red":3,"blue":7', ',"forbiden":[["red","blue"]]')


def twice(place):
    """What is told of a name that stands more than once in the request."""
    return f'note: "request" has a member that stands more than once, and the last counts: {place}\n'



# The request, the book, and what is refused under `--strict`, with the beginning of the note.
DOUBTS = [
    (RED_3, EMPTY_BOOK, "17 Unrecorded", 'note: "book" has no input on the page of the request'),
    (UNREAD, BOOK, "16 Unread", 'note: "request" has a member that is not read:\n  "forbiden"; perhaps "forbid" is meant\n'),
    (UNREAD, EMPTY_BOOK, "16 Unread", 'note: "request" has a member that is not read:\n  "forbiden"; perhaps "forbid" is meant\nnote: "book"'),
    (request('"red":5,"blue":7,"red":3'), BOOK, "16 Unread", twice("totals.red")),
    (request(r'"red":3,"blue":7,"r\u0065d":3'), BOOK, "16 Unread", twice("totals.red")),
    (request('"red":3,"blue":7', ',"totals":{"red":3,"blue":7}'), BOOK, "16 Unread", twice("totals")),
    (request('"red":3,"red":3,"blue":7', ',"price":1,"price":1'), BOOK, "16 Unread", twice("price")),
    (request('"red":3,"red":3,"blue":7'), EMPTY_BOOK, "16 Unread", twice("totals.red") + 'note: "book"'),
    (request('"red":3,"blue":7', ',"x":[1,{"a b":{"":0,"":0}}]'), BOOK, "16 Unread", 'note: "request" has a member that is not read:\n  "x"\n' + twice('x[1]["a b"][""]')),
]

LATER = '{"by":null,"flag":"colors","site":0}'
EXPRESSED = '{"by":"{\\"var\\":[\\"key\\"]}","flag":"color","site":0}'
LONG = [f'"color{n:07}"' for n in range(60_000)]

# The lines of a book behind the first one, and how many of the page's inputs are told as none of the flag's, with the first.
BOOKS = [
    ([PAGE, '"color"', '"colorann"', '"colors"'], None),
    ([PAGE, '"\\u0063olorann"', ' "colorbob"'], None),
    ([PAGE, '"ann"', '"bob"', '"colorann"'], ("2 of 3", "ann")),
    ([PAGE, '"colo"', '"colorann"'], ("1 of 2", "colo")),
    ([PAGE, '""', '"colorann"', '"dora"'], ("2 of 3", "")),
    ([PAGE, '"colorann"', '"dora"'], ("1 of 2", "dora")),
    ([PAGE, '"colorann"', '"\\u0064ora"'], ("1 of 2", "dora")),
    ([PAGE, '"Color"', '"colorann"'], ("1 of 2", "Color")),
    ([PAGE, '"colorann"', LATER, '"ann"'], None),
    (['{"by":null,"flag":"a","site":0}', '"zoe"', PAGE, '"colorann"'], None),
    (['{"by":null,"flag":"a","site":0}', '"a"', PAGE, '"zoe"', EXPRESSED, '"ann"'], ("1 of 1", "zoe")),
    ([PAGE, '"colorann"', EXPRESSED, '"ann"', '"zoe"'], None),
    ([PAGE, *LONG], None),
    ([PAGE, *LONG, '"zoe"'], ("1 of 60001", "zoe")),
    ([PAGE, *LONG[:30_000], '"color003\\u0030000"', *LONG[30_001:], LATER, '"a"'], None),
    (['{"by":null,"flag":"a","site":0}', *LONG, PAGE, *LONG, '"zoe"', LATER, '"a"'], ("1 of 60001", "zoe")),
]

BROKEN = '{"flags":{"a":{"state":"on","variants":{"x":true}},"b":{"state":"ENABLED","variants":{"x":true}}}}'
GOOD = '{"flags":{"b":{"state":"ENABLED","variants":{"x":true}}}}'


def files(asked, book):
    return {"document": document(FIVES), "request": asked, "book": book, "plan": plan_of(rule=CHEAPEST)}


def foreign_note(count, first):
    """What is told of so many inputs that do not begin with the flag's key."""
    return (
        f'note: "book" has inputs on the page of the request that are not of its flag: {count} do not begin with its key\n'
        f'  flag "color", "site":0, "by":null; the first is "{first}"\n'
        '  where "by" is null an input is the flag\'s key followed by the targeting key\n'
    )


class Strict(ProgramTest):
    def assert_doubted(self, call, words, asked, book, doubt, note):
        plain = run(words, files(asked, book))
        self.assertEqual((plain.status, plain.err[: len(note)]), (0, note))
        strict = run([words[0], "--strict", *words[1:]], files(asked, book))
        self.assertEqual((strict.status, strict.out), (1, f"refused {call} {doubt}\n"))
        self.assertEqual((strict.err, strict.files), (plain.err, files(asked, book)))

    def test_plan(self):
        for asked, book, doubt, note in DOUBTS:
            with self.subTest(doubt=doubt):
                self.assert_doubted("plan", ["plan", "document", "request", "book"], asked, book, doubt, note)

    def test_an_answer_without_a_doubt(self):
        words = ["document", "request", "book"]
        plain = run(["plan", *words], files(RED_3, BOOK))
        self.assertEqual(run(["plan", "--strict", *words], files(RED_3, BOOK)), plain)

    def test_verify_and_apply(self):
        for asked, book, doubt, note in DOUBTS:
            planned = run(["plan", "document", "request", "book"], files(asked, book)).out
            given = {**files(asked, book), "plan": planned}
            for call, words in [
                ("verify", ["verify", "document", "request", "book", "plan"]),
                ("apply", ["apply", "--keep", "document", "plan", "request", "book"]),
                ("apply", ["apply", "--keep", "--write", "--doubted", "document", "plan", "request", "book"]),
            ]:
                with self.subTest(words=words, doubt=doubt):
                    plain = run(words, given)
                    self.assertEqual((plain.status, plain.err[: len(note)]), (0, note))
                    strict = run([words[0], "--strict", *words[1:]], given)
                    self.assertEqual((strict.status, strict.out), (1, f"refused {call} {doubt}\n"))
                    self.assertEqual((strict.err, strict.files), (plain.err, given))

    def test_inputs_of_another_flag(self):
        """They count as ever, and are told; with `--strict` the answer is refused, and no file is changed."""
        for lines, told in BOOKS:
            book = "\n".join(['{"book":1}', *lines]) + "\n"
            given = {"document": KEYED, "request": RED_3, "book": book}
            planned = run(["plan", "document", "request", "book"], given)
            given["plan"] = planned.out
            note = "" if told is None else foreign_note(*told)
            self.assertEqual((planned.status, planned.err), (0, note))
            for call, words in [
                ("plan", ["plan", "document", "request", "book"]),
                ("verify", ["verify", "document", "request", "book", "plan"]),
                ("apply", ["apply", "--keep", "document", "plan", "request", "book"]),
                ("apply", ["apply", "--keep", "--write", "--doubted", "document", "plan", "request", "book"]),
            ]:
                with self.subTest(words=words, told=told, lines=lines[:4]):
                    plain = run(words, given)
                    self.assertEqual((plain.status, plain.err), (0, note))
                    strict = run([words[0], "--strict", *words[1:]], given)
                    refused = (1, f"refused {call} 18 Foreign\n", note, given)
                    wanted = tuple(plain[i] for i in (2, 0, 1, 3)) if told is None else refused
                    self.assertEqual((strict.status, strict.out, strict.err, strict.files), wanted)

    def test_a_doubted_request_is_not_written(self):
        """Without `--strict` being said; `--doubted` writes all the same, and what is not doubted is written as ever."""
        for asked, book, doubt, note in DOUBTS:
            with self.subTest(doubt=doubt):
                given = {**files(asked, book), "plan": run(["plan", "document", "request", "book"], files(asked, book)).out}
                words = ["document", "plan", "request", "book"]
                refused = run(["apply", "--keep", "--write", *words], given)
                self.assertEqual((refused.status, refused.out, refused.files), (1, f"refused apply {doubt}\n", given))
                self.assertEqual(refused.err[: len(note)], note)
                kept = run(["apply", "--keep", *words], given)
                written = run(["apply", "--keep", "--write", "--doubted", *words], given)
                self.assertEqual((written.status, written.out, written.err), (0, f"written {len(kept.out)}\n", refused.err))
                self.assertEqual(written.files, {**given, "document": kept.out})
        for options in ([], ["--doubted"]):
            given = {**files(RED_3, BOOK), "plan": plan_of(rule=CHEAPEST)}
            self.assertEqual(run(["apply", "--keep", "--write", *options, "document", "plan", "request", "book"], given).status, 0)

    def test_a_member_that_is_not_read_and_inputs_of_another_flag(self):
        """Both are told, and the refusal has the first."""
        given = {"document": KEYED, "request": UNREAD, "book": f'{{"book":1}}\n{PAGE}\n"ann"\n'}
        strict = run(["plan", "--strict", "document", "request", "book"], given)
        self.assertEqual((strict.status, strict.out), (1, "refused plan 16 Unread\n"))
        self.assertTrue(strict.err.endswith("is meant\n" + foreign_note("1 of 1", "ann")), strict.err)

    def test_a_tally_has_no_inputs(self):
        """Nothing is doubted of those that it counts, and the plan is the book's."""
        given = {"document": KEYED, "request": RED_3, "book": f'{{"book":1}}\n{PAGE}\n"ann"\n'}
        given["tally"] = run(["tally", "document", "color", "0"], given, input='["color",0,null,"ann"]\n').out
        planned = run(["plan", "document", "request", "book"], given)
        self.assertEqual(planned.err, foreign_note("1 of 1", "ann"))
        strict = run(["plan", "--strict", "document", "request", "tally"], given)
        self.assertEqual((strict.status, strict.out, strict.err), (0, planned.out, ""))

    def test_check(self):
        for text, status in [(BROKEN, 1), (GOOD, 0)]:
            plain = run(["check", "document"], {"document": text})
            strict = run(["check", "--strict", "document"], {"document": text})
            self.assertEqual((plain.status, strict.status), (0, status))
            self.assertEqual((strict.out, strict.err), (plain.out, plain.err))

    def test_a_plan_in_words(self):
        """The plan and its status stay; the words stand before what is doubted."""
        words = ["document", "request", "book"]
        for asked, book in [(RED_3, BOOK), (RED_3, EMPTY_BOOK), (request('"red":10', ',"forbid":[["blue","red"]]'), BOOK)]:
            with self.subTest(asked=asked, book=book):
                plain = run(["plan", *words], files(asked, book))
                told = run(["plan", "--explain", *words], files(asked, book))
                self.assertEqual((told.status, told.out), (plain.status, plain.out))
                begins = 'note: "request": no rule fits\n' if plain.status == 3 else 'note: "request": switches '
                self.assertTrue(told.err.startswith(begins), told.err)
                self.assertTrue(told.err.endswith("\n" + plain.err), told.err)

    def test_the_edit_by_hand_beside_a_plan(self):
        """Three red points in one block: the two inputs on the fifth point are switched, which the plan leaves where they are."""
        words = ["plan", "--explain", "document", "request", "book"]
        line = "  your edit by hand, each variant in one block, would switch {} of {}; this plan switches {}\n"
        for asked, book, numbers in [
            (RED_3, BOOK, (2, 7, 0)),
            (request('"red":0,"blue":10'), BOOK, (4, 7, 4)),
            # The old rule has red first, and so has the edit: green follows behind blue.
            (request('"red":5,"blue":3,"green":2'), BOOK, (0, 7, 0)),
            (RED_3, EMPTY_BOOK, (0, 0, 0)),
        ]:
            with self.subTest(asked=asked):
                ran = run(words, files(asked, book))
                self.assertIn(line.format(*numbers), ran.err)
        blocked = run(words, files(request('"red":10', ',"forbid":[["blue","red"]]'), BOOK))
        self.assertNotIn("your edit by hand", blocked.err)


if __name__ == "__main__":
    unittest.main()
