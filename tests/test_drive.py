"""The command `drive`: its lines, the book that it writes, and its refusals."""
import json
import resource
import unittest

from given import BOOK, EMPTY_BOOK, document
from program import ProgramTest, cheap, run

# Each key with its variant: they lie on the points 0, 1, 4, 4, 6, 7 and 7 of 10.
KEYS = [
    ("", "red"),
    ("The quick brown fox jumps over the lazy dog", "red"),
    ("!", "red"),
    ("!Ce", "red"),
    ("!C", "blue"),
    ("test", "blue"),
    ("Hello, world!", "blue"),
]

COUNTS = "inputs 7\ncalls 21\nnews 7\nfull 0\nlong 0\n"
COUNTED = '{"calls":21,"full":0,"inputs":7,"long":0,"news":7}\n'


def ask(key):
    """An ask for the colour of a key."""
    return f'{{"key":"color","want":"text","default":"d","context":{{"key":"{key}"}},"moment":0}}'


# Each key three times.
ASKS = "[" + ",\n".join(ask(key) for key, _ in KEYS * 3) + "]"

# Workers, asks and the refusal.
REFUSALS = [
    ("0", "[]", "drive 1 NoWorkers"),
    ("65", "[]", "drive 2 TooManyWorkers"),
    ("0", ASKS, "drive 1 NoWorkers"),
    ("65", ASKS, "drive 2 TooManyWorkers"),
    ("0", '[{"key":"color"}]', "drive 5 BadAsks"),
    ("1", "{}", "drive 5 BadAsks"),
    ("1", "[[]]", "drive 5 BadAsks"),
    ("1", '[{"key":5,"want":"text","default":0,"context":{},"moment":0}]', "drive 5 BadAsks"),
    ("1", '[{"key":"color","want":"number","default":0,"context":{},"moment":0}]', "drive 5 BadAsks"),
    ("1", '[{"key":"color","want":"text","context":{},"moment":0}]', "drive 5 BadAsks"),
    ("1", '[{"key":"color","want":"text","default":0,"context":[],"moment":0}]', "drive 5 BadAsks"),
    ("1", '[{"key":"color","want":"text","default":0,"context":{},"moment":-1}]', "drive 5 BadAsks"),
    (
        "1",
        '[{"key":"color","want":"text","default":0,"context":{},"moment":9007199254740992}]',
        "read_tree 2 NotWhole",
    ),
    ("1", "[", "read_tree 1 NotJson"),
]


# An ask for a flag that the document does not have, and its resolution.
LOST = '{"key":"nope","want":"bool","default":false,"context":{},"moment":9007199254740991}'
NOT_FOUND = '{"code":"FLAG_NOT_FOUND","reached":[],"reason":"ERROR","value":false,"variant":null}\n'

NOTHING = (
    '  nothing was recorded: no ask reached a "fractional" with an input of at most 1,024 bytes\n'
    "  check the keys and the contexts\n"
)


def compact(value):
    """The text of a value, without blanks."""
    return json.dumps(value, separators=(",", ":"))


def site(by):
    """A site of one bucket, and the text that its page has of its bucketing expression."""
    return {"fractional": [by, ["a", 1]]}, compact(by)


def driven(targeting, context, asks):
    """The files of so many asks for a flag with this targeting, each over this context."""
    flag = {"state": "ENABLED", "variants": {"a": 1}, "defaultVariant": "a", "targeting": targeting}
    asked = {"key": "f", "want": "whole", "default": 0, "context": context, "moment": 0}
    return {"d": compact({"flags": {"f": flag}}), "a": compact([asked] * asks)}


def answer(key, variant):
    """What is printed of it."""
    reached = f'[[0,"{key}",10]]'
    return (
        f'{{"code":null,"reached":{reached},"reason":"TARGETING_MATCH","value":"{variant[0]}","variant":"{variant}"}}\n'
    )


class Drive(ProgramTest):
    def assert_driven(self, workers, asks, report, book):
        """The asks are answered by so many workers, and the book is left."""
        ran = self.assert_ends(["drive", "d", "a", workers, "b"], {"d": document(), "a": asks}, 0, report)
        self.assertEqual(ran.files.get("b"), book)

    def test_flagd_words_for_kinds(self):
        flags = '"t":{"state":"ENABLED","variants":{"x":%s},"defaultVariant":"x"}'
        for ours, theirs, value in (("bool", "boolean", "true"), ("text", "string", '"v"'), ("whole", "integer", "5"), ("object", "object", '{"v":1}'), ("float", "float", "5")):
            with self.subTest(theirs):
                asked = [f'[{{"key":"t","want":"{word}","default":null,"context":{{}},"moment":0}}]' for word in (ours, theirs)]
                document = '{"flags":{%s}}' % (flags % value)
                first, second = (run(["drive", "d", "a", "1", "b"], {"d": document, "a": asks}) for asks in asked)
                self.assertEqual((first.out, first.err, first.status), (second.out, second.err, 0))
                self.assertIn(f'"value":{value},"variant":"x"', first.out)

    def test_any_number_of_workers_gives_the_same(self):
        report = "".join(answer(key, variant) for key, variant in KEYS * 3) + COUNTS
        for workers in ["1", "2", "8"]:
            with self.subTest(workers=workers):
                self.assert_driven(workers, ASKS, report, BOOK)

    def test_workers_have_a_stack_of_their_own(self):
        """The deepest targeting is evaluated by eight workers where the system would give a thread 128 KB."""
        targeting = True
        for _ in range(49):
            targeting = {"!": [targeting]}
        files = driven({"if": [targeting, "a", "a"]}, {}, 40)
        small = {"preexec_fn": lambda: resource.setrlimit(resource.RLIMIT_STACK, (131_072, 131_072))}
        told = [run(["drive", "d", "a", workers, "b"], files, **how) for workers, how in (("1", {}), ("8", small))]
        self.assertEqual([ran.status for ran in told], [0, 0])
        self.assertEqual(told[0], told[1])

    def test_workers_make_deep_values(self):
        """A value of 4,050 levels is made, copied and dropped by workers as by one."""
        inside = {"var": "accumulator"}
        for _ in range(90):
            inside = [inside]
        reduced = {"reduce": [[0] * 45, inside]}
        files = driven({"if": [{"in": [0, {"merge": [[reduced]]}]}, "a", "a"]}, {}, 16)
        small = {"preexec_fn": lambda: resource.setrlimit(resource.RLIMIT_STACK, (131_072, 131_072))}
        told = [run(["drive", "d", "a", workers, "b"], files, **how) for workers, how in (("1", {}), ("8", small))]
        self.assertEqual([ran.status for ran in told], [0, 0])
        self.assertEqual(told[0], told[1])

    def test_a_refusal_leaves_no_book(self):
        for workers, asks, refusal in REFUSALS:
            with self.subTest(workers=workers, asks=asks):
                files = {"d": document(), "a": asks}
                ran = self.assert_ends(["drive", "d", "a", workers, "b"], files, 1, f"refused {refusal}\n")
                self.assertNotIn("b", ran.files)

    def test_a_book_that_cannot_be_written(self):
        files = {"d": document(), "a": "[]"}
        self.assert_ends(["drive", "d", "a", "8", "nowhere/b"], files, 1, "refused store 1 Unwritable\n")

    def test_a_book_is_added_to(self):
        """The book keeps what it had; the counts but the first are those of the asks."""
        page = BOOK[len(EMPTY_BOOK) : BOOK.index('""\n')]
        early = f'{EMPTY_BOOK}{page}"test"\n"zoe"\n'
        other = '{"by":null,"flag":"other","site":0}\n"a"\n'
        answers = "".join(answer(key, variant) for key, variant in KEYS)
        for workers in ["1", "8"]:
            for before, inputs, after in [
                (EMPTY_BOOK, 7, BOOK),
                (BOOK, 7, BOOK),
                (early, 8, BOOK + '"zoe"\n'),
                (BOOK + other, 8, BOOK + other),
            ]:
                with self.subTest(workers=workers, before=before):
                    asks = "[" + ",".join(ask(key) for key, _ in KEYS) + "]"
                    files = {"d": document(), "a": asks, "b": before}
                    report = f"{answers}inputs {inputs}\ncalls 7\nnews 7\nfull 0\nlong 0\n"
                    ran = self.assert_ends(["drive", "--add", "d", "a", workers, "b"], files, 0, report)
                    self.assertEqual(ran.files["b"], after)

    def test_a_book_that_is_not_added_to_stays(self):
        for book, asks, refusal in [
            (None, ASKS, "load 1 Unreadable"),
            ("{}\n", ASKS, "read_book 1 Header"),
            (EMPTY_BOOK + '"a"\n', ASKS, "read_book 2 Line 2"),
            ("{}\n", "{}", "read_book 1 Header"),
            (BOOK, "{}", "drive 5 BadAsks"),
            ("{}\n", "[", "read_tree 1 NotJson"),
        ]:
            with self.subTest(book=book, asks=asks):
                files = {"d": document(), "a": asks, **({} if book is None else {"b": book})}
                ran = self.assert_ends(["drive", "d", "a", "2", "b", "--add"], files, 1, f"refused {refusal}\n")
                self.assertEqual(ran.files.get("b"), book)

    def test_a_book_that_would_lose_inputs_stays(self):
        """It is said how many; with `--replace` the new book is written, as where nothing is lost."""
        page = BOOK[len(EMPTY_BOOK) : BOOK.index('""\n')]
        one = EMPTY_BOOK + page + '"test"\n'
        all_keys = [key for key, _ in KEYS]
        for before, keys, lost in [
            ("", all_keys, 0),
            (EMPTY_BOOK, all_keys, 0),
            (one, all_keys, 0),
            (BOOK, all_keys, 0),
            (one, ["test"], 0),
            (BOOK + '"zoe"\n', all_keys, 1),
            (one + '"zoe"\n', ["test"], 1),
            (one + '"zoe"\n', ["zoe"], 1),
            (BOOK, ["test"], 6),
            (BOOK, [], 7),
            (BOOK + '{"by":null,"flag":"other","site":0}\n"test"\n"zoe"\n', all_keys, 2),
            (one.replace('"site":0', '"site":1'), ["test"], 1),
            (one.replace('"color"', '"colour"'), ["test"], 1),
            (EMPTY_BOOK + '{"by":null,"flag":"color","site":0}\n"test"\n', ["test"], 1),
        ]:
            for words in [[], ["--json"]]:
                with self.subTest(before=before, keys=keys, words=words):
                    files = {"d": document(), "a": "[" + ",".join(ask(key) for key in keys) + "]"}
                    fresh = run(["drive", *words, "d", "a", "2", "b"], files)
                    ran = run(["drive", *words, "d", "a", "2", "b"], {**files, "b": before})
                    if lost:
                        told = f'error: "b" has {lost} input{"" if lost == 1 else "s"} that the new book lacks, so it stays\n'
                        self.assertEqual((ran.status, ran.out, ran.files["b"]), (1, f"refused drive 7 WouldLose {lost}\n", before))
                        self.assertEqual(ran.err, told + "  keep them with --add, or give them up with --replace\n")
                    else:
                        self.assertEqual(ran, fresh)
                    self.assertEqual(run(["drive", "--replace", *words, "d", "a", "2", "b"], {**files, "b": before}), fresh)

    def test_what_is_refused_of_the_old_book(self):
        """A faulty one stays, unless with `--replace`, and what is no book stays with it too; a doubt comes first."""
        for before, words, refusal in [
            (EMPTY_BOOK + '"a"\n', [], "read_book 2 Line 2"),
            (EMPTY_BOOK + "rest", [], "read_book 2 Line 2"),
            (BOOK[:-1], [], "read_book 2 Line 9"),
            ("{}\n", ["--replace"], "read_book 1 Header"),
            (BOOK, ["--strict"], "drive 17 Unrecorded"),
        ]:
            with self.subTest(before=before, words=words):
                files = {"d": document(), "a": "[]", "b": before}
                ran = run(["drive", *words, "d", "a", "2", "b"], files)
                self.assertEqual((ran.status, ran.out), (1, f"refused {refusal}\n"))
                self.assertTrue(ran.err.startswith("note: " if words == ["--strict"] else "error: "), ran.err)
                self.assertEqual(ran.files, files)
                if not words:
                    ran = run(["drive", "--replace", "d", "a", "2", "b"], files)
                    self.assertEqual((ran.status, ran.files["b"]), (0, EMPTY_BOOK))

    def test_a_book_that_is_added_to_loses_nothing(self):
        for words in [["--add"], ["--add", "--replace"]]:
            files = {"d": document(), "a": "[]", "b": BOOK}
            ran = run(["drive", *words, "d", "a", "2", "b"], files)
            self.assertEqual((ran.status, ran.files["b"]), (0, BOOK))

    def test_an_input_that_is_too_long_is_counted_and_not_noted(self):
        key = "k" * 1025
        report = answer(key, "blue") + "inputs 0\ncalls 0\nnews 0\nfull 0\nlong 1\n"
        self.assert_driven("1", f"[{ask(key)}]", report, EMPTY_BOOK)
        self.assert_driven("2", f"[{LOST},\n{ask(key)}]", NOT_FOUND + report, EMPTY_BOOK)

    def test_the_counts_as_an_object(self):
        """Then each line is a JSON text; the resolutions, the book, and what a person is told stay."""
        files = {"d": document(), "a": ASKS}
        plain = run(["drive", "d", "a", "2", "b"], files)
        report = "".join(answer(key, variant) for key, variant in KEYS * 3) + COUNTED
        ran = self.assert_ends(["drive", "--json", "d", "a", "2", "b"], files, 0, report)
        self.assertEqual((ran.err, ran.files), (plain.err, plain.files))
        for line in ran.out.splitlines():
            self.assertEqual(compact(json.loads(line)), line)

    def test_a_member_that_is_not_read(self):
        """The answers and the book stay; the first such member is told, before what the asks ended in."""
        for places, name, meant in [
            ([1], "moments", '"moment"'),
            ([0, 6], "defualt", '"default"'),
            ([3, 4, 5], "user", None),
        ]:
            with self.subTest(places=places):
                asks = [ask(key) for key, _ in KEYS]
                plain = run(["drive", "d", "a", "2", "b"], {"d": document(), "a": f"[{','.join(asks)}]"})
                for place in places:
                    asks[place] = f'{asks[place][:-1]},"{name}":null}}'
                ran = run(["drive", "d", "a", "2", "b"], {"d": document(), "a": f"[{','.join(asks)}]"})
                self.assertEqual((ran.status, ran.out, ran.files["b"]), (0, plain.out, plain.files["b"]))
                count = "1 ask" if len(places) == 1 else f"{len(places)} asks"
                perhaps = "" if meant is None else f"; perhaps {meant} is meant"
                note = f'note: "a": {count} with a member that is not read\n  "{name}" in ask {places[0] + 1}{perhaps}\n'
                self.assertEqual(ran.err, note + plain.err)

    def test_what_is_doubted_is_refused(self):
        """The book stays as it was, or is none; each refusal of the files, the asks and the workers comes first."""
        unread = ask("test")[:-1] + ',"moments":0}'
        told = 'note: "a": 1 ask with a member that is not read\n  "moments" in ask 1; perhaps "moment" is meant\n'
        unrecorded = 'note: "a": 1 ask, FLAG_NOT_FOUND 1\n' + NOTHING
        for asks, workers, refusal, note in [
            (f"[{unread}]", "1", "drive 16 Unread", told),
            (f"[{unread},{ask('')}]", "8", "drive 16 Unread", told),
            (f"[{LOST[:-1]},\"moments\":0}}]", "2", "drive 16 Unread", told),
            (f"[{LOST}]", "2", "drive 17 Unrecorded", unrecorded),
            ("[]", "2", "drive 17 Unrecorded", 'note: "a": 0 asks\n' + NOTHING),
            (f"[{unread}]", "0", "drive 1 NoWorkers", None),
            (f"[{unread}]", "65", "drive 2 TooManyWorkers", None),
            (f"[{unread},{{}}]", "0", "drive 5 BadAsks", None),
            ('{"moments":0}', "1", "drive 5 BadAsks", None),
        ]:
            for words, book in [([], None), ([], BOOK), (["--add"], BOOK), (["--add"], EMPTY_BOOK)]:
                with self.subTest(asks=asks, workers=workers, words=words, book=book):
                    files = {"d": document(), "a": asks, **({} if book is None else {"b": book})}
                    ran = run(["drive", "--strict", *words, "d", "a", workers, "b"], files)
                    self.assertEqual((ran.status, ran.out, ran.files), (1, f"refused {refusal}\n", files))
                    if note is not None:
                        self.assertEqual(ran.err, note)

    def test_the_files_are_refused_before_a_doubt(self):
        unread = f"[{LOST[:-1]},\"moments\":0}}]"
        for files, refusal in [
            ({"a": unread, "b": BOOK}, "load 1 Unreadable"),
            ({"d": document(), "a": unread, "b": document()}, "read_book 1 Header"),
        ]:
            ran = self.assert_ends(["drive", "--strict", "d", "a", "2", "b"], files, 1, f"refused {refusal}\n")
            self.assertEqual(ran.files, files)

    def test_asks_without_a_doubt(self):
        files = {"d": document(), "a": ASKS}
        for words in [[], ["--json"]]:
            plain = run(["drive", *words, "d", "a", "2", "b"], files)
            self.assertEqual(run(["drive", "--strict", *words, "d", "a", "2", "b"], files), plain)
            self.assertEqual(plain.status, 0)

    def assert_cheap(self, files, counts, pages):
        """The asks are driven cheaply, with these counts, and the book has these pages of one input. 200000 notes that each wrote a
        bucketing expression of 4000 nodes anew would write 800 million."""
        ran = run(["drive", "d", "a", "2", "b"], files, preexec_fn=cheap)
        self.assertEqual((ran.status, ran.out.splitlines()[-5:]), (0, counts))
        lines = [f'{{"by":{compact(by)},"flag":"f","site":{number}}}\n"u"' for number, by in enumerate(pages)]
        self.assertEqual(ran.files["b"].splitlines(), "\n".join(['{"book":1}', *lines]).splitlines())

    def test_asks_that_reach_thousands_of_sites(self):
        sites = [site({"cat": ["u"]}) for _ in range(1400)]
        files = driven({"merge": [tree for tree, _ in sites]}, {}, 100)
        counts = ["inputs 1400", "calls 140000", "news 1400", "full 0", "long 0"]
        self.assert_cheap(files, counts, [by for _, by in sites])

    def test_an_ask_that_goes_to_and_fro_between_two_sites(self):
        """The sites have bucketing expressions of thousands of nodes, which are not evaluated."""
        sites = [site({"if": [True, "u", [place] * 4000]}) for place in range(2)]
        targeting = {"map": [{"var": ["items"]}, {"merge": [tree for tree, _ in sites]}]}
        files = driven(targeting, {"items": [0] * 5000}, 20)
        counts = ["inputs 2", "calls 200000", "news 2", "full 0", "long 0"]
        self.assert_cheap(files, counts, [by for _, by in sites])


if __name__ == "__main__":
    unittest.main()
