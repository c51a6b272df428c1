"""Books: what `drive` notes and writes, what is read of a book file or refused, and what `book` makes of books and note lines."""
import json
import random
import resource
import subprocess
import unittest

from given import BOOK, EMPTY_BOOK, FREE, document
from program import ProgramTest, run

# Inputs, and whether each is new.
NOTES = [
    ("test", True),
    ("!C", True),
    ("test", False),
    ("", True),
    ("!", True),
    ("Hello, world!", True),
    ("!Ce", True),
    ("The quick brown fox jumps over the lazy dog", True),
    ("", False),
]

# What stands below the first line of a book file, and its fault.
LINES = [
    ("", None),
    ('"a"\n', "2 Line 2"),
    ('{"by":null,"flag":"","site":4294967295,"more":0}\n"a"\n', None),
    ('{"site":0,"flag":"","by":null} \n"b"\n"c"\n', None),
    ('{"by":null,"flag":"","site":4294967296}\n"a"\n', "2 Line 2"),
    ('{"by":null,"flag":"","site":-1}\n"a"\n', "2 Line 2"),
    ('{"by":0,"flag":"","site":0}\n"a"\n', "2 Line 2"),
    ('{"flag":"","site":0}\n"a"\n', "2 Line 2"),
    ('{"by":null,"flag":"","site":0}\n"a"\n"a"\n', "3 Order 4"),
    ('{"by":null,"flag":"","site":0}\n"b"\n"a"\n', "3 Order 4"),
    ('{"by":null,"flag":"","site":0}\n"a"\n7\n', "2 Line 4"),
    ('{"by":null,"flag":"","site":0}\n\n', "2 Line 3"),
    ('{"by":null,"flag":"","site":1}\n"a"\n{"by":"","flag":"","site":0}\n"a"\n', "3 Order 4"),
    ('{"by":null,"flag":"","site":1}\n"a"\n{"by":"","flag":"","site":0}\n', "2 Line 4"),
    ('{"by":null,"flag":"","site":1}\n"a"\n{"by":"","flag":"","site":0}\n7\n', "3 Order 4"),
    ('{"by":null,"flag":"","site":1}\n"a"\n{"by":"","flag":"","site":1}\n"a"', "2 Line 5"),
    ('{"by":null,"flag":"","site":0}\n"' + "a" * 1024 + '"\n', None),
    ('{"by":null,"flag":"","site":0}\n"' + "a" * 1025 + '"\n', "4 InputTooLong 3"),
]

# A book file, and its fault.
FIRST_LINES = [
    (' { "book" : 1 } \n', None),
    ('{"book":1,"more":0}\n', "1 Header"),
    ('{"book":2}\n', "1 Header"),
    ('{"book":1.0}\n', "1 Header"),
    ("\n", "1 Header"),
]

# The most inputs of a page.
MOST = 1_000_000

# An evaluation of this flag reaches 100 inputs for each text of the context's list: the text, and one of 100 more behind it.
# So many pass within its units.
MANY = {
    "map": [
        {"var": "l"},
        {
            "reduce": [
                [f"{number:02}" for number in range(100)],
                {
                    "if": [
                        {"fractional": [{"cat": [{"var": "accumulator"}, {"var": "current"}]}, ["on"]]},
                        {"var": "accumulator"},
                        {"var": "accumulator"},
                    ]
                },
                {"var": ""},
            ]
        },
    ]
}


def asks_of(key, contexts):
    """An ask of a flag for each context."""
    return json.dumps([{"key": key, "want": "text", "default": "d", "context": at, "moment": 0} for at in contexts])


def cut_at(taken):
    """The fault of the book that is cut behind so many characters. A page needs an input, and each line its line feed."""
    line = BOOK[:taken].count("\n") + 1
    if taken < len(EMPTY_BOOK) - 1:
        return "1 Header"
    if BOOK[taken - 1] != "\n":
        return f"2 Line {line}"
    return "2 Line 2" if line == 3 else None


class Books(ProgramTest):
    def driven(self, document_text, asks):
        """What one worker is counted to have noted, and the book."""
        ran = run(["drive", "d", "a", "1", "b"], {"d": document_text, "a": asks})
        self.assertEqual(ran.status, 0, ran.out[:200])
        return ran.out.splitlines()[-5:], ran.files["b"]

    def assert_driven(self, document_text, asks, counts):
        """It has counted so many inputs, calls, new ones, and refusals of a full page and of long inputs."""
        told, book = self.driven(document_text, asks)
        names = ["inputs", "calls", "news", "full", "long"]
        self.assertEqual(told, [f"{name} {count}" for name, count in zip(names, counts)])
        return book

    def test_notes(self):
        """Each input of the rows is noted behind those before it."""
        news = 0
        for taken in range(len(NOTES) + 1):
            with self.subTest(taken=taken):
                news += taken > 0 and NOTES[taken - 1][1]
                asks = asks_of("color", [{"key": key} for key, _ in NOTES[:taken]])
                book = self.assert_driven(document(), asks, [news, taken, news, 0, 0])
                if taken in (0, len(NOTES)):
                    self.assertEqual(book, BOOK if taken else EMPTY_BOOK)

    def test_inputs_are_printed_as_json(self):
        asks = asks_of("color", [{"key": 'a"b\né'}, {"key": ""}, {"key": "a" * 1024}])
        lines = '""\n' + r'"a\"b\né"' + '\n"' + "a" * 1024 + '"\n'
        page = BOOK[: BOOK.index('""\n')]
        self.assertEqual(self.driven(document(), asks)[1], page + lines)

    def test_a_page_has_1000000_inputs(self):
        """Behind them a new input is refused, and one that was noted is not."""
        prefixes = [[f"{ask * 50 + number:04}" for number in range(50)] for ask in range(200)]
        text = json.dumps({"flags": {"f": {"state": "ENABLED", "variants": {"on": 1}, "targeting": MANY}}})
        full = [MOST, MOST + 100, MOST, 100, 0]
        asks = asks_of("f", [{"l": texts} for texts in [*prefixes, ["new"], ["0000"]]])
        book = self.assert_driven(text, asks, full)
        self.assertEqual((book.count("\n"), '"999999"\n' in book), (MOST + 2, True))

    def assert_read(self, book, fault):
        """A book has this fault, or it is read, and then the request is refused."""
        files = {"d": document(), "r": "{}", "b": book, "p": FREE}
        refusal = f"read_book {fault}" if fault else "verify 1 Request 1 BadRequest"
        self.assert_ends(["verify", "d", "r", "b", "p"], files, 1, f"refused {refusal}\n")

    def test_lines(self):
        for below, fault in LINES:
            with self.subTest(below=below):
                self.assert_read(EMPTY_BOOK + below, fault)

    def test_first_lines(self):
        for text, fault in FIRST_LINES:
            with self.subTest(text=text):
                self.assert_read(text, fault)

    def test_exchanged_lines(self):
        lines = BOOK.splitlines(keepends=True)
        self.assert_read("".join([*lines[:-2], lines[-1], lines[-2]]), "3 Order 9")

    def test_a_book_that_is_cut(self):
        for taken in range(len(BOOK)):
            with self.subTest(taken=taken):
                self.assert_read(BOOK[:taken], cut_at(taken))

    def test_a_file_has_1000000_inputs_on_a_page(self):
        book = EMPTY_BOOK + '{"by":null,"flag":"","site":0}\n'
        book += "".join(f'"{number:07}"\n' for number in range(MOST))
        self.assert_read(book, None)
        self.assert_read(book + '"1000000"\n', f"5 PageFull {MOST + 3}")


def book_of(pages):
    """A book of pages by their flags, each with inputs in order."""
    lines = ['{"book":1}']
    for flag, inputs in sorted(pages.items()):
        lines.append(f'{{"by":null,"flag":"{flag}","site":0}}')
        lines += [f'"{text}"' for text in sorted(inputs)]
    return "".join(line + "\n" for line in lines)


class Unions(ProgramTest):
    def test_one_book_of_several(self):
        one, other = {"a": {"x", "z"}, "c": {"k"}}, {"a": {"y", "z"}, "b": {"k"}}
        both = book_of({"a": {"x", "y", "z"}, "b": {"k"}, "c": {"k"}})
        files = {"e": EMPTY_BOOK, "one": book_of(one), "other": book_of(other)}
        for words, inputs, book in [
            (["e"], 0, EMPTY_BOOK),
            (["one"], 3, book_of(one)),
            (["one", "other"], 5, both),
            (["other", "e", "one", "other"], 5, both),
            (["one", "--", "other"], 5, both),
        ]:
            with self.subTest(words=words):
                count = len([word for word in words if word != "--"])
                ran = self.assert_ends(["book", "o", *words], files, 0, f"inputs {inputs}\nfiles {count}\n")
                self.assertEqual(ran.files, {**files, "o": book})

    def test_a_book_that_is_read_may_be_written(self):
        files = {"one": book_of({"a": {"x"}}), "other": book_of({"a": {"y"}})}
        ran = self.assert_ends(["book", "one", "one", "other"], files, 0, "inputs 2\nfiles 2\n")
        self.assertEqual(ran.files, {**files, "one": book_of({"a": {"x", "y"}})})

    def test_a_refusal_changes_no_file(self):
        files = {"one": book_of({"a": {"x"}}), "bad": '{"book":1}\n"x"\n', "o": book_of({"z": {"z"}})}
        for out, words, refusal in [
            ("o", ["none", "bad"], "load 1 Unreadable"),
            ("o", ["one", "bad", "none"], "read_book 2 Line 2"),
            ("o", ["one", "none"], "load 1 Unreadable"),
            ("nowhere/o", ["one"], "store 1 Unwritable"),
        ]:
            with self.subTest(words=words):
                ran = self.assert_ends(["book", out, *words], files, 1, f"refused {refusal}\n")
                self.assertEqual(ran.files, files)

    def test_what_is_no_book_is_not_written_over(self):
        """By its first line, and before a file is read: it stays."""
        for text, fault in [
            (document(), "1 Header"),
            (note(), "1 Header"),
            ("\n" + EMPTY_BOOK, "1 Header"),
            ("\ufeff" + EMPTY_BOOK, "1 Header"),
            (EMPTY_BOOK[:-1], "2 Line 1"),
            (EMPTY_BOOK, None),
            ("", None),
        ]:
            with self.subTest(text=text[:40]):
                files = {"one": book_of({"a": {"x"}}), "o": text}
                if fault:
                    for words in (["one"], ["one", "none"], ["o"]):
                        ran = self.assert_ends(["book", "o", *words], files, 1, f"refused read_book {fault}\n")
                        self.assertEqual(ran.files, files)
                        self.assertTrue(ran.err.startswith('error: "o" is a file that is not a book, and stays as it is'), ran.err)
                else:
                    ran = self.assert_ends(["book", "o", "one"], files, 0, "inputs 1\nfiles 1\n")
                    self.assertEqual(ran.files, {**files, "o": files["one"]})

    def test_a_book_that_would_lose_inputs_stays(self):
        """It is said how many; with `--replace` the book of the files is written, as where nothing is lost."""
        one, other = {"a": {"x", "z"}, "c": {"k"}}, {"a": {"y", "z"}, "b": {"k"}}
        both = {"a": {"x", "y", "z"}, "b": {"k"}, "c": {"k"}}
        notes = "".join(note(flag, text) for flag, texts in one.items() for text in sorted(texts))
        for before, words, lost in [
            (one, ["one"], 0),
            (one, ["one", "other"], 0),
            (one, ["notes"], 0),
            ({}, ["one"], 0),
            (both, ["one", "other"], 0),
            (both, ["one"], 2),
            (both, ["notes"], 2),
            (both, ["other"], 2),
            (other, ["one"], 2),
            ({"a": {"w"}, **{key: {"k"} for key in "bcd"}}, ["other"], 3),
            ({"a": {"k"}}, ["one"], 1),
        ]:
            with self.subTest(before=before, words=words):
                files = {"one": book_of(one), "other": book_of(other), "notes": notes}
                fresh = run(["book", "o", *words], files)
                self.assertEqual(fresh.status, 0)
                ran = run(["book", "o", *words], {**files, "o": book_of(before)})
                if lost:
                    told = f'error: "o" has {lost} input{"" if lost == 1 else "s"} that the new book lacks, so it stays\n'
                    refusal = (1, f"refused book 3 WouldLose {lost}\n", {**files, "o": book_of(before)})
                    self.assertEqual((ran.status, ran.out, ran.files), refusal)
                    self.assertEqual(ran.err, told + "  keep them by naming it among the files, or give them up with --replace\n")
                else:
                    self.assertEqual(ran, fresh)
                self.assertEqual(run(["book", "--replace", "o", *words], {**files, "o": book_of(before)}), fresh)

    def test_a_faulty_book_is_not_written_over(self):
        """Unless with `--replace`; a file that is read is refused before it."""
        one = book_of({"a": {"x"}})
        for text, fault in [(EMPTY_BOOK + "x", "2 Line 2"), (EMPTY_BOOK + '"x"\n', "2 Line 2"), (one + '"a"\n', "3 Order 4")]:
            with self.subTest(text=text):
                files = {"one": one, "o": text}
                ran = self.assert_ends(["book", "o", "one"], files, 1, f"refused read_book {fault}\n")
                self.assertEqual(ran.files, files)
                self.assert_ends(["book", "o", "none"], files, 1, "refused load 1 Unreadable\n")
                ran = self.assert_ends(["book", "--replace", "o", "one"], files, 0, "inputs 1\nfiles 1\n")
                self.assertEqual(ran.files, {**files, "o": one})

    def test_a_page_that_is_too_small_for_all(self):
        front = '{"book":1}\n{"by":"{\\"var\\":[\\"key\\"]}","flag":"color","site":0}\n'
        full = front + "".join(f'"{number:06}"\n' for number in range(MOST))
        more = front + '"n"\n'
        files = {"d": document(), "a": asks_of("color", [{"key": "n"}]), "full": full, "more": more, "o": EMPTY_BOOK}
        for words, refusal, named in [
            (["book", "o", "full", "more"], "book 2 PageFull", '"more"'),
            (["book", "o", "more", "full"], "book 2 PageFull", '"full"'),
            (["drive", "--add", "d", "a", "1", "full"], "drive 6 PageFull", '"full"'),
        ]:
            with self.subTest(words=words):
                ran = self.assert_ends(words, files, 1, f"refused {refusal}\n")
                self.assertEqual(ran.files, files)
                self.assertIn(f"error: {named}", ran.err)


COMPACT = json.JSONEncoder(separators=(",", ":"), ensure_ascii=False)


def note(flag="a", text="x", site=0, by=None):
    """A note line."""
    return COMPACT.encode([flag, site, by, text]) + "\n"


# Lines that are those of no note, and are not blank.
STRAYS = [
    "x\n",
    "[]\n",
    '["a",0,null]\n',
    '["a",0,null,"x",0]\n',
    '["a",0,null,5]\n',
    '["a",0,5,"x"]\n',
    '[5,0,null,"x"]\n',
    '["a",-1,null,"x"]\n',
    '["a",4294967296,null,"x"]\n',
    '["a",0.0,null,"x"]\n',
    '["a", 0,null,"x"]\n',
    ' ["a",0,null,"x"]\n',
    '["a",0,null,"x"] \n',
    '["a",0,null,"x"]\r\n',
    '["a",0,null,"\\u0078"]\n',
    '["a",0,null,"x\n',
    '"x"\n',
    note(text="x" * 1025),
]

# White space alone.
BLANKS = ["\n", " \n", "\t \r\n"]


class Notes(ProgramTest):
    def assert_booked(self, words, files, inputs, book):
        """A book is written, and nothing else is; what is told is given."""
        count = len([word for word in words if not word.startswith("--")])
        ran = self.assert_ends(["book", "o", *words], files, 0, f"inputs {inputs}\nfiles {count}\n")
        self.assertEqual(ran.files, {**files, "o": book})
        return ran.err

    def test_books_and_note_lines(self):
        files = {
            "one": note("a", "z") + note("a", "x") + note("a", "z"),
            "other": note("b", "k") + note("a", "y"),
            "book": book_of({"a": {"x", "w"}, "c": {"k"}}),
            "empty": "",
        }
        for words, inputs, pages in [
            (["empty"], 0, {}),
            (["one"], 2, {"a": "xz"}),
            (["one", "other"], 4, {"a": "xyz", "b": "k"}),
            (["other", "empty", "book", "one", "one"], 6, {"a": "wxyz", "b": "k", "c": "k"}),
            (["book", "--torn", "one"], 4, {"a": "wxz", "c": "k"}),
        ]:
            with self.subTest(words=words):
                self.assertEqual(self.assert_booked(words, files, inputs, book_of(pages)), "")

    def test_a_page_is_its_flag_site_and_expression(self):
        lines = [note(text="1", site=1), note(text="2", by="b"), note(text="3"), note(text="4", by=""), note("", "5")]
        book = EMPTY_BOOK + "".join(
            f'{{"by":{by},"flag":"{flag}","site":{site}}}\n"{text}"\n'
            for flag, site, by, text in [("", 0, "null", 5), ("a", 0, "null", 3), ("a", 0, '""', 4), ("a", 0, '"b"', 2), ("a", 1, "null", 1)]
        )
        self.assert_booked(["n"], {"n": "".join(lines)}, 5, book)

    def test_inputs_of_every_spelling(self):
        texts = ["", "x" * 1024, 'a"b\né', "\u0000\u001f\u007f", "\U0001f600", "\\/"]
        ran = run(["book", "o", "n"], {"n": "".join(note("f", text) for text in texts)})
        self.assertEqual((ran.status, ran.err, ran.out), (0, "", f"inputs {len(texts)}\nfiles 1\n"))
        lines = ran.files["o"].splitlines()[2:]
        self.assertEqual([json.loads(line) for line in lines], sorted(texts, key=str.encode))

    def test_a_line_that_is_no_note(self):
        """It is refused by the number among all lines, and the file stays; or passed over, and told."""
        for stray in STRAYS:
            for before in (0, 1, 2):
                with self.subTest(stray=stray[:40], before=before):
                    lines = "".join([note(text="a"), "\n"][:before]) + stray + note(text="b")
                    files = {"g": note(text="c"), "n": lines, "o": EMPTY_BOOK}
                    ran = self.assert_ends(["book", "o", "g", "n"], files, 1, f'refused book 1 Line "n" {before + 1}\n')
                    self.assertEqual(ran.files, files)
                    self.assertTrue(ran.err.startswith(f'error: "n": line {before + 1} '), ran.err)
                    kept = {"a": {"b", "c", *("a" if before else "")}}
                    told = self.assert_booked(["--torn", "g", "n"], files, len(kept["a"]), book_of(kept))
                    self.assertTrue(told.startswith('note: "n": ') and " 1" in told, told)

    def test_blank_lines(self):
        lines = "".join(BLANKS) + note() + "".join(BLANKS)
        for words in (["n"], ["--torn", "n"]):
            self.assertEqual(self.assert_booked(words, {"n": lines}, 1, book_of({"a": "x"})), "")

    def test_a_byte_order_mark_is_told(self):
        for text in (note(), EMPTY_BOOK):
            ran = self.assert_ends(["book", "o", "n"], {"n": "\ufeff" + text}, 1, 'refused book 1 Line "n" 1\n')
            self.assertTrue(ran.err.startswith('error: "n": line 1 is not a note, as the file begins with a byte order mark'), ran.err)

    def test_a_last_line_without_its_end(self):
        whole = note(text="a") + note(text="b")
        for taken in range(len(whole)):
            with self.subTest(taken=taken):
                cut = whole[:taken]
                texts = "ab"[: cut.count("\n")]
                pages = {"a": texts} if texts else {}
                for words in (["n"], ["--torn", "n"]):
                    told = self.assert_booked(words, {"n": cut}, len(texts), book_of(pages))
                    self.assertEqual(told != "", cut != "" and not cut.endswith("\n"), told)
                    self.assertTrue(told == "" or told.startswith('note: "n": the last line has no line feed'), told)

    def test_lines_without_end(self):
        """Reading ends with the piece of 16,777,216 bytes in whose beginning a line is no note."""
        few = {"preexec_fn": lambda: resource.setrlimit(resource.RLIMIT_AS, (10**9, 10**9))}
        notes = """yes '["a",0,null,"k"]' | head -n 1000000; """
        for written, line in (("", 1), (notes, 1_000_001)):
            with self.subTest(line=line), subprocess.Popen(["sh", "-c", f"{written}yes '[1]'"], stdout=subprocess.PIPE) as writer:
                ran = run(["book", "b", "-"], {}, stdin=writer.stdout, **few)
                writer.stdout.close()
                self.assertEqual((ran.status, ran.out), (1, f'refused book 1 Line "-" {line}\n'))

    def test_each_file_is_told_of(self):
        files = {"one": "x\n" + note() + "y\n", "two": note(), "three": note(text="z") + "[", "four": "x\n["}
        told = self.assert_booked(["--torn", *files], files, 2, book_of({"a": "xz"}))
        self.assertEqual([line.split(":")[1] for line in told.splitlines()], [' "one"', ' "three"', ' "four"'])
        self.assertIn(": 2\n", told)

    def test_a_file_is_a_book_where_it_begins_as_one(self):
        for text, report in [
            (' \t\r{"book":1}\n', "inputs 0\nfiles 1\n"),
            ("{\n", "refused read_book 1 Header\n"),
            ('\n{"book":1}\n', "refused read_book 1 Header\n"),
            ('{"tally":1}\n', "refused read_book 1 Header\n"),
            ("\n[\n", 'refused book 1 Line "n" 2\n'),
            ("text\n", 'refused book 1 Line "n" 1\n'),
        ]:
            with self.subTest(text=text):
                self.assert_ends(["book", "o", "n"], {"n": text}, int("refused" in report), report)

    def test_the_first_file_at_fault_refuses(self):
        files = {"n": note(), "stray": note() + "x\n", "bad": "{}\n"}
        for words, refusal in [
            (["n", "stray", "none"], 'book 1 Line "stray" 2'),
            (["none", "stray"], "load 1 Unreadable"),
            (["bad", "stray"], "read_book 1 Header"),
            (["--torn", "stray", "bad"], "read_book 1 Header"),
        ]:
            with self.subTest(words=words):
                self.assert_ends(["book", "o", *words], files, 1, f"refused {refusal}\n")
        ran = run(["book", "nowhere/o", "n"], files)
        self.assertEqual((ran.status, ran.out), (1, "refused store 1 Unwritable\n"))

    def test_a_page_takes_1000000_notes(self):
        full = "".join(note(text=f"{number:07}") for number in range(MOST))
        pages = book_of({"a": {f"{number:07}" for number in range(MOST)}})
        files = {"full": full, "one": note(), "again": note(text="0000007"), "book": book_of({"a": {"x"}})}
        self.assert_booked(["full", "again"], files, MOST, pages)
        for words, named in [(["full", "one"], "one"), (["full", "book"], "book"), (["one", "full"], "full"), (["book", "full"], "full")]:
            with self.subTest(words=words):
                ran = self.assert_ends(["book", "o", *words], files, 1, "refused book 2 PageFull\n")
                self.assertEqual(ran.files, files)
                self.assertIn(f'error: "{named}"', ran.err)
        self.assert_ends(["book", "o", "n"], {"n": full + note() + "x\n"}, 1, "refused book 2 PageFull\n")
        self.assert_ends(["book", "o", "n"], {"n": full + "x\n" + note()}, 1, f'refused book 1 Line "n" {MOST + 1}\n')

    def test_drawn_files(self):
        """The book has what a set of the tests' own has, of 200 drawn lists of files."""
        draw = random.Random(40)
        for turn in range(200):
            with self.subTest(turn=turn):
                files, seen, passed = {}, {}, 0
                for number in range(draw.randint(1, 5)):
                    pairs = [(draw.choice("abc"), draw.choice("kxyz") * draw.randint(0, 3)) for _ in range(draw.randint(0, 12))]
                    if pairs and draw.random() < 0.3:
                        pages = {}
                        for flag, text in pairs:
                            pages.setdefault(flag, set()).add(text)
                        files[f"f{number}"] = book_of(pages)
                    else:
                        lines = [note(flag, text) for flag, text in pairs]
                        for stray in draw.sample(STRAYS, draw.randint(0, 2)):
                            lines.insert(draw.randint(0, len(lines)), stray)
                            passed += 1
                        files[f"f{number}"] = "".join(lines)
                    for flag, text in pairs:
                        seen.setdefault(flag, set()).add(text)
                count = sum(map(len, seen.values()))
                told = self.assert_booked(["--torn", *files], files, count, book_of(seen))
                self.assertEqual(told != "", passed > 0, told)


if __name__ == "__main__":
    unittest.main()
