"""Files that are no book, cannot be read or take no more bytes, and asks that record nothing: what a person is told."""
import os
import subprocess
import tempfile
import unittest

from given import BOOK, EMPTY_BOOK, document
from program import PROGRAM, SECONDS, ProgramTest, cheap, run

REQUEST = '{"plan":1,"flag":"color","totals":{"red":10}}'

# A file that is given as a book, and what is told of it.
NO_BOOKS = [
    ("", '"f" is empty, which is not a book'),
    ("\ufeff" + BOOK, '"f" begins with a byte order mark, so it is not a book'),
    (BOOK[:-1], "its last line has no line feed"),
    (document(), "a book begins with the line"),
]

# First lines of a book, written in other ways than the program writes them; some are longer than the 4,096 bytes by which a file
# is judged.
FIRST_LINES = [
    ' {"book":1}',
    '\t{ "book" : 1 }\r',
    '{"\\u0062ook":1}',
    '{"book":2,"book":1}',
    '{"book":1' + " " * 5000 + "}",
    " " * 5000 + '{"book":1}',
]

# First lines of no book: by their first bytes, and only behind those.
OTHER_LINES = ["", "x", '["book",1]', '{"nook":1}', '{"book":2}', '{"book":1,"by":1}', "{" + " " * 5000 + '"cook":1}']

# As many bytes as are read of a file that begins as neither a book nor note lines.
PIECE = 1 << 24

# The words with a file `f` that is not there.
ABSENT = [
    ["check", "f"],
    ["bucket", "f", "key"],
    ["plan", "d", "r", "f"],
]


def long_book(first):
    """A book of more than 4,096 bytes, with this first line."""
    page = BOOK.split("\n")[1]
    return "\n".join([first, page, *(f'"{number:05}"' for number in range(1000)), ""])


def ask(key):
    """An ask for a flag."""
    return f'{{"key":"{key}","want":"text","default":"d","context":{{"key":"ann"}},"moment":0}}'


def asks(keys):
    """The asks for these flags."""
    return "[" + ",".join(ask(key) for key in keys) + "]"


class Troubles(ProgramTest):
    def test_the_system_says_why(self):
        for words in ABSENT:
            with self.subTest(words=words):
                ran = self.assert_ends(words, {"d": document(), "r": REQUEST}, 1, "refused load 1 Unreadable\n")
                self.assertIn('error: the file "f" cannot be read: No such file or directory', ran.err)

    def test_a_full_disk_is_named(self):
        files = {"d": document(), "a": "[]"}
        ran = self.assert_ends(["drive", "d", "a", "1", "/dev/full"], files, 1, "refused store 1 Unwritable\n")
        self.assertIn('"/dev/full" cannot be written: No space left on device', ran.err)

    def test_a_file_that_is_no_book(self):
        for text, told in NO_BOOKS:
            with self.subTest(text=text):
                ran = run(["plan", "d", "r", "f"], {"d": document(), "r": REQUEST, "f": text})
                self.assertEqual(ran.status, 1)
                self.assertIn("refused read_book ", ran.out)
                self.assertIn(told, ran.err)

    def test_a_book_may_begin_in_other_ways(self):
        """A long book is judged by its first bytes: it is planned on as the one that the program writes."""
        plain = run(["plan", "d", "r", "f"], {"d": document(), "r": REQUEST, "f": long_book('{"book":1}')})
        self.assertEqual(plain.status, 0)
        for first in FIRST_LINES:
            with self.subTest(first=first[:20]):
                ran = run(["plan", "d", "r", "f"], {"d": document(), "r": REQUEST, "f": long_book(first)})
                self.assertEqual((ran.status, ran.out), (0, plain.out))

    def test_what_begins_as_no_book_is_refused_for_its_first_line(self):
        for first in OTHER_LINES:
            with self.subTest(first=first[:20]):
                files = {"d": document(), "r": REQUEST, "f": long_book(first)}
                self.assert_ends(["plan", "d", "r", "f"], files, 1, "refused read_book 1 Header\n")

    def test_a_device_is_judged_by_what_it_begins_with(self):
        for device in ["/dev/zero", "/dev/urandom"]:
            with self.subTest(device=device):
                files = {"d": document(), "r": REQUEST}
                self.assert_ends(["plan", "d", "r", device], files, 1, "refused read_book 1 Header\n", preexec_fn=cheap)

    def test_book_reads_no_file_without_end(self):
        for torn in [[], ["--torn"]]:
            with self.subTest(torn=torn):
                self.assert_ends(["book", *torn, "b", "/dev/zero"], {}, 1, 'refused book 1 Line "/dev/zero" 1\n', preexec_fn=cheap)
        with subprocess.Popen(["yes"], stdout=subprocess.PIPE) as endless:
            ran = run(["book", "b", "-"], {}, stdin=endless.stdout, preexec_fn=cheap)
            endless.stdout.close()
        self.assertEqual((ran.status, ran.out), (1, 'refused book 1 Line "-" 1\n'))

    def test_bytes_without_a_line_are_one_that_is_torn_or_too_long(self):
        for torn in [[], ["--torn"]]:
            for size, status, report in [(PIECE - 1, 0, "inputs 0\nfiles 1\n"), (PIECE, 1, 'refused book 1 Line "f" 1\n')]:
                with self.subTest(torn=torn, size=size):
                    self.assert_ends(["book", *torn, "b", "f"], {"f": "x" * size}, status, report)

    def test_a_long_file_that_begins_otherwise_is_refused_for_its_first_line(self):
        for first, report in [(" \n\nx\n", 'book 1 Line "f" 3'), ('{"x":1}\n', "read_book 1 Header"), ("\n{}\n", "read_book 1 Header")]:
            with self.subTest(first=first):
                self.assert_ends(["book", "b", "f"], {"f": first + "x" * PIECE}, 1, f"refused {report}\n")

    def test_a_long_file_of_notes_is_read_whole(self):
        """From a file and through a pipe, behind blank lines, and past lines that are none."""
        notes = "\n" * 100 + "".join(f'["f",0,null,"{number:01000}"]\n' for number in range(20_000))
        plain = run(["book", "b", "f"], {"f": notes})
        self.assertEqual((plain.status, plain.out), (0, "inputs 20000\nfiles 1\n"))
        for words, text in [(["book", "b", "-"], notes), (["book", "--torn", "b", "-"], "x\n" + notes)]:
            ran = run(words, {}, input=text)
            self.assertEqual((ran.status, ran.out, ran.files["b"]), (0, plain.out, plain.files["b"]))

    def test_a_book_comes_through_a_pipe(self):
        """It is opened once: what was judged is not lost."""
        with tempfile.TemporaryDirectory() as folder:
            for name, text in {"d": document(), "r": REQUEST}.items():
                with open(os.path.join(folder, name), "w", encoding="utf-8") as file:
                    file.write(text)
            words = [PROGRAM, "plan", "d", "r", "/dev/stdin"]
            piped = subprocess.run(words, cwd=folder, input=BOOK.encode(), capture_output=True, timeout=SECONDS, check=False)
            plain = run(["plan", "d", "r", "b"], {"d": document(), "r": REQUEST, "b": BOOK})
            self.assertEqual((piped.returncode, piped.stdout.decode()), (plain.status, plain.out))


class Drives(ProgramTest):
    def test_a_file_that_is_no_book_is_not_written_over(self):
        for text in [document(), "x", BOOK[:5], '{"book":1}', '{"bananas":1}\n']:
            with self.subTest(text=text):
                ran = run(["drive", "d", "a", "1", "b"], {"d": document(), "a": asks(["color"]), "b": text})
                self.assertEqual(ran.status, 1)
                self.assertIn("refused read_book ", ran.out)
                self.assertIn('"b" is a file that is not a book, and stays as it is', ran.err)
                self.assertEqual(ran.files["b"], text)

    def test_a_book_and_an_empty_file_are(self):
        for words, text in [([], ""), ([], EMPTY_BOOK), (["--replace"], BOOK), (["--replace"], EMPTY_BOOK + "rest")]:
            with self.subTest(words=words, text=text):
                ran = run(["drive", *words, "d", "a", "1", "b"], {"d": document(), "a": "[]", "b": text})
                self.assertEqual((ran.status, ran.files["b"]), (0, EMPTY_BOOK))

    def test_what_the_asks_ended_in_is_told(self):
        for keys, told in [
            ([], ': 0 asks\n  they reached 0 inputs, 0 of them new; the book has 0\n'),
            (["color"], ": 1 ask, TARGETING_MATCH 1\n  they reached 1 input, 1 of them new; the book has 1\n"),
            (["colour"] * 3, ": 3 asks, FLAG_NOT_FOUND 3\n  they reached 0 inputs, 0 of them new; the book has 0\n"),
            (
                ["color", "colour", "color"],
                ": 3 asks, TARGETING_MATCH 2, FLAG_NOT_FOUND 1\n  they reached 1 input, 1 of them new; the book has 1\n",
            ),
        ]:
            with self.subTest(keys=keys):
                ran = run(["drive", "d", "a", "1", "b"], {"d": document(), "a": asks(keys)})
                self.assertEqual(ran.status, 0)
                self.assertTrue(ran.err.startswith('note: "a"' + told), ran.err)
                self.assertEqual("nothing was recorded" in ran.err, '"color"' not in asks(keys))

    def test_many_asks_for_each_input_are_told(self):
        """From twenty on: every context may lack what the bucketing expression reads."""
        for count, is_told in [(19, False), (20, True), (41, True)]:
            ran = run(["drive", "d", "a", "1", "b"], {"d": document(), "a": asks(["color"] * count)})
            self.assertEqual(ran.status, 0)
            self.assertEqual(f"  that is {count} asks for each input: " in ran.err, is_told, ran.err)

    def test_what_a_book_had_is_not_new(self):
        ran = run(["drive", "--add", "d", "a", "1", "b"], {"d": document(), "a": asks(["color"]), "b": BOOK})
        again = run(["drive", "--add", "d", "a", "1", "b"], {"d": document(), "a": asks(["color"]), "b": ran.files["b"]})
        self.assertIn("they reached 1 input, 1 of them new; the book has 8\n", ran.err)
        self.assertIn("they reached 1 input, 0 of them new; the book has 8\n", again.err)


if __name__ == "__main__":
    unittest.main()
