"""Words that ask for nothing, for help, and for the completion of a shell."""
import os
import pty
import re
import select
import shlex
import shutil
import subprocess
import tempfile
import unittest

from program import PROGRAM, ROOT, SECONDS, ProgramTest, run

# The words, and what is told beside the output.
MISTAKES = [
    ([], "Usage: flagops <COMMAND>"),
    (["buckets"], "unrecognized subcommand 'buckets'"),
    (["chek"], "a similar subcommand exists: 'check'"),
    (["verify-rmp"], "some similar subcommands exist: 'verify', 'verify-ramp'"),
    (["bucket"], "Usage: flagops bucket <RULE> <KEY>"),
    (["bucket", "f"], "<KEY>"),
    (["bucket", "f", "k", "l"], "unexpected argument 'l'"),
    (["bucket", "f", "-k"], "to pass '-k' as a value, use '-- -k'"),
    (["--verbose"], "unexpected argument '--verbose'"),
    (["completions"], "Usage: flagops completions <SHELL>"),
    (["completions", "csh"], "it is bash, fish or zsh"),
    (["apply", "d", "p", "f", "x"], "invalid value for '<SITE>': it is a number from 0 to 4294967295"),
    (["apply", "d", "p", "f", "4294967296"], "invalid value for '<SITE>'"),
    (["apply", "--write", "d", "p", "f", "0"], "'--write', '--refine <M>' and '--doubted' go with '--keep'"),
    (["apply", "--refine", "2", "d", "p", "f", "0"], "'--write', '--refine <M>' and '--doubted' go with '--keep'"),
    (["apply", "--doubted", "d", "p", "f", "0"], "'--write', '--refine <M>' and '--doubted' go with '--keep'"),
    (["apply", "--write", "d", "p", "r", "b"], "'--write', '--refine <M>' and '--doubted' go with '--keep'"),
    (["bucket", "--strict", "f", "k"], "unexpected argument '--strict'"),
    (["help", "plans"], "unrecognized subcommand 'plans'"),
    (["resolve", "d", "k", "number", "0", "c", "0"], "or flagd's boolean, string or integer"),
    (["apply", "--keep", "--refine", "0", "d", "p", "r", "b"], "invalid value '0' for '--refine <M>'"),
    (["apply", "--keep", "d", "p", "r"], "<SITE|BOOK>"),
    (["apply", "--keep=yes", "d", "p", "r", "b"], "unexpected value 'yes' for '--keep'"),
    (["drive", "--add", "d", "a", "x", "b"], "invalid value 'x' for '<WORKERS>'"),
    (["drive", "--keep", "d", "a", "1", "b"], "unexpected argument '--keep'"),
    (["book"], "Usage: flagops book <OUT> <FILE>..."),
    (["book", "o"], "<FILE>..."),
    (["ofrep", "--idle", "0", "d"], "invalid value '0' for '--idle <S>'"),
    (["ofrep", "--max-body", "4194305", "d"], "invalid value '4194305' for '--max-body <BYTES>'"),
]

# The words, and what is printed within.
HELP = [
    (["--help"], "Usage: flagops <COMMAND>"),
    (["-h"], "bucket"),
    (["bucket", "--help"], "Usage: flagops bucket [OPTIONS] <RULE> <KEY>"),
    (["help"], "Usage: flagops <COMMAND>"),
    (["help", "plan"], "--strict"),
    (["--version"], "flagops 0.1.0\nproved with "),
]

# All commands, in the order of the help.
COMMANDS = (
    "bucket price resolve plan verify apply drive completions check compare book ramp verify-ramp picture record tally join ofrep serve follow help"
).split()

# Forms of commands that an option makes, whose help is their own.
OTHER_FORMS = [["plan", "--picture", "f"], ["apply", "--step", "1"], ["apply", "--step", "1", "--keep"], ["picture", "--ramp"]]

# The files of the examples, and the commands in an order in which each finds the files that it reads.
FILES_OF_EXAMPLES = [
    ("rule.json", "rule.json"), ("price/old.json", "old.json"), ("price/new.json", "new.json"), ("price/keys.json", "keys.json"),
    ("flags/shop.json", "shop.json"), ("flags/shop.json", "edited.json"), ("flags/ann.json", "context.json"),
    ("rollout/request.json", "request.json"), ("rollout/book.txt", "book.txt"), ("rollout/book.txt", "logs/worker-1.log"),
    ("ramp/steps.json", "steps.json"), ("drive/asks.json", "asks.json"), ("records/contexts.jsonl", "contexts.jsonl"),
]
EXAMPLES = [
    ["bucket"], ["price"], ["resolve"], ["plan"], ["plan", "--picture", "f"], ["verify"], ["picture"], ["drive"], ["book"], ["compare"], ["ramp"],
    ["verify-ramp"], ["picture", "--ramp"], ["apply", "--step", "1"], ["record"], ["tally"], ["completions"], ["apply"],
]

# A word that begins with `-` and is longer follows `--`; `-` alone is a plain word.
WITH_A_MINUS = [
    ["bucket", "f", "--", "-x"],
    ["bucket", "--", "f", "-x"],
    ["bucket", "f", "-"],
]


class Words(ProgramTest):
    def test_mistakes(self):
        for words, told in MISTAKES:
            with self.subTest(words=words):
                self.assert_mistake(words, {}, told)

    def test_help(self):
        for words, told in HELP:
            with self.subTest(words=words):
                ran = run(words, {})
                self.assertEqual((ran.status, ran.err), (0, ""))
                self.assertIn(told, ran.out)

    def test_help_lists_the_commands(self):
        self.assertEqual(commands_of_help(), COMMANDS)
        for name in COMMANDS[:-1]:
            with self.subTest(name=name):
                self.assertIn(f"Usage: flagops {name} ", run(["help", name], {}).out)

    def test_words_with_a_minus(self):
        for words in WITH_A_MINUS:
            with self.subTest(words=words):
                ran = run(words, {"f": '[["on"]]'})
                self.assertEqual((ran.status, ran.err), (0, ""))

    def test_completions(self):
        words = words_of_help()
        self.assertIn("plan", words)
        self.assertIn("--refine", words)
        for shell in ["bash", "fish", "zsh"]:
            ran = run(["completions", shell], {})
            self.assertEqual((ran.status, ran.err), (0, ""))
            for word in words:
                with self.subTest(shell=shell, word=word):
                    name = "-l " + word[2:] if shell == "fish" and word.startswith("--") else word
                    self.assertRegex(ran.out, r"(?<![\w-])" + re.escape(name) + r"(?!\w)")

    @unittest.skipUnless(shutil.which("bash"), "no bash is here")
    def test_bash_completes(self):
        for line, want in [
            (["flagops", "pl"], ["plan"]),
            (["flagops", "plan", "--re"], ["--refine"]),
            (["flagops", "apply", "--ke"], ["--keep"]),
            (["flagops", "check", "--st"], ["--strict"]),
            (["flagops", "compare", "--fl"], ["--flag", "--floats"]),
            (["flagops", "compare", "--p"], ["--picture"]),
            (["flagops", "ramp", "--st"], ["--strict"]),
            (["flagops", "verify-ramp", "--"], ["--refine", "--strict", "--floats", "--help"]),
            (["flagops", "help", "res"], ["resolve"]),
            (["flagops", "drive", "--a"], ["--add"]),
            (["flagops", "drive", "--f"], ["--floats"]),
            (["flagops", "bo"], ["book"]),
            (["flagops", "completions", "f"], ["fish"]),
            (["flagops", "resolve", "d", "k", "wh"], ["whole"]),
            (["flagops", "check", "READM"], []),
        ]:
            script = (
                f"source <({shlex.quote(PROGRAM)} completions bash); COMP_WORDS=({' '.join(line)}); COMP_CWORD={len(line) - 1}; "
                "_flagops; printf '%s\\n' \"${COMPREPLY[@]}\""
            )
            ran = subprocess.run(["bash", "-c", script], cwd=ROOT, capture_output=True, text=True, timeout=SECONDS, check=True)
            self.assertEqual(ran.stdout.split(), want, line)

    @unittest.skipUnless(shutil.which("bash"), "no bash is here")
    def test_bash_completes_names_with_blanks(self):
        """On a terminal, as whoever types them: bash itself completes and quotes the names of files."""
        with tempfile.TemporaryDirectory() as folder:
            for name in ["two words.json", "it's.json", "three words.json"]:
                with open(os.path.join(folder, name), "w", encoding="utf-8"):
                    pass
            for typed, word in [
                ("check tw", "two words.json"),
                ("check two\\ w", "two words.json"),
                ("check 'two w", "two words.json"),
                ("resolve three", "three words.json"),
                ("check it", "it's.json"),
                ("completions z", "zsh"),
            ]:
                with self.subTest(typed=typed):
                    self.assertIn(f"<{word}>", last_word(folder, typed))

    def test_each_help_ends_with_an_example(self):
        for words in [[command] for command in COMMANDS if command != "help"] + OTHER_FORMS:
            with self.subTest(words=words):
                ran = run([*words, "--help"], {})
                self.assertRegex(ran.out, r"\n\nExample:\n  (?:source <\()?flagops " + re.escape(" ".join(words[:2])) + r"[^\n]*\n$")

    @unittest.skipUnless(shutil.which("bash"), "no bash is here")
    def test_the_examples_run(self):
        """One after the other, on the demo files, under the names that the examples give them."""
        with tempfile.TemporaryDirectory() as folder:
            os.symlink(PROGRAM, os.path.join(folder, "flagops"))
            os.mkdir(os.path.join(folder, "logs"))
            for path, name in FILES_OF_EXAMPLES:
                shutil.copy(os.path.join(ROOT, "demo", path), os.path.join(folder, name))
            for words in EXAMPLES:
                with self.subTest(words=words):
                    example = run([*words, "--help"], {}).out.partition("\nExample:\n")[2]
                    ran = subprocess.run(
                        ["bash", "-c", example], cwd=folder, env={**os.environ, "PATH": f"{folder}:{os.environ['PATH']}"},
                        capture_output=True, text=True, timeout=SECONDS, check=False,
                    )
                    self.assertEqual((ran.returncode, "error:" in ran.stderr), (0, False), example + ran.stderr)

    def test_the_man_page_has_each_word(self):
        with open(os.path.join(ROOT, "release", "flagops.1"), encoding="utf-8") as file:
            page = file.read().replace("\\-", "-")
        for word in words_of_help():
            self.assertIn(word, page)


def commands_of_help():
    """The commands of the program, as its help lists them."""
    return re.findall(r"^  ([a-z-]+)  ", run(["--help"], {}).out, re.M)


def last_word(folder, typed):
    """What bash on a terminal shows of the last word of a command line, between angle brackets, once a tab has completed it."""
    with tempfile.TemporaryDirectory() as home:
        start = os.path.join(home, "start")
        with open(start, "w", encoding="utf-8") as file:
            file.write(f"source <({shlex.quote(PROGRAM)} completions bash)\nflagops() {{ printf '<%s>' \"${{@: -1}}\"; }}\n")
        ours, theirs = pty.openpty()
        with subprocess.Popen(
            ["bash", "--noprofile", "--rcfile", start, "-i"], cwd=folder, stdin=theirs, stdout=theirs, stderr=theirs,
            start_new_session=True, env={**os.environ, "TERM": "dumb"},
        ) as shell:
            os.close(theirs)
            os.write(ours, f"flagops {typed}\t\nexit\n".encode())
            shown = b""
            try:
                while select.select([ours], [], [], SECONDS)[0]:
                    shown += os.read(ours, 4096)
            except OSError:
                pass  # the shell has ended
            shell.kill()
        os.close(ours)
    return shown.decode()


def words_of_help():
    """The commands of the program, and the options of each, as their helps list them."""
    commands = commands_of_help()
    options = {word for name in commands for word in re.findall(r"--[a-z]+", run([name, "--help"], {}).out)}
    return commands + sorted(options)


if __name__ == "__main__":
    unittest.main()
