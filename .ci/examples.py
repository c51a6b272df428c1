"""Runs each example of the pages and compares what it prints, and its status, with what the page shows.

    .ci/examples.py [PAGE ..]     of these pages, without any of PAGES below
    .ci/examples.py --each        the same for ./test: a line on standard output for each, `passed` or `failed`

An example is a line of a ```console block that begins with '$ '. The lines below it, up to the next such line or the
block's end, are what it prints on standard output and then, for a person, on standard error. Where the page shows no
line, it prints nothing. Each refusal says something on standard error, and what is for a person stands nowhere else.
Its status is what the page shows below a '$ echo $?' that follows it; without one it is 1 where the page shows a line
of a refusal, and else 0. They run one after the other, and find a folder of their own for /tmp, so that nothing is left
there. What is not as the page shows is told on standard error. The last line counts the examples; without names the
pages are also to show each status of the program.
"""
import os
import shutil
import signal
import subprocess
import sys
import tempfile
from collections import Counter

TOP = os.path.join(os.path.dirname(os.path.abspath(__file__)), "..")
sys.path.insert(0, os.path.join(TOP, "tests"))

from program import SECONDS  # noqa: E402

PAGES = ["README.md", "demo/README.md", "docs/ROLLOUTS.md", "docs/REFUSALS.md", "docs/CERTIFICATES.md", "docs/FLAGD.md", "tests/examples.md"]

# What examples use beside the program, a shell and coreutils. Where it is missing they are skipped.
TOOLS = ["git", "cmp", "diff"]

# Done, refused, words that ask for nothing, no rule fits: each is to be shown.
STATUSES = {0, 1, 2, 3}


def examples_of(page):
    """The commands of a page, each with the lines that it shows and the status."""
    found, inside, shown = [], False, None
    with open(os.path.join(TOP, page), encoding="utf-8") as lines:
        for line in lines.read().split("\n"):
            if line.startswith("```"):
                inside, shown = line == "```console", None
            elif inside and line == "$ echo $?" and found:
                shown = found[-1][2]
            elif inside and line.startswith("$ "):
                shown = []
                found.append((line[2:], shown, []))
            elif inside and shown is not None:
                shown.append(line)
    return [(command, wanted, status_of(wanted, told)) for command, wanted, told in found]


def status_of(wanted, told):
    """The status that a page shows."""
    if told:
        return int(told[0])
    return 1 if any(line.startswith("refused ") for line in wanted) else 0


def is_apart(output, told):
    """Whether the lines of a refusal stand on the output, what is told of it beside it, and neither elsewhere."""
    refused = any(line.startswith("refused ") for line in output)
    mixed = any(line.startswith(("error: ", "broken: ", "note: ")) for line in output)
    return not mixed and not any(line.startswith("refused ") for line in told) and (told != [""] or not refused)


def fault_of(command, wanted, status, room):
    """What is wrong about an example, or nothing; `room` is a folder in the place of /tmp."""
    words = ["sh", "-c", command.replace("/tmp/", f"{room}/")]
    ran = subprocess.run(words, cwd=TOP, stdin=subprocess.DEVNULL, capture_output=True, encoding="utf-8", timeout=SECONDS, check=False)
    out, told = (text.replace(f"{room}/", "/tmp/") for text in (ran.stdout, ran.stderr))
    is_printed = (out + told).split("\n") == wanted + [""] or out + told == "" and not wanted
    if is_printed and ran.returncode == status and is_apart(out.split("\n"), told.split("\n")):
        return None
    return f"printed, with status {ran.returncode}:\n{out}{told}\n  wanted, with status {status}:\n" + "\n".join(wanted)


def missing_of(command):
    """The tool that an example lacks here, or nothing."""
    return next((tool for tool in TOOLS if tool in command.split() and not shutil.which(tool)), None)


def main(words):
    is_each = words == ["--each"]
    signal.signal(signal.SIGINT, signal.default_int_handler)
    pages = PAGES if is_each or not words else words
    # The first run may build the program and says so on standard error: that is no part of an example.
    subprocess.run(["./flagops", "--version"], cwd=TOP, stdout=subprocess.DEVNULL, check=False)
    found, statuses = Counter(), set()
    with tempfile.TemporaryDirectory() as room:
        for page, (command, wanted, status) in ((page, example) for page in pages for example in examples_of(page)):
            missing = missing_of(command)
            fault = None if missing else fault_of(command, wanted, status, room)
            if fault:
                print(f"{page}: {command}\n  {fault}", file=sys.stderr)
            ended = f"skipped no {missing} is here" if missing else "failed" if fault else "passed"
            if is_each:
                print(ended, flush=True)
            found[ended] += 1
            statuses.add(status)
    unseen = STATUSES - statuses if pages == PAGES else set()
    for status in sorted(unseen):
        print(f"no example ends with status {status}", file=sys.stderr)
    if not is_each:
        print(f"{found['passed']} examples good, {found['failed'] + len(unseen)} bad")
    return 1 if found["failed"] or unseen else 0


if __name__ == "__main__":
    sys.exit(main(sys.argv[1:]))
