#!/usr/bin/env python3
"""Writes docs/WRONG_BODIES.md: each wrong body of the repository, the function that it changes, and the clause that refuses it.

    bench/wrong_bodies.py            writes the page
    bench/wrong_bodies.py --check    writes nothing; status 1 where the page is not what would be written

A wrong body is an edit, `crates/CRATE/must-fail/NAME.edit` where the gate tries it, or `bench/wrong/CRATE/NAME.edit` where
bench/wrong.sh does. Its line `clause:` says which clause refuses it; the prover passes over that line. `bench/wrong_tried.txt` says when
one was tried last, in a line `CRATE/NAME DAY BY`, where BY is what refused it first: `clause`, or `answer` for one that a proof file gives.
"""
import glob
import os
import re
import sys

TOP = os.path.dirname(os.path.dirname(os.path.realpath(__file__)))
PAGE = os.path.join(TOP, "docs", "WRONG_BODIES.md")
TRIED = os.path.join(TOP, "bench", "wrong_tried.txt")
HEAD = """# Wrong bodies

Each line is an edit of one function that the prover has to refuse, since it makes a clause of a contract false. `rt ci` tries those of the gate, `bench/wrong.sh [CRATE ..]` the others; [CHECKS.md](CHECKS.md#wrong-bodies) says more about both. For the others the third column has the day of the last trial, where it was noted; "answer" beside it means that an answer in a proof file, which mentions what the edit removes, was refused before any clause, so that the trial shows less. A clause is named as "clause of function", or by the function alone where it has only one. `bench/wrong_bodies.py` writes this page from the edits.
"""


def crates():
    """The groups of crates.txt with the crates of each, in their order."""
    groups = []
    with open(os.path.join(TOP, "crates.txt"), encoding="utf-8") as file:
        for line in file.read().splitlines()[1:]:
            if line.startswith("# "):
                groups.append((line[2:], []))
            elif line and groups:
                groups[-1][1].append(re.split("[ :]", line)[0])
    return groups


def trials():
    """When a wrong body was tried last, and by what it was refused first, by crate and name."""
    with open(TRIED, encoding="utf-8") as file:
        rows = [line.split() for line in file if line.strip() and not line.startswith("#")]
    return {name: day + (", answer" if by == "answer" else "") for name, day, by in rows}


def edits(crate):
    """The name of each edit of a crate, where it is tried, the file that it changes, and its clause."""
    for where, folder in ("gate", f"crates/{crate}/must-fail"), ("by hand", f"bench/wrong/{crate}"):
        for path in sorted(glob.glob(os.path.join(TOP, folder, "*.edit"))):
            with open(path, encoding="utf-8") as file:
                lines = file.read().splitlines()
            said = {key: line[len(key) :].strip() for line in reversed(lines) for key in ("clause: ", "file: ") if line.startswith(key)}
            yield os.path.basename(path)[: -len(".edit")], where, said.get("file: ", ""), said.get("clause: ", "")


def page():
    """The text of the page."""
    text, tried = HEAD, trials()
    when = lambda crate, name, where: where if where == "gate" else tried.get(f"{crate}/{name}", where)
    for group, names in crates():
        rows = [(crate, *edit) for crate in names for edit in edits(crate)]
        if rows:
            text += f"\n## {group.split(':')[0]}\n\n| crate | wrong body | tried | file | refused by |\n|---|---|---|---|---|\n"
            text += "".join(f"| `{crate}` | {name} | {when(crate, name, where)} | `{file}` | {clause} |\n" for crate, name, where, file, clause in rows)
    return text


def main(words):
    text = page()
    if words == ["--check"]:
        with open(PAGE, encoding="utf-8") as file:
            if file.read() != text:
                print("docs/WRONG_BODIES.md is not the page of the edits that are here: run bench/wrong_bodies.py", file=sys.stderr)
                return 1
        return 0
    with open(PAGE, "w", encoding="utf-8") as file:
        file.write(text)
    return 0


if __name__ == "__main__":
    sys.exit(main(sys.argv[1:]))
