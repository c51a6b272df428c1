#!/usr/bin/env python3
"""Puts plans into documents of many shapes by `apply --keep`, and looks at each byte of what comes out.

    bench/keep.py [COUNT [SEED]]

Each document is made at random by tests/documents.py: members in any order and twice, blanks of every kind, one bucket a line or
all in one, names with escapes, the site within other operations, in a literal list or in a shared evaluator. The bytes before
and behind the buckets are to be as they were, the trees that Python's `json` reads to be equal but there, and `check`, `plan`
and `resolve` to answer as for the document of `apply`; a site in a shared evaluator is to be refused. The same seed gives the
same documents. The last line is 'N cases, M bad'; ends with 1 where M is not 0."""
import os
import sys
from concurrent.futures import ProcessPoolExecutor

sys.path.insert(0, os.path.join(os.path.dirname(os.path.abspath(__file__)), "..", "tests"))
from keeping import problem_of  # noqa: E402


def main():
    count = int(sys.argv[1]) if len(sys.argv) > 1 else 20_000
    seed = sys.argv[2] if len(sys.argv) > 2 else "1"
    seeds = [f"{seed} {n}" for n in range(count)]
    bad = 0
    with ProcessPoolExecutor() as pool:
        for one, problem in zip(seeds, pool.map(problem_of, seeds, chunksize=50)):
            if problem:
                bad += 1
                print(f"document {one!r}: {problem}")
    print(f"{count} cases, {bad} bad")
    sys.exit(bad > 0)


main()
