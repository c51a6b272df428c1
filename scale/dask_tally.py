#!/usr/bin/env python3
"""The tally of a page from contexts in parts, by the workers of a Dask cluster.

    scale/dask_tally.py [--scheduler ADDRESS | --processes N] [--refine M] [--moment S] DOC FLAG SITE OUT PART..

Each PART is a file of contexts, one JSON object a line. `flagops record` makes the note lines of each part, Dask sorts all of them
into ranges, each line once, `flagops tally` counts each range, and `flagops join` makes one tally of them, which is written to OUT.
Without --scheduler it starts N worker processes on this machine (3 where N is left out).

A part whose worker is lost is recorded again by Dask. The tally is the same then: equal notes are equal lines, each line stands
once, and `tally` and `join` refuse ranges that are not in order. Only a part that is forgotten can't be seen: that is the caller's.

It needs Debian's python3-distributed and python3-pandas, and `flagops` on the path, in FLAGOPS, or in this repository."""
import argparse
import os
import shutil
import subprocess
import sys
import tempfile

import dask
import dask.dataframe
import pandas
from distributed import Client, LocalCluster

TOP = os.path.join(os.path.dirname(os.path.abspath(__file__)), "..")
PROGRAM = os.environ.get("FLAGOPS") or shutil.which("flagops") or os.path.join(TOP, "release", "x86_64-linux", "flagops")
RETRIES = 5


def ran(words, given):
    """What a command prints of this input; one that is refused ends the work with its line."""
    ended = subprocess.run([PROGRAM, *words], input=given, stdout=subprocess.PIPE, stderr=subprocess.PIPE, check=False)
    if ended.returncode:
        last = ended.stdout.decode(errors="replace").splitlines()[-1:]
        raise RuntimeError(f"flagops {words[0]} ended with {ended.returncode}: {last} {ended.stderr.decode(errors='replace')}")
    return ended.stdout


def recorded(document, flag, moment, part):
    """The note lines of a part, as a table of one column. Within the part each stands once, so that less is moved."""
    with open(part, "rb") as file:
        lines = ran(["record", document, flag, "--moment", str(moment)], file.read()).decode()
    return pandas.DataFrame({"line": sorted(set(lines.split("\n")) - {""})}, dtype=object)


def tallied(lines, document, flag, site, refine, folder, partition_info=None):
    """The tally of a range of lines, as a file of the folder."""
    number = partition_info["number"] if partition_info else 0
    wanted = sorted(set(lines.index))
    text = "".join(f"{line}\n" for line in wanted).encode()
    path = os.path.join(folder, f"{number:06}.tally")
    with open(path + ".new", "wb") as file:
        file.write(ran(["tally", document, flag, str(site), "--refine", str(refine)], text))
    os.replace(path + ".new", path)
    return pandas.DataFrame({"path": [path], "lines": [len(wanted)]})


def tally_of(client, asked, folder):
    """The paths of the tallies of all ranges, in the order of the ranges."""
    tables = [dask.delayed(recorded)(asked.doc, asked.flag, asked.moment, part) for part in asked.parts]
    meta = pandas.DataFrame({"line": pandas.Series(dtype=object)})
    lines = client.persist(dask.dataframe.from_delayed(tables, meta=meta, verify_meta=False), retries=RETRIES)
    ranges = lines.set_index("line", npartitions=asked.ranges or len(asked.parts))
    meta = pandas.DataFrame({"path": pandas.Series(dtype=object), "lines": pandas.Series(dtype=int)})
    counted = ranges.map_partitions(tallied, asked.doc, asked.flag, asked.site, asked.refine, folder, meta=meta)
    found = client.compute(counted, retries=RETRIES).result()
    return [path for path, count in zip(found["path"], found["lines"]) if count]


def joined(asked, paths):
    """Writes the tally of all ranges to OUT, which is replaced whole."""
    text = ran(["join", *paths], b"") if paths else ran(["tally", asked.doc, asked.flag, str(asked.site), "--refine", str(asked.refine)], b"")
    with open(asked.out + ".new", "wb") as file:
        file.write(text)
    os.replace(asked.out + ".new", asked.out)


def words():
    """What is asked for."""
    parser = argparse.ArgumentParser(description="The tally of a page from contexts in parts, by the workers of a Dask cluster.")
    parser.add_argument("--scheduler", help="the address of a scheduler, as tcp://host:8786")
    parser.add_argument("--processes", type=int, default=3, help="worker processes on this machine, where no scheduler is given")
    parser.add_argument("--ranges", type=int, default=0, help="ranges of lines; as many as parts where it is left out")
    parser.add_argument("--refine", type=int, default=1)
    parser.add_argument("--moment", type=int, default=0)
    parser.add_argument("--folder", help="where the tallies of the ranges go: a folder that all workers share")
    parser.add_argument("doc")
    parser.add_argument("flag")
    parser.add_argument("site", type=int)
    parser.add_argument("out")
    parser.add_argument("parts", nargs="+")
    return parser.parse_args()


def main():
    """Makes the tally, and tells how many parts and ranges there were."""
    asked = words()
    asked.doc = os.path.abspath(asked.doc)
    asked.parts = [os.path.abspath(part) for part in asked.parts]
    cluster = None if asked.scheduler else LocalCluster(n_workers=asked.processes, threads_per_worker=1, dashboard_address=None)
    with Client(asked.scheduler or cluster) as client, tempfile.TemporaryDirectory(dir=asked.folder) as folder:
        paths = tally_of(client, asked, folder)
        joined(asked, paths)
    if cluster:
        cluster.close()
    print(f"parts {len(asked.parts)}\nranges {len(paths)}")


if __name__ == "__main__":
    sys.exit(main())
