#!/usr/bin/env python3
"""Runs the shipped program many times at once: `drive` with 1 to 64 workers, `serve` with 64 subscribers.

    bench/hostile/many.py [DRIVES [STREAMS]]

DRIVES runs of `drive` over the demo's asks, eight at a time and each with another number of workers: each book is the book of one
worker, byte for byte, and each answer the same but for nothing. STREAMS times `serve` with 64 subscribers, which `follow`: each
prints the line of the last document, and all end with 0. The last line is 'N cases, M bad'; ends with 1 where M is not 0."""
import os
import random
import re
import socket
import subprocess
import sys
import tempfile
from concurrent.futures import ThreadPoolExecutor

TOP = os.path.join(os.path.dirname(os.path.abspath(__file__)), "..", "..")
PROGRAM = os.environ.get("FLAGOPS", os.path.join(TOP, "release", "x86_64-linux", "flagops"))
DEMO = os.path.join(TOP, "demo")
SECONDS, AT_ONCE, SUBSCRIBERS = 60, 8, 64


def run(words):
    """A run: its status, its output and what it told."""
    ended = subprocess.run([PROGRAM, *words], stdout=subprocess.PIPE, stderr=subprocess.PIPE, timeout=SECONDS, check=False)
    return ended.returncode, ended.stdout, ended.stderr


def driven(folder, number, workers):
    """A run of `drive`: what it printed, and its book."""
    book = os.path.join(folder, f"book{number}")
    words = ["drive", os.path.join(DEMO, "flags", "shop.json"), os.path.join(DEMO, "drive", "asks.json"), str(workers), book]
    ran = run(words)
    with open(book, "rb") as file:
        text = file.read()
    os.remove(book)
    return ran[:2], text


def drives(count, folder):
    """How many of so many runs of `drive` did not come to what one worker comes to."""
    right = driven(folder, "", 1)
    workers = [1 + random.Random(7).randrange(64) for _ in range(count)]
    with ThreadPoolExecutor(AT_ONCE) as pool:
        found = list(pool.map(lambda it: driven(folder, it[0], it[1]), enumerate(workers)))
    return sum(shown(it) != shown(right) for it in found)


def shown(ran):
    """A run without the line that says how many notes were new for each worker."""
    (status, out), book = ran
    return status, re.sub(rb"worker .*\n", b"", out), book


def free_port():
    """A port on which nobody listens."""
    with socket.socket() as it:
        it.bind(("127.0.0.1", 0))
        return it.getsockname()[1]


def streamed():
    """Whether `serve` and its 64 subscribers came to what they should."""
    port = str(free_port())
    documents = [os.path.join(DEMO, "flags", name) for name in ("shop.json", "sale.json")]
    server = subprocess.Popen([PROGRAM, "serve", port, str(SUBSCRIBERS), *documents], stdout=subprocess.PIPE, stderr=subprocess.PIPE)
    while b"listen" not in (line := server.stderr.readline()) and line:
        pass
    with ThreadPoolExecutor(SUBSCRIBERS) as pool:
        told = list(pool.map(run, [["follow", port, "100"]] * SUBSCRIBERS))
    out, _ = server.communicate(timeout=SECONDS)
    ends = {it[1].splitlines()[-2:][0] if it[1] else b"" for it in told}
    return server.returncode == 0 and out == b"published 2\n" and all(it[0] == 0 for it in told) and len(ends) == 1


def main():
    """Runs both."""
    drive_count = int(sys.argv[1]) if len(sys.argv) > 1 else 200
    stream_count = int(sys.argv[2]) if len(sys.argv) > 2 else 100
    with tempfile.TemporaryDirectory() as folder:
        bad = drives(drive_count, folder)
    print(f"drive: {drive_count} runs, {bad} bad", flush=True)
    bad_streams = sum(not streamed() for _ in range(stream_count))
    print(f"serve: {stream_count} runs with {SUBSCRIBERS} subscribers, {bad_streams} bad")
    print(f"{drive_count + stream_count} cases, {bad + bad_streams} bad")
    return 1 if bad + bad_streams else 0


if __name__ == "__main__":
    sys.exit(main())
