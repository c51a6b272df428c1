#!/usr/bin/env python3
"""Runs the shipped program for long: `drive` in a loop, and beside it `serve` with its subscribers; memory stays flat.

    bench/hostile/long.py [SECONDS]

For SECONDS (3,600 where it is left out) `drive` runs over the demo's asks again and again with 4 workers, adding to one book, and
beside it `serve` publishes 16 documents to eight subscribers that `follow`, again and again. A run is bad where it ends with
another status or book than the first, or where its memory at most is a fifth above that of each of the first ten. The last line is
'N cases, M bad'; ends with 1 where M is not 0."""
import os
import socket
import subprocess
import sys
import tempfile
import threading
import time

TOP = os.path.join(os.path.dirname(os.path.abspath(__file__)), "..", "..")
PROGRAM = os.environ.get("FLAGOPS", os.path.join(TOP, "release", "x86_64-linux", "flagops"))
DEMO = os.path.join(TOP, "demo")
SHOP, SALE = (os.path.join(DEMO, "flags", name) for name in ("shop.json", "sale.json"))
SUBSCRIBERS, MORE = 8, 1.2


def run(words, folder):
    """A run that prints into a file: its status, and its memory at most, in KB."""
    with open(os.path.join(folder, "out"), "wb") as out:
        return ended(subprocess.Popen([PROGRAM, *words], stdout=out, stderr=out))


def drives(end, folder, told):
    """`drive --add` until a moment: how many runs there were, and how many were bad."""
    book = os.path.join(folder, "book")
    words = ["drive", "--add", SHOP, os.path.join(DEMO, "drive", "asks.json"), "4", book]
    with open(book, "w", encoding="utf-8") as file:
        file.write('{"book":1}\n')
    first, right, count, bad = [], None, 0, 0
    while time.monotonic() < end:
        status, taken = run(words, folder)
        with open(book, "rb") as file:
            text = file.read()
        right = right or text
        first = first if len(first) == 10 else [*first, taken]
        count, bad = count + 1, bad + (status != 0 or text != right or taken > MORE * max(first))
    told["drive"] = count, bad


def free_port():
    """A port on which nobody listens."""
    with socket.socket() as it:
        it.bind(("127.0.0.1", 0))
        return str(it.getsockname()[1])


def ended(child):
    """Waits for a run: its status, and its memory at most, in KB."""
    _, status, used = os.wait4(child.pid, 0)
    child.returncode = os.waitstatus_to_exitcode(status)
    return child.returncode, used.ru_maxrss


def stream():
    """One `serve` and its subscribers: whether all went well, and the memory of `serve` at most."""
    port = free_port()
    server = subprocess.Popen([PROGRAM, "serve", port, str(SUBSCRIBERS), *[SHOP, SALE] * 8], stdout=subprocess.DEVNULL, stderr=subprocess.PIPE)
    server.stderr.readline()
    threading.Thread(target=server.stderr.read, daemon=True).start()
    followers = [subprocess.Popen([PROGRAM, "follow", port, "1000"], stdout=subprocess.DEVNULL) for _ in range(SUBSCRIBERS)]
    statuses = [it.wait() for it in followers]
    status, taken = ended(server)
    return [status, *statuses] == [0] * (1 + SUBSCRIBERS), taken


def streams(end, told):
    """Streams until a moment."""
    first, count, bad = [], 0, 0
    while time.monotonic() < end:
        is_right, taken = stream()
        first = first if len(first) == 10 else [*first, taken]
        count, bad = count + 1, bad + (not is_right or taken > MORE * max(first))
    told["serve"] = count, bad


def main():
    """Both at once."""
    end = time.monotonic() + (float(sys.argv[1]) if len(sys.argv) > 1 else 3600)
    told = {}
    with tempfile.TemporaryDirectory() as folder:
        beside = threading.Thread(target=streams, args=(end, told))
        beside.start()
        drives(end, folder, told)
        beside.join()
    for name, (count, bad) in sorted(told.items()):
        print(f"{name}: {count} runs, {bad} bad")
    cases, bad = (sum(it[at] for it in told.values()) for at in (0, 1))
    print(f"{cases} cases, {bad} bad")
    return 1 if bad else 0


if __name__ == "__main__":
    sys.exit(main())
