#!/usr/bin/env python3
"""Runs the shipped program's threads under valgrind's helgrind and drd: what they tell lies behind words that they do not know.

    bench/hostile/races.py [TOOL|COMMAND ..]

`drive` and `record` with 4 workers, `serve` with 4 subscribers, and `ofrep` with 4 workers, a stream and 36 requests of 8 clients at
once; TOOLs and COMMANDs are those that are tried. Both tools know the locks of the C library alone and take what is ordered by atomic words, as all locks of the program are, for
a race. So a place that they tell of is bad where it is none of those below, which are each behind such a word, and a run where its
answer is not as ever. The last line is 'N cases, M bad', N being the runs and the places; ends with 1 where M is not 0."""
import os
import re
import signal
import socket
import subprocess
import sys
import tempfile
import time
from collections import Counter
from concurrent.futures import ThreadPoolExecutor

from forks import PROGRAM
from ofrep import asked, free_port
from rows import restored, texts

SECONDS = 600
BEHIND = {
    "the book's word": [
        "book_share::reach::note_one", "book_core::book::Book::note", "std_collections::btree_set::BTreeSet::insert", "std_collections::btree::node::Node::search",
        "std_alloc::vec::lodged::Vec+T+Lodged::insert_reserved", "std_alloc::vec::Vec::remove", "core::cmp::bytes::order", "memmove",
    ],
    "the words of the two copies of a snapshot": [
        "left_right::rounds::gather", "snap_share::publisher::show", "snap_share::seat::ReadSeatCurrent::current", "snap_share::stamp::Stamp::becomes",
    ],
    "a Mutex, or the word of a thread's end": ["flagops_streams::board::Board::leave", "flagops_streams::serve_command::serve", "progress::terminal::TerminalLine::end", "core::scope::entry"],
}  # fmt: skip
KNOWN = {place: word for word, places in BEHIND.items() for place in places}


def started(tool, words, folder, **how):
    """A run of the program under a tool."""
    words = ["valgrind", f"--tool={tool}", "--error-limit=no", f"--log-file={folder}/told", PROGRAM, *words]
    return subprocess.Popen(words, cwd=folder, stdout=subprocess.PIPE, stderr=subprocess.DEVNULL, **how)


def told(folder):
    """How often each place was told of."""
    with open(os.path.join(folder, "told"), encoding="utf-8", errors="replace") as file:
        found = re.findall(r"(?:Possible data race|Conflicting (?:load|store)).*\n(?:.*Locks held.*\n)?.* at 0x[0-9A-F]+: (.*?) \(", file.read())
    return Counter(re.sub(r"::<.*", "", place) for place in found)


def drive(tool, folder):
    """Whether `drive` comes to what it comes to without the tool."""
    words = ["drive", "doc", "asks", "4"]
    right = subprocess.run([PROGRAM, *words, "right"], cwd=folder, stdout=subprocess.PIPE, stderr=subprocess.DEVNULL, check=True).stdout
    out, _ = started(tool, [*words, "made"], folder).communicate(timeout=SECONDS)
    return out == right


def record(tool, folder):
    """Whether `record` prints as many lines as it is given contexts."""
    with open(os.path.join(folder, "contexts"), "rb") as given:
        out, _ = started(tool, ["record", "doc", "checkout", "--workers", "4"], folder, stdin=given).communicate(timeout=SECONDS)
    return out.count(b"\n") == 40


def connected(port):
    """A connection, once the port is listened on."""
    for _ in range(SECONDS):
        try:
            return socket.create_connection(("127.0.0.1", port), SECONDS)
        except ConnectionRefusedError:
            time.sleep(1)
    raise TimeoutError


def rest(stream):
    """All that comes on a connection."""
    got = b""
    with stream:
        while more := stream.recv(65536):
            got += more
    return got


def serve(tool, folder):
    """Whether `serve` serves all four."""
    port = free_port()
    child = started(tool, ["serve", str(port), "4", "doc", "sale", "doc"], folder)
    sent = [rest(stream) for stream in [connected(port) for _ in range(4)]]
    return child.communicate(timeout=SECONDS)[0] == b"published 3\n" and all(sent)


def ofrep(tool, folder):
    """Whether the service answers all, while one follows its stream, until it is ended."""
    port, stream = free_port(), free_port()
    words = ["ofrep", "--listen", f"127.0.0.1:{port}", "--log", "log", "--stream", str(stream), "--workers", "4", "--poll", "1", "doc"]
    child = started(tool, words, folder)
    follower = connected(stream)

    def answer(text):
        client = connected(port)
        client.sendall(text)
        return rest(client)[9:12]

    with ThreadPoolExecutor(8) as pool:
        statuses = Counter(pool.map(answer, [text for number in range(6) for text, _ in asked(number)]))
    child.send_signal(signal.SIGTERM)
    is_sent = len(rest(follower)) > 4
    return child.wait() == -signal.SIGTERM and is_sent and statuses == {b"200": 24, b"404": 6, b"400": 6}


def main(*words):
    number = bad = 0
    tools = [tool for tool in ("helgrind", "drd") if tool in words or not {"helgrind", "drd"} & {*words}]
    runs = [run for run in (drive, record, serve, ofrep) if run.__name__ in words or not {"drive", "record", "serve", "ofrep"} & {*words}]
    with tempfile.TemporaryDirectory() as folder:
        files = texts()
        for tool in tools:
            for run in runs:
                subprocess.run(["rm", "-rf", os.path.join(folder, "log")], check=True)
                restored(folder, files)
                is_right, places = run(tool, folder), told(folder)
                unknown = sorted(set(places) - set(KNOWN))
                number, bad = number + 1 + len(places), bad + (not is_right) + len(unknown)
                behind = Counter()
                for place, count in places.items():
                    behind[KNOWN.get(place, "BAD: nothing known")] += count
                print(f"{tool} {run.__name__}: {'as ever' if is_right else 'BAD'}; told of, behind {dict(behind)}; {unknown}", flush=True)
    print(f"{number} cases, {bad} bad")
    return 1 if bad else 0


if __name__ == "__main__":
    sys.exit(main(*sys.argv[1:]))
