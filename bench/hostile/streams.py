#!/usr/bin/env python3
"""Refuses each request for memory of a `serve` and of a `follow` with `--wait` of the shipped program, over the loopback and `memory.c`,
and then has each of their calls for files and sockets fail, be interrupted and be short, by `devices.c`.

    bench/hostile/streams.py [COUNT]

The N-th request is refused, and once more each from the N-th on, for each N (for the first COUNT where it is given): a `follow` of two
snapshots, and a `serve` of two documents for one subscriber. A run is bad where it is ended by a signal, goes on after a minute, or
ends otherwise than with memory enough or with a named WantOfMemory, NoThread or Unserved and status 1; and where `serve` ends with
status 0 but its subscriber has not the last snapshot, or tells that it was not served and its stream is not cut. So it is where the
N-th call of a kind fails, but that the refusal may be one of a file, of the network or of a read. One that is interrupted or short
is to change nothing. Prints how often each end came. The last line is 'N cases, M bad'; ends with 1 where M is not 0."""
import contextlib
import os
import re
import socket
import struct
import subprocess
import sys
import tempfile
import time

from network import flags, frame, last_of, taken
from forks import PROGRAM, built
from rows import write

SECONDS, WAIT = 60, 10
DOCUMENTS = [flags(1), flags(10)]
SENT = b"".join(frame(number, document) for number, document in enumerate(DOCUMENTS, 1))
REFUSED = re.compile(rb"refused ([\w:]+ 0 WantOfMemory|spawn 1 NoThread|serve 1 Unserved 1)\n|(snapshot 1 flags 1\n)?(snapshot 2 flags 10\n)?stopped WantOfMemory\n")
FAILED = re.compile(
    rb"refused (load 1 Unreadable|bind 1 Unbound|accept 1 NoConnection|connect 1 Unreachable|spawn 1 NoThread|serve 1 Unserved 1)\n"
    rb"|(snapshot 1 flags 1\n)?(snapshot 2 flags 10\n)?(stopped ReadFault\n|ended)?"
)
# The calls, and whether the system interrupts them.
CALLS = {"open": True, "read": True, "statx": False, "socket": False, "bind": False, "listen": False, "accept4": True, "recv": True, "send": True, "write": True, "out": True, "close": False}


def started(words, folder, library="memory", **settings):
    """A run over the library, its count of requests or calls at 0."""
    write(folder, "counts", bytes(16))
    how = {"LD_PRELOAD": os.path.join(folder, f"{library}.so"), "COUNTS": os.path.join(folder, "counts")}
    how |= {name: str(value) for name, value in settings.items()}
    return subprocess.Popen([PROGRAM, *words], cwd=folder, env=how, stdout=subprocess.PIPE, stderr=subprocess.DEVNULL)


def ended(child):
    """The status (nothing where it went on) and what was printed."""
    try:
        out, _ = child.communicate(timeout=SECONDS)
        return child.returncode, out
    except subprocess.TimeoutExpired:
        child.kill()
        return None, child.communicate()[0]


def follow(folder, **settings):
    """How a `follow` ends that is sent two snapshots, where it comes to connect."""
    with socket.socket() as listener:
        listener.bind(("127.0.0.1", 0))
        listener.listen()
        listener.settimeout(0.1)
        child = started(["follow", str(listener.getsockname()[1]), "1000", "--wait", str(WAIT)], folder, **settings)
        stream = None
        while stream is None and child.poll() is None:
            try:
                stream, _ = listener.accept()
            except TimeoutError:
                continue
            with stream, contextlib.suppress(ConnectionError):
                stream.sendall(SENT)
        return *ended(child), 2


def serve(folder, **settings):
    """How a `serve` ends, and the last snapshot of its subscriber, or nothing where it could not connect."""
    with socket.socket() as probe:
        probe.bind(("127.0.0.1", 0))
        port = probe.getsockname()[1]
    child = started(["serve", str(port), "1", "0.json", "1.json", "--wait", str(WAIT)], folder, **settings)
    last = None
    while last is None and child.poll() is None:
        try:
            with socket.create_connection(("127.0.0.1", port), SECONDS) as stream:
                last = last_of(taken(stream))
        except ConnectionRefusedError:
            time.sleep(0.002)
        except ConnectionResetError:
            last = "reset"
    return *ended(child), last


def count_in(folder):
    """How many requests or calls the last run made."""
    with open(os.path.join(folder, "counts"), "rb") as file:
        return struct.unpack("2q", file.read())[0]


def is_bad(end, right, named, may_be_whole=False):
    """Whether a run ended as it should not: neither as ever nor with a refusal that is named. Of a subscriber that has all it may be
    told that it was not served only where its own end could not be read."""
    status, out, last = end
    is_whole = b"Unserved" in out and last not in ("cut", "reset") and not may_be_whole
    return end != right and (is_whole or not (status == 1 and named and named.fullmatch(out)))


def refused_memory(run, folder, most):
    """Each end, with the first places of the requests that were refused for it, and whether it is bad."""
    right, ends = run(folder), {}
    whole = count_in(folder)
    print(f"{run.__name__}: {whole} requests, ends with {right}")
    for every in ({}, {"REFUSE_ON": 1}):
        for at in range(1, 1 + min(whole, most)):
            ends.setdefault(run(folder, REFUSE_AT=at, **every), []).append(at)
    return {("", end): (places, is_bad(end, right, REFUSED)) for end, places in ends.items()}


def failed_calls(run, folder, most):
    """The same of calls for files and sockets."""
    ends = {}
    right = run(folder, library="devices")
    for call, is_interrupted in CALLS.items():
        run(folder, library="devices", CALL=call)
        for at in range(1, 1 + min(count_in(folder), most)):
            for how in ("fail", "interrupt", "short") if is_interrupted else ("fail",):
                end = run(folder, library="devices", CALL=call, CALL_AT=at, CALL_HOW=how)
                wrong = is_bad(end, right, FAILED if how == "fail" else None, call == "recv")
                ends.setdefault((f"{call} {how}", end), ([], wrong))[0].append(at)
    return ends


def main(most=1_000_000):
    number = bad = 0
    with tempfile.TemporaryDirectory() as folder:
        built("memory", folder)
        built("devices", folder)
        for place, document in enumerate(DOCUMENTS):
            write(folder, f"{place}.json", document)
        for kind in (refused_memory, failed_calls):
            for run in (follow, serve):
                ends = kind(run, folder, int(most))
                for (what, end), (places, wrong) in sorted(ends.items(), key=lambda it: -len(it[1][0])):
                    number, bad = number + len(places), bad + len(places) * wrong
                    print(f"  {len(places)} {'BAD ' if wrong else ''}{run.__name__} {what} {end}, first at {places[0]}", flush=True)
    print(f"{number} cases, {bad} bad")
    return 1 if bad else 0


if __name__ == "__main__":
    sys.exit(main(*sys.argv[1:]))
