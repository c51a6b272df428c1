#!/usr/bin/env python3
"""Runs `serve` beside bad subscribers and `follow` beside bad servers, over the loopback: each run has the end that the documents name.

    bench/hostile/network.py [COUNT [SEED]]

`serve` has one subscriber that reads all, and others that send, read nothing, reset or close at each byte, or come by hundreds: the
one gets the last snapshot, and the server ends with `published N`, or tells of those that were not served. `follow` is sent each
prefix of a stream, and reset behind it, random bytes, frames of each wrong kind, a byte a second, long frames by the hundred, a
length of 4 GB, or nothing until it closes.
With `--wait` a subscriber that reads nothing or does not come is not served, however many there are, and a server that is silent
is left; a follower that is stopped goes on; 64 subscribers of a document of 4 MB take less than 400 MB together.
COUNT bounds the places of each kind, spread over all, and is the number of random streams (100 where it is not given). A run is bad
where it prints or ends otherwise, is ended by a signal, goes on a minute behind the last byte, or takes more than 500 MB. The last
line is 'N cases, M bad'; ends with 1 where M is not 0."""
import json
import os
import random
import re
import resource
import signal
import socket
import struct
import subprocess
import sys
import tempfile
import threading
import time
from collections import Counter

from forks import PROGRAM
from rows import write

SECONDS, KILOBYTES, LARGE = 60, 500_000, 4_194_304
STATUSES = {"ended": 0, "stopped Limit": 0, "stopped EndedInside": 1, "stopped Frame": 1, "stopped ReadFault": 1}
FOLLOWED = re.compile(r"(snapshot \d+ flags \d+\n)*(ended|stopped \w+)\n")
NONE = b'{"flags":{}}'
CHILDREN = []


def frame(number, document=NONE):
    """The frame of a snapshot."""
    return struct.pack(">IQ", 8 + len(document), number) + document


def flags(count, length=4):
    """A document of flags, each with a text of this length."""
    one = {"state": "ENABLED", "variants": {"v": "x" * length}, "defaultVariant": "v"}
    return json.dumps({"flags": {f"flag-{place}": one for place in range(count)}}, separators=(",", ":")).encode()


def started(words, **how):
    """A run that goes on; `main` ends what is left of them."""
    CHILDREN.append(subprocess.Popen([PROGRAM, *words], stdout=subprocess.PIPE, **how))
    CHILDREN[-1].beside = resource.getrusage(resource.RUSAGE_SELF).ru_maxrss
    return CHILDREN[-1]


def ended(child, seconds=SECONDS):
    """How a run ends within these seconds: its status (nothing where it went on), what it printed, kilobytes."""
    timer = threading.Timer(seconds, child.kill)
    timer.start()
    seen = [0]
    watcher = threading.Thread(target=watched, args=(child.pid, seen))
    watcher.start()
    out = child.stdout.read().decode(errors="replace")
    os.waitid(os.P_PID, child.pid, os.WEXITED | os.WNOWAIT)
    watcher.join()
    _, status, usage = os.wait4(child.pid, 0)
    is_late = not timer.is_alive()
    timer.cancel()
    child.returncode = os.waitstatus_to_exitcode(status)
    child.stdout.close()
    # The system counts what this script had when it began the run: where the run took no more, what was seen of it counts.
    kilobytes = usage.ru_maxrss if usage.ru_maxrss > child.beside else seen[0]
    return (None if is_late else child.returncode), out, kilobytes


def watched(pid, seen):
    """Looks at the most memory that a run has had, until it has ended."""
    while kilobytes := highest(pid):
        seen[0] = kilobytes
        time.sleep(0.005)


def closed(stream, is_reset):
    """A connection is closed, or reset."""
    if is_reset:
        stream.setsockopt(socket.SOL_SOCKET, socket.SO_LINGER, struct.pack("ii", 1, 0))
    stream.close()


def taken(stream, count=None):
    """The bytes that come, or the first of them."""
    got = b""
    while count is None or len(got) < count:
        more = stream.recv(65536 if count is None else count - len(got))
        if not more:
            break
        got += more
    return got


class Server:
    """A `serve` of documents for some subscribers, which listens."""

    def __init__(self, folder, seats, documents, wait=0):
        with socket.socket() as probe:
            probe.bind(("127.0.0.1", 0))
            self.port = probe.getsockname()[1]
        names = [f"{place}.json" for place in range(len(documents))]
        for name, text in zip(names, documents):
            write(folder, name, text)
        self.told = os.path.join(folder, "told")
        with open(self.told, "wb") as told:
            waits = ["--wait", str(wait)] if wait else []
            self.child = started(["serve", str(self.port), str(seats), *names, *waits], cwd=folder, stderr=told)
        while os.path.getsize(self.told) == 0 and self.child.poll() is None:
            time.sleep(0.002)

    def connect(self):
        """A subscriber that has come."""
        return socket.create_connection(("127.0.0.1", self.port), SECONDS)


def last_of(stream):
    """The number of the last frame of a stream that is whole, or what is wrong."""
    number, left = 0, stream
    while left:
        if len(left) < 12:
            return "cut"
        length, number = struct.unpack_from(">IQ", left)
        if len(left) < 4 + length:
            return "cut"
        left = left[4 + length :]
    return number


def served(folder, documents, others, acts, seats=None):
    """What is bad about a run of `serve` with one subscriber that reads all, and others that act so, or nothing."""
    server = Server(folder, seats or 1 + others, documents)
    good, bad, why = server.connect(), [], []
    try:
        for _ in range(others):
            bad.append(server.connect())
    except ConnectionError:
        why += [] if seats else ["a subscriber is refused"]
    for who, act, streams in (("a bad", acts, bad), ("the good", gets_the_last(documents), [good])):
        try:
            for stream in streams:
                act(stream)
        except OSError as fault:
            why.append(f"{who} subscriber met: {fault}")
    for stream in [good, *bad]:
        stream.close()
    status, out, kilobytes = ended(server.child)
    missed = re.fullmatch(r"refused serve 1 Unserved (\d+)\n", out)
    is_told = status == 1 and missed and int(missed.group(1)) <= len(bad)
    if not is_told and (status, out) != (0, f"published {len(documents)}\n") or kilobytes > KILOBYTES:
        why.append(f"status {status}, {out!r}, {kilobytes} KB")
    return "; ".join(why)


def gets_the_last(documents):
    """A subscriber reads all, and its last frame is to be the last snapshot."""

    def act(stream):
        got = last_of(taken(stream))
        if got != len(documents):
            raise OSError(f"its last is {got}")

    return act


def sends_and_reads(documents):
    """A subscriber sends much, and reads all as any other."""
    return lambda stream: (stream.sendall(b"GET / HTTP/1.1\r\n\r\n" * 500), gets_the_last(documents)(stream))


def serve_cases(folder, count):
    """The kinds of bad subscribers, with what is bad about a run beside each."""
    documents = [flags(1), flags(10)]
    length = sum(len(frame(1, text)) for text in documents)
    for place in range(0, length + 1, max(1, length // count)):
        for is_reset in (False, True):
            act = lambda stream: (taken(stream, place), closed(stream, is_reset))
            yield f"a subscriber {'resets' if is_reset else 'closes'} at a byte", place, served(folder, documents, 1, act)
    yield "a subscriber reads nothing", "short", served(folder, documents, 3, lambda stream: None)
    yield "a subscriber reads nothing", "long", served(folder, [flags(1, 2_000_000), flags(2, 2_000_000)], 1, lambda stream: None)
    yield "a subscriber sends and goes", "", served(folder, documents, 3, lambda stream: (stream.sendall(b"x" * 9000), stream.close()))
    for number in range(min(count, 20)):
        yield "a subscriber sends and reads", number, served(folder, documents, 1, sends_and_reads(documents))
    yield "subscribers by hundreds", 300, served(folder, documents, 300, lambda stream: None, 64)
    yield "subscribers by hundreds go", 63, served(folder, documents, 63, lambda stream: closed(stream, True))


def waited(folder, document, seats, mute, good):
    """What is bad about a `serve` with `--wait 2` of which `good` subscribers read all, `mute` come and read nothing, and the others
    of the seats do not come; nothing where each good one has the last snapshot and the others are told as not served."""
    server, why = Server(folder, seats, [document], 2), []
    readers = [server.connect() for _ in range(good)]
    silent = [server.connect() for _ in range(mute)]
    for reader in readers:
        try:
            gets_the_last([document])(reader)
        except OSError as fault:
            why.append(f"a good subscriber met: {fault}")
        reader.close()
    end = ended(server.child, 2 * SECONDS + 2)
    for stream in silent:
        stream.close()
    wanted = "refused accept 1 NoConnection\n" if good + mute == 0 else f"refused serve 1 Unserved {seats - good}\n"
    if end[:2] != (1, wanted) or end[2] > KILOBYTES:
        why.append(f"{end}")
    return "; ".join(why)


def highest(pid):
    """The most memory that a process that runs has had, in kilobytes, or 0 where it has ended."""
    with open(f"/proc/{pid}/status", encoding="ascii") as status:
        found = re.search(r"VmHWM:\s+(\d+) kB", status.read())
    return int(found[1]) if found else 0


def held(folder, document, seats):
    """What is bad about the memory of a `serve` of a document to so many subscribers that all read it, or nothing."""
    server = Server(folder, seats, [document], 600)
    streams, found = [server.connect() for _ in range(seats)], []
    readers = [threading.Thread(target=lambda stream=stream: found.append(last_of(taken(stream)))) for stream in streams]
    for reader in readers:
        reader.start()
    for reader in readers:
        reader.join()
    kilobytes = highest(server.child.pid)
    for stream in streams:
        stream.close()
    end = ended(server.child)
    kilobytes = kilobytes or end[2]
    is_good = end[:2] == (0, "published 1\n") and found == [1] * seats and kilobytes < 400_000
    return None if is_good else f"{end}, {kilobytes} KB, {Counter(found)}"


def wait_cases(folder):
    """The kinds of those who keep one waiting, with what is bad about a run with `--wait` beside each."""
    large = flags(1, LARGE - 200)
    yield "--wait: subscribers read nothing", "3 of 4", waited(folder, large, 4, 3, 1)
    yield "--wait: subscribers read nothing", "63 of 64", waited(folder, large, 64, 63, 1)
    yield "--wait: hundreds read nothing", "300 for 64 seats", crowded(folder, large)
    yield "--wait: subscribers do not come", "2 of 3", waited(folder, flags(1), 3, 0, 1)
    yield "--wait: subscribers do not come", "3 of 3", waited(folder, flags(1), 3, 0, 0)
    yield "--wait: a silent server", "", judged(followed(lambda stream: time.sleep(3), wait=1), "stopped ReadFault\n")
    frames = [frame(number, flags(1)) for number in (1, 2, 3)]
    slow = lambda stream: [(stream.sendall(text), time.sleep(1)) for text in frames]
    lines = "".join(f"snapshot {number} flags 1\n" for number in (1, 2, 3))
    yield "--wait: a slow server", "", judged(followed(slow, wait=2), lines + "ended\n")
    yield "memory of 64 subscribers", "4 MB", held(folder, large, 64)
    for wait in (0, 60):
        yield "stopped and continued", f"follow --wait {wait}", judged(followed(paused(frames), wait=wait), lines + "ended\n")


def paused(frames):
    """Sends frames to a follower that was stopped, and went on, while it waited for them."""

    def act(stream):
        time.sleep(0.5)
        CHILDREN[-1].send_signal(signal.SIGSTOP)
        time.sleep(0.1)
        CHILDREN[-1].send_signal(signal.SIGCONT)
        time.sleep(0.5)
        stream.sendall(b"".join(frames))

    return act


def crowded(folder, document):
    """What is bad about a `serve` with `--wait 2` for 64 subscribers to which 300 come that read nothing, or nothing."""
    server, streams = Server(folder, 64, [document], 2), []
    for _ in range(300):
        try:
            streams.append(server.connect())
        except OSError:
            break
    end = ended(server.child, 2 * SECONDS + 2)
    for stream in streams:
        stream.close()
    return None if end[:2] == (1, "refused serve 1 Unserved 64\n") and end[2] < KILOBYTES else f"{end}"


def followed(sends, turns=1000, wait=0):
    """How a `follow` of a server ends that is sent so."""
    with socket.socket() as listener:
        listener.bind(("127.0.0.1", 0))
        listener.listen()
        listener.settimeout(SECONDS)
        waits = ["--wait", str(wait)] if wait else []
        child = started(["follow", str(listener.getsockname()[1]), str(turns), *waits], stderr=subprocess.DEVNULL)
        stream, _ = listener.accept()
        stream.settimeout(SECONDS)
        try:
            sends(stream)
        except OSError:
            pass  # the follower went before all was sent
        stream.close()
        return ended(child)


def judged(end, wanted=None, lasts=None):
    """What is bad about how a `follow` ended, or nothing: these lines are wanted, or one of these last lines."""
    status, out, kilobytes = end
    last = out[:-1].rsplit("\n", 1)[-1]
    is_named = FOLLOWED.fullmatch(out) and STATUSES.get(last) == status
    is_wanted = (wanted is None or out == wanted) and (lasts is None or last in lasts)
    return None if is_named and is_wanted and kilobytes < KILOBYTES else f"status {status}, {out[-200:]!r}, {kilobytes} KB"


def prefix_end(frames, place):
    """What is printed of so many bytes of frames, of 1, 2, .. flags."""
    lines, start = "", 0
    for number, text in enumerate(frames, 1):
        if start + len(text) > place:
            break
        start, lines = start + len(text), lines + f"snapshot {number} flags {number}\n"
    return lines + ("ended\n" if start == place else "stopped EndedInside\n")


WRONG = {
    "a length of 0": struct.pack(">I", 0) + bytes(99),
    "a length of 7": struct.pack(">I", 7) + bytes(99),
    "a length above the limit": struct.pack(">I", 9 + LARGE) + bytes(99),
    "a length of 4 GB": b"\xff" * 4 + bytes(9999),
    "a number of 0": frame(0),
    "a number again": frame(1) + frame(1),
    "a number that falls": frame(9) + frame(8),
    "no document": frame(1, b""),
    "a document cut": frame(1, NONE[:-1]),
    "no flags": frame(1, b"{}"),
    "no JSON": frame(1, b"\xff\xfe"),
    "a deep document": frame(1, b"[" * 100_000),
    "blanks to the limit": frame(1, b" " * LARGE),
}


def follow_cases(count, randoms, draw):
    """The kinds of bad servers, with what is bad about how the follower ended."""
    frames = [frame(1, flags(1)), frame(2, flags(2)), frame(3, flags(3))]
    whole = b"".join(frames)
    for place in range(0, len(whole) + 1, max(1, len(whole) // count)):
        yield "a prefix", place, judged(followed(lambda stream: stream.sendall(whole[:place])), prefix_end(frames, place))
        reset = lambda stream: (stream.sendall(whole[:place]), time.sleep(0.02), closed(stream, True))
        yield "a reset", place, judged(followed(reset), lasts=["stopped ReadFault"])
    for number in range(randoms):
        noise = draw.randbytes(draw.choice([1, 12, 100, 9999]))
        noise = draw.choice([b"", frames[0], struct.pack(">I", draw.choice([8, 20, 8 + len(noise), LARGE]))]) + noise
        yield "random bytes", noise[:40], judged(followed(lambda stream: stream.sendall(noise)), lasts=["stopped Frame", "stopped EndedInside"])
    for kind, bytes_sent in WRONG.items():
        yield "a wrong frame", kind, judged(followed(lambda stream: stream.sendall(bytes_sent)), lasts=["stopped Frame"])
    slow = lambda stream: [(stream.sendall(frames[0][place : place + 1]), time.sleep(1)) for place in range(3)]
    yield "a byte a second", 3, judged(followed(slow), "stopped EndedInside\n")
    bytewise = lambda stream: [stream.sendall(bytes([byte])) for byte in frames[0]]
    yield "a byte at a time", "", judged(followed(bytewise), prefix_end(frames, len(frames[0])))
    yield "nothing", "a second", judged(followed(lambda stream: time.sleep(1)), "ended\n")
    many = lambda stream: [stream.sendall(frame(1 + number, flags(1, 1_000_000))) for number in range(100)]
    lines = "".join(f"snapshot {number} flags 1\n" for number in range(1, 101))
    yield "long frames by the hundred", "", judged(followed(many, 1_000_000), lines + "ended\n")
    yield "frames without end", "", judged(followed(lambda stream: [stream.sendall(frame(n)) for n in range(1, 999_999)], 50), lasts=["stopped Limit"])


def main(count=1_000_000, seed=0):
    found, bad = Counter(), 0
    with tempfile.TemporaryDirectory() as top:
        cases = [
            serve_cases(top, int(count)),
            follow_cases(int(count), min(int(count), 100), random.Random(int(seed))),
            wait_cases(top),
        ]
        for kind, case, why in (case for group in cases for case in group):
            found[kind] += 1
            if why:
                bad += 1
                print(f"BAD {kind} {case}: {why}", flush=True)
    for kind, number in found.items():
        print(f"  {number} {kind}")
    print(f"{sum(found.values())} cases, {bad} bad")
    return 1 if bad else 0


if __name__ == "__main__":
    try:
        sys.exit(main(*sys.argv[1:]))
    finally:
        for child in CHILDREN:
            if child.returncode is None:
                child.kill()
