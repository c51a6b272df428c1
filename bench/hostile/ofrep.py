#!/usr/bin/env python3
"""Runs the service `ofrep` of the shipped program beside refused requests for memory, failing calls and bad peers.

    bench/hostile/ofrep.py [COUNT [SEED]]

A service with a log, a stream and two workers is asked for a flag, all flags, one that is unknown, by a body that is no JSON, for
its metrics and its health, each over a connection of its own. Over `memory.c` the N-th request for memory is refused, and once more
each from the N-th on; over `devices.c` the N-th call of each kind that it makes fails, is interrupted or is short. A run is bad
where the service is ended by anything but the signal that ends it, unless it is refused by name before it serves; where an answer
is neither that of a service which lacks nothing nor 500 without a variant, or the connection is closed with an answer begun; where
an input of an answer that told a variant is not in the log; and where, what was refused or failed being over, an answer is not as
ever. Then COUNT random and cut requests and subscribers that send, read nothing, reset and go, by hundreds: the answers to the
others stay as they were, within 500 MB. COUNT bounds the places of each kind, spread over all. The last line is 'N cases, M bad';
ends with 1 where M is not 0."""
import json
import os
import random
import re
import select
import signal
import socket
import struct
import subprocess
import sys
import tempfile
import time
from collections import Counter

from forks import PROGRAM, TOP, built
from rows import read, write

SECONDS, KILOBYTES = 60, 500_000
REFUSED = re.compile(rb"refused ([\w:]+ 0 WantOfMemory|load 1 Unreadable|log 1 Unopened|log 2 InUse|bind 1 Unbound|spawn 1 NoThread|share 3 NoReader|serve \d .*)\n")
CALLS = ["open", "read", "write", "recv", "send", "accept4", "socket", "bind", "listen", "epoll_create1", "epoll_ctl", "epoll_wait", "close"]


def request(path, body=b"", method="POST", more=""):
    """The bytes of a request, behind which the connection is closed."""
    head = f"{method} {path} HTTP/1.1\r\nHost: x\r\nConnection: close\r\nContent-Length: {len(body)}\r\n{more}\r\n"
    return head.encode() + body


def context(key):
    """The body of a request for a user."""
    return json.dumps({"context": {"targetingKey": key, "email": "x@mail.example"}}).encode()


def asked(number):
    """The requests of a run, each with the input that it notes where it tells a variant."""
    flags, user = "/ofrep/v1/evaluate/flags", f"user-{number}"
    return [
        (request(f"{flags}/checkout", context(user)), f"checkout{user}"),
        (request(flags, context(user + "-all")), f"checkout{user}-all"),
        (request(f"{flags}/nothing", context(user)), None),
        (request(f"{flags}/checkout", b"{"), None),
        (request("/healthz", method="GET"), None),
        (request("/metrics", method="GET"), None),
    ]


def free_port():
    """A port on which nobody listens."""
    with socket.socket() as it:
        it.bind(("127.0.0.1", 0))
        return it.getsockname()[1]


class Service:
    """A service that was started: it serves, or has ended."""

    def __init__(self, folder, library=None, **settings):
        self.folder, self.port, self.stream = folder, free_port(), free_port()
        for name in ("worker-1.log", "worker-2.log"):
            if os.path.exists(os.path.join(folder, "log", name)):
                os.remove(os.path.join(folder, "log", name))
        write(folder, "counts", bytes(16))
        how = {"LD_PRELOAD": library, "COUNTS": os.path.join(folder, "counts")} if library else {}
        how |= {name: str(value) for name, value in settings.items()}
        words = ["ofrep", "--listen", f"127.0.0.1:{self.port}", "--log", "log", "--stream", str(self.stream), "--workers", "2", "--poll", "0", "doc"]
        with open(os.path.join(folder, "err"), "wb") as err:
            self.child = subprocess.Popen([PROGRAM, *words], cwd=folder, env=how, stdout=subprocess.PIPE, stderr=err)
        select.select([self.child.stdout], [], [], SECONDS)
        self.told = self.child.stdout.readline()
        self.starting = self.counted()

    def counted(self):
        """How many requests or calls were made."""
        return struct.unpack("q", read(self.folder, "counts")[:8])[0]

    def answer(self, text):
        """The status and the body that a request is answered; nothing where the connection was closed before."""
        got = b""
        try:
            with socket.create_connection(("127.0.0.1", self.port), SECONDS) as stream:
                stream.sendall(text)
                while more := stream.recv(65536):
                    got += more
        except ConnectionError:
            pass
        head, _, body = got.partition(b"\r\n\r\n")
        status = re.match(rb"HTTP/1.1 (\d+)", head)
        length = re.search(rb"(?i)content-length: (\d+)", head)
        is_whole = status and length and len(body) == int(length[1])
        return (int(status[1]), body) if is_whole else (None, got)

    def answers(self, number):
        """The answers to all requests, and the inputs that they tell of."""
        return [(self.answer(text), noted) for text, noted in asked(number)]

    def snapshot(self):
        """Whether a subscriber is sent a whole snapshot."""
        try:
            with socket.create_connection(("127.0.0.1", self.stream), SECONDS) as stream:
                head = stream.recv(4, socket.MSG_WAITALL)
                length = int.from_bytes(head, "big")
                return len(head) == 4 and len(stream.recv(length, socket.MSG_WAITALL)) == length
        except ConnectionError:
            return False

    def kilobytes(self):
        """The most memory that it has had."""
        with open(f"/proc/{self.child.pid}/status", encoding="ascii") as status:
            return int(re.search(r"VmHWM:\s+(\d+) kB", status.read()).group(1))

    def has_told_its_end(self):
        """Whether it has ended and said why on the error outlet."""
        if self.child.poll() != 1 or not read(self.folder, "err").endswith((b"the service has ended\n", b"or by the system\n")):
            return False
        self.ended(False)
        return True

    def ended(self, is_serving=True):
        """Ends it where it serves: the status, and the lines of its log."""
        if is_serving:
            self.child.send_signal(signal.SIGTERM)
        self.told += self.child.stdout.read()
        self.child.stdout.close()
        folder = os.path.join(self.folder, "log")
        return self.child.wait(), [line for name in os.listdir(folder) for line in read(folder, name).splitlines()]


def differs(got, right, noted, lines):
    """What is bad about an answer, which may be that the service could not give it, or nothing."""
    if noted and got[0] == 200 and json.dumps(["checkout", 0, None, noted], separators=(",", ":")).encode() not in lines:
        return f"{noted} is told and not in the log"
    is_as_ever = got[0] == right[0] and (got[1] == right[1] or right[1].startswith(b"# "))
    is_none = got == (None, b"") or (got[0] == 500 and b'"variant"' not in got[1])
    return None if is_as_ever or is_none else f"answered {got[0]} {got[1][:60]!r}"


class Trial:
    """The runs of services in a folder, and what was found."""

    def __init__(self, folder, most):
        self.folder, self.most, self.found, self.bad = folder, most, Counter(), []
        os.makedirs(os.path.join(folder, "log"), exist_ok=True)
        write(folder, "doc", read(os.path.join(TOP, "demo", "flags"), "shop.json"))
        service = Service(folder)
        self.right = [answer for answer, _ in service.answers(0)]
        service.ended()

    def judge(self, kind, place, why):
        """One more case."""
        self.found[kind] += 1
        if why:
            self.bad.append(f"{kind} {place}: {why}")
            print(f"BAD {self.bad[-1]}", flush=True)

    def places(self, count):
        """Places from 1 to a count, or as many of them as are wanted."""
        return range(1, 1 + count, max(1, -(-count // self.most)))

    def run(self, library, is_over, **settings):
        """What is bad about a service with these settings, and how it ended in a word; `is_over` where the last answers are to be as ever."""
        service = Service(self.folder, library, **settings)
        if service.told != b"serving 1\n":
            status, _ = service.ended(False)
            is_named = status == 1 and REFUSED.fullmatch(service.told)
            return None if is_named else f"status {status}, {service.told!r}", "refused at the start"
        first, _, last = service.answers(1), service.snapshot(), service.answers(2) if is_over else []
        if all(got == (None, b"") for got, _ in first):
            time.sleep(1)  # it may be ending
            if service.has_told_its_end():
                return None, "a thread could not be made, which it tells, and ends"
        has_snapshot = not is_over or service.snapshot()
        if any(got == (None, b"") for got, _ in last):
            time.sleep(1)
            if service.has_told_its_end():
                return None, "a worker could not begin, which it tells, and ends"
            # The one call that fails may be made for these, as the workers share the connections: those behind them are as ever.
            last = service.answers(3)
        kilobytes = service.kilobytes() if service.child.poll() is None else 0
        status, lines = service.ended()
        whys = [differs(got, right, noted, lines) for (got, noted), right in zip(first + last, self.right * 2)]
        if is_over:
            whys += [None if got[0] == right[0] else f"at last {got[0]} {got[1][:60]!r}" for (got, _), right in zip(last, self.right)]
        whys += [] if status == -signal.SIGTERM and kilobytes < KILOBYTES and has_snapshot else [f"status {status}, {kilobytes} KB, snapshot {has_snapshot}"]
        kinds = {"as ever" if got[0] == right[0] else "500" if got[0] else "closed" for (got, _), right in zip(first, self.right)}
        return "; ".join(filter(None, whys)), "answers: " + ", ".join(sorted(kinds))


def memory(trial, library):
    """Each request for memory is refused."""
    service = Service(trial.folder, library)
    service.answers(1), service.snapshot()
    print(f"{service.starting} requests for memory until it serves, {service.counted()} with the answers", flush=True)
    whole = service.counted()
    service.ended()
    for every in ({}, {"REFUSE_ON": 1}):
        for place in trial.places(whole):
            why, end = trial.run(library, not every, REFUSE_AT=place, **every)
            trial.judge(f"a request for memory{' and all later ones' if every else ''} refused: {end}", place, why)


def calls(trial, library):
    """Each call of a kind fails, is interrupted or is short."""
    for call in CALLS:
        service = Service(trial.folder, library, CALL=call)
        service.answers(1), service.snapshot()
        count = service.counted()
        service.ended()
        for place in trial.places(count):
            for how in ("fail", "interrupt", *(["short"] if call in ("read", "write", "recv", "send") else [])):
                if (call, how) not in (("epoll_wait", "fail"), ("socket", "interrupt"), ("bind", "interrupt"), ("listen", "interrupt")):
                    why, end = trial.run(library, True, CALL=call, CALL_AT=place, CALL_HOW=how)
                    trial.judge(f"{call} {how}: {end}", place, why)


def sent(service, text, is_reset=False):
    """Sends bytes to the service, and goes."""
    try:
        with socket.create_connection(("127.0.0.1", service.port), SECONDS) as stream:
            stream.sendall(text)
            if is_reset:
                stream.setsockopt(socket.SOL_SOCKET, socket.SO_LINGER, struct.pack("ii", 1, 0))
    except ConnectionError:
        pass


def spoiled(draw):
    """A request that is mutated."""
    text, _ = draw.choice(asked(draw.randrange(1000)))
    for _ in range(draw.randrange(1, 4)):
        place = draw.randrange(len(text) + 1)
        piece = draw.choice([b"", b"\r\n", b"\0", b"\xff" * 9, b"Content-Length: 9\r\n", b"Transfer-Encoding: chunked\r\n", b"ffffffffffffffff\r\n", b"x" * 20_000, b"%", b"[" * 5000])
        text = text[:place] + piece + text[place + draw.randrange(20) :]
    return text


def peers(trial, count, draw):
    """Bad clients and subscribers beside a good one."""
    service = Service(trial.folder)
    whole = asked(1)[0][0]
    for place in trial.places(len(whole)):
        sent(service, whole[:place], place % 2 == 0)
        trial.judge("a request is cut", place, service.child.poll())
    for number in range(count):
        answer, text = None, spoiled(draw)
        sent(service, text, number % 5 == 0)
        if number % 10 == 0:
            answer = differs(service.answer(asked(5)[0][0]), trial.right[0], None, [])
        trial.judge("a random request", text[:40], answer)
    idle = [socket.create_connection(("127.0.0.1", port), SECONDS) for port in [service.port] * 100 + [service.stream] * 100]
    for stream in idle[::3]:
        stream.setsockopt(socket.SOL_SOCKET, socket.SO_LINGER, struct.pack("ii", 1, 0))
        stream.close()
    for stream in idle[1::3]:
        stream.sendall(b"x" * 1000)
    trial.judge("hundreds that are idle, send and reset", 200, differs(service.answer(asked(6)[0][0]), trial.right[0], None, []))
    for stream in idle:
        stream.close()
    time.sleep(0.5)
    trial.judge("a subscriber behind hundreds that went", 100, None if service.snapshot() else "no snapshot")
    status = (service.kilobytes() < KILOBYTES, service.ended()[0])
    trial.judge("the service beside them", "", None if status == (True, -signal.SIGTERM) else str(status))


def main(count="1000000", seed="0"):
    with tempfile.TemporaryDirectory(dir="/dev/shm" if os.path.isdir("/dev/shm") else None) as folder:
        trial = Trial(folder, int(count))
        peers(trial, min(int(count), 10_000), random.Random(int(seed)))
        calls(trial, built("devices", folder))
        memory(trial, built("memory", folder))
    for kind, number in sorted(trial.found.items()):
        print(f"  {number} {kind}")
    print(f"{sum(trial.found.values())} cases, {len(trial.bad)} bad")
    return 1 if trial.bad else 0


if __name__ == "__main__":
    sys.exit(main(*sys.argv[1:]))
