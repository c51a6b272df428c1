"""What the logs hold after users have polled every flag by the tag that they were told last: USERS of them, POLLS times each (once in
30 seconds for an hour, without the waits), over FLAGS flags with a rule each. First each user on a connection of its own, as devices
have them; then all of them over 16 connections at random, as behind a proxy. Prints for each the bytes and lines of the logs, how many
lines differ, the memory, and the lines that a further poll of all writes after a restart.

    bench/service/polls.py [USERS [FLAGS [POLLS]]]

Ends with 1 where the logs hold more than 1.05 times the lines that differ, lack one, or a restart writes one again."""
import json
import os
import random
import resource
import sys
import tempfile
from concurrent.futures import ThreadPoolExecutor

from service import DOCUMENT, Service

THREADS, SHARED = 4, 16
PATH = "/ofrep/v1/evaluate/flags"


def document(flags):
    return {"flags": {f"flag-{number:03}": DOCUMENT["flags"]["color"] for number in range(flags)}}


class Users:
    """Users who poll, over these connections, and the tag that each was told last."""

    def __init__(self, service, count, shared):
        self.count, self.tags, self.draw = count, {}, random.Random(1)
        self.connections = [service.connect() for _ in range(SHARED if shared else count)]

    def poll(self, connection, user):
        """One poll; says whether anything is new."""
        headers = {"Content-Type": "application/json", **({"If-None-Match": self.tags[user]} if user in self.tags else {})}
        connection.request("POST", PATH, json.dumps({"context": {"targetingKey": f"user-{user:07}"}}), headers)
        told = connection.getresponse()
        told.read()
        assert told.status in (200, 304), told.status
        self.tags[user] = told.getheader("ETag")
        return told.status == 200

    def poll_all(self):
        """Each user once; how many were told anything."""
        users = list(range(self.count))
        self.draw.shuffle(users)
        parts = [users[at::THREADS] for at in range(THREADS)]
        with ThreadPoolExecutor(THREADS) as pool:
            return sum(pool.map(self.poll_some, range(THREADS), parts))

    def poll_some(self, thread, users):
        own = self.connections[thread::THREADS] if len(self.connections) == SHARED else None
        return sum(self.poll(random.choice(own) if own else self.connections[user], user) for user in users)

    def close(self):
        for connection in self.connections:
            connection.close()


def lines_of(log):
    """The bytes of the logs, their lines, and how many of them differ."""
    count, size, distinct = 0, 0, set()
    for name in os.listdir(log):
        with open(os.path.join(log, name), "rb") as file:
            for line in file:
                count, size = count + 1, size + len(line)
                distinct.add(line)
    return size, count, len(distinct)


def polled(shared, users, flags, polls):
    """Whether the logs hold what they should."""
    with tempfile.TemporaryDirectory() as folder:
        log = os.path.join(folder, "log")
        service = Service(folder, log, "--workers", "4", document=document(flags))
        begun, crowd = service.kilobytes(), Users(service, users, shared)
        news = [crowd.poll_all() for _ in range(polls)]
        assert news[0] == users and not any(news[1:]), news
        held = service.kilobytes()
        size, count, distinct = lines_of(log)
        crowd.close()
        service.kill()
        again = Service(folder, log, "--workers", "4", document=document(flags))
        crowd = Users(again, users, shared)
        crowd.poll_all()
        crowd.close()
        after = lines_of(log)[1] - count
        again.kill()
    kind = f"over {SHARED} connections" if shared else "each on a connection"
    print(f"{users:,} users {kind}, {flags} flags, {polls} polls each: {size:,} bytes, {count:,} lines, {distinct:,} of them differ ({count / distinct:.2f}); {begun:,} kB at first, {held:,} kB at last; {after:,} lines more after a restart", flush=True)
    return distinct == users * flags and count <= 1.05 * distinct and after == 0


def main(users="1500", flags="100", polls="120"):
    soft, hard = resource.getrlimit(resource.RLIMIT_NOFILE)
    resource.setrlimit(resource.RLIMIT_NOFILE, (min(hard, max(soft, int(users) + 200)), hard))
    return 0 if all([polled(shared, int(users), int(flags), int(polls)) for shared in (False, True)]) else 1


if __name__ == "__main__":
    sys.exit(main(*sys.argv[1:]))
