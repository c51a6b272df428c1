"""How many resolutions the Python package makes in one thread, a second of a processor: speed.py [SECONDS]. FLAGOPS_LIBRARY names another library than
the shipped one."""
import os
import sys
import time

ROOT = os.path.dirname(os.path.dirname(os.path.dirname(os.path.abspath(__file__))))
os.environ.setdefault("FLAGOPS_LIBRARY", os.path.join(ROOT, "release", "x86_64-linux", "libflagops.so.0"))
sys.path.insert(0, os.path.join(ROOT, "library", "python"))

import flagops

SECONDS = float(sys.argv[1]) if len(sys.argv) > 1 else 2.0


def rate(name, act):
    number, end = 0, time.process_time() + SECONDS
    while time.process_time() < end:
        for _ in range(200):
            act(number)
            number += 1
    print(f"{name}: {number / SECONDS:,.0f} a second", flush=True)


with open(os.path.join(ROOT, "demo", "flags", "shop.json"), "rb") as file:
    document = file.read()
client = flagops.Client()
client.open(document)
provider = flagops.FlagopsProvider(client)
same, users = {"targetingKey": "mallory", "email": "m@example.org"}, [{"targetingKey": f"user-{i}", "email": "m@example.org"} for i in range(1000)]
rate("client, the same context", lambda i: client.resolve("checkout", False, same, moment=0))
rate("client, another context each time", lambda i: client.resolve("checkout", False, users[i % 1000], moment=0))
rate("provider, the same context", lambda i: provider.resolve_boolean_details("checkout", False, same))
rate("provider, another context each time", lambda i: provider.resolve_boolean_details("checkout", False, users[i % 1000]))
