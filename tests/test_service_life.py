"""The life of an OFREP provider beside edits that break a flag: what it is told, what operations are told, and that a mended document
is served."""
import concurrent.futures
import http.client
import json
import threading
import unittest

from program import SECONDS, wait_until
from test_service import DOCUMENT, FLAGS, Changing, color_of, compact, context

GOOD = DOCUMENT["flags"]

# An edit of each kind that breaks a flag which is good, or loses it, and what is told of it.
EDITS = [
    ("another state", compact({"flags": {**GOOD, "color": {**GOOD["color"], "state": "ON"}}}), "broken: flags.color.state"),
    ("a default variant that is none", compact({"flags": {**GOOD, "color": {**GOOD["color"], "defaultVariant": "green"}}}), "broken: flags.color.defaultVariant"),
    ("an operator that is none", compact({"flags": {**GOOD, "color": {**GOOD["color"], "targeting": {"fractonal": []}}}}), "broken: flags.color.targeting"),
    ("a flag without variants", compact({"flags": {**GOOD, "size": {"state": "ENABLED"}}}), "broken: flags.size.variants"),
    ("a comma too many", compact({"flags": GOOD})[:-2] + ",}}", '"d" is not valid JSON'),
    ("an empty file", "", '"d" is empty, which is not valid JSON'),
    ("a flag within another", compact({"flags": {"size": {**GOOD["size"], "color": GOOD["color"]}}}), 'it still has "color"'),
]


class Provider:
    """A client that polls every flag by the tag that it was told last, evaluates one, and keeps what is not as it should be."""

    def __init__(self, port, key):
        self.client, self.key, self.tag, self.wrong, self.polls, self.sizes = http.client.HTTPConnection("127.0.0.1", port, timeout=SECONDS), key, None, [], 0, []
        self.color = color_of(key)

    def asked(self, path, headers):
        self.client.request("POST", path, context(self.key), {"Content-Type": "application/json", **headers})
        answer = self.client.getresponse()
        text = answer.read()
        return answer.status, answer.getheader("ETag"), json.loads(text) if text else None

    def poll(self):
        """One poll: what is there has every good flag, and none that is worse than before."""
        status, tag, told = self.asked(FLAGS, {"If-None-Match": self.tag} if self.tag else {})
        self.tag, self.polls = tag, self.polls + 1
        if status == 200:
            flags = {flag["key"]: flag for flag in told["flags"]}
            self.sizes.append(flags.get("size", {}).get("value"))
            if flags.get("color") != self.color or "errorCode" in flags.get("size", {"errorCode": 1}):
                self.wrong.append(told)
        elif status != 304:
            self.wrong.append((status, told))
        status, _, told = self.asked(f"{FLAGS}/color", {})
        if (status, told) != (200, self.color):
            self.wrong.append((status, told))

    def live(self, is_over):
        while not is_over.is_set():
            self.poll()
        self.client.close()


class Lives(Changing):
    PROVIDERS = 4

    def is_refused(self):
        lines = self.ask("GET", "/metrics")[2].decode().splitlines()
        return 'flagops_documents_refused{place="1"} 1' in lines

    def test_no_provider_sees_an_edit_that_breaks(self):
        self.child = self.start("--log", "log", "--poll", "1")
        providers, is_over = [Provider(self.port, f"user-{number}") for number in range(self.PROVIDERS)], threading.Event()
        with concurrent.futures.ThreadPoolExecutor() as pool:
            lives = [pool.submit(provider.live, is_over) for provider in providers]
            try:
                self.edited(providers)
            finally:
                is_over.set()
        for life in lives:
            life.result()
        self.assertEqual([provider.wrong for provider in providers], [[]] * self.PROVIDERS)
        for provider in providers:
            wanted = [2] + [1, 2] * (len(EDITS) // 2) + [1] * (len(EDITS) % 2)
            self.assertEqual(provider.sizes, wanted)
        noted = set(self.notes())
        for provider in providers:
            self.assertIn(compact(["color", 0, None, f"color{provider.key}"]), noted)

    def edited(self, providers):
        """Each edit in turn: refused, told and counted while the providers poll on; then a good one, which all of them see."""
        for turn, (name, text, part) in enumerate(EDITS):
            with self.subTest(name):
                self.polled(providers)
                self.put("d", text)
                self.told(self.child, part)
                wait_until(self.is_refused, "it is counted")
                self.assertEqual(self.ask("GET", "/readyz")[0], 200)
                self.polled(providers)
                self.put("d", self.changed("two" if turn % 2 else "one"))
                self.until(2 if turn % 2 else 1)
                wait_until(lambda: not self.is_refused(), "the mended one is accepted")
                self.polled(providers)

    def polled(self, providers):
        """Waits until each provider has polled twice more, so once from its begin to its end."""
        before = [provider.polls for provider in providers]
        wait_until(lambda: all(provider.polls > polls + 1 or provider.wrong for provider, polls in zip(providers, before)), "each polls on")


if __name__ == "__main__":
    unittest.main()
