"""The service asked by a page in Chromium, of another origin than its own, with the calls of OpenFeature's provider for the web."""
import unittest

from browser import Browser, Pages
from program import needs, wait_until
from test_service import DOCUMENT, FLAGS, ServiceTest, color_of, compact

# What the provider does: it asks for every flag by POST, with a body of JSON and the tag that it was told last, and keeps the flags.
PROVIDER = """
const [base, key, tag, headers] = given;
const told = await fetch(base, {
    method: "POST",
    headers: {"Content-Type": "application/json; charset=utf-8", ...(tag ? {"If-None-Match": tag} : {}), ...headers},
    body: JSON.stringify({context: {targetingKey: key}}),
});
return {status: told.status, tag: told.headers.get("ETag"), flags: told.status === 200 ? (await told.json()).flags : null};
"""

# A request that needs no leave, so that a browser sends it for any page: the page sees nothing of the answer.
UNASKED = """
const [url, text] = given;
const told = await fetch(url, {method: "POST", mode: "no-cors", body: new Blob([text])});
return told.type;
"""

# The same from a frame that has no origin, and by the two other ways by which a page sends bodies.
FRAME = """
const [url, text] = given;
const frame = document.createElement("iframe");
frame.setAttribute("sandbox", "allow-scripts");
const script = `fetch(${JSON.stringify(url)}, {method: "POST", mode: "no-cors", body: new Blob([${JSON.stringify(text)}])}).finally(() => parent.postMessage("sent", "*"))`;
frame.srcdoc = `<script>${script.replaceAll("</", "<\\\\/")}</script>`;
const sent = new Promise(resolve => addEventListener("message", event => resolve(event.data), {once: true}));
document.body.append(frame);
return await sent;
"""
BEACON = "return navigator.sendBeacon(given[0], new Blob([given[1]]));"
FORM = """
const [url, text] = given;
document.body.innerHTML = '<iframe name="shown"></iframe><form method="post" enctype="text/plain" target="shown"><input name="a"></form>';
const form = document.forms[0];
form.action = url;
form.elements[0].name = text;
const shown = new Promise(resolve => document.querySelector("iframe").addEventListener("load", () => resolve("shown"), {once: true}));
form.submit();
return await shown;
"""


@needs("chromium", "chromedriver")
class OtherOrigins(ServiceTest):
    """A page of another origin."""

    @classmethod
    def setUpClass(cls):
        cls.pages = Pages()
        cls.addClassCleanup(cls.pages.close)
        cls.browser = Browser()
        cls.addClassCleanup(cls.browser.close)
        cls.browser.begin()

    def setUp(self):
        super().setUp()
        self.browser.open(self.pages.origin)

    def url(self, path=FLAGS):
        return f"http://127.0.0.1:{self.port}{path}"

    def polled(self, key, tag=None, **headers):
        """What the provider is answered in the page."""
        return self.browser.run(PROVIDER, self.url(), key, tag, headers)

    def counted(self, series):
        """The sum of what the service counts in series that begin so."""
        lines = self.ask("GET", "/metrics")[2].decode().splitlines()
        return sum(int(line.rsplit(" ", 1)[1]) for line in lines if line.startswith(series))

    def refused(self):
        return self.counted('ofrep_requests_total{status="403"}')

    def evaluated(self):
        return self.counted("ofrep_evaluations_total{")

    def note(self, key):
        return compact(["color", 0, None, f"color{key}"])

    def test_a_page_of_a_listed_origin(self):
        """It is told every flag, no more while nothing changes, and what changes; and what it was told is on record."""
        self.start("--log", "log", "--poll", "1", "--cors", self.pages.origin)
        told = self.polled("mallory")
        self.assertEqual(told["status"], 200)
        self.assertEqual([flag for flag in told["flags"] if flag["key"] == "color"], [color_of("mallory")])
        for _ in range(3):
            self.assertEqual(self.polled("mallory", told["tag"]), {"status": 304, "tag": told["tag"], "flags": None})
        self.assertEqual(self.notes().count(self.note("mallory")), len(self.notes()))
        size = {**DOCUMENT["flags"]["size"], "defaultVariant": "one"}
        self.put("d", compact({"flags": {**DOCUMENT["flags"], "size": size}}))
        wait_until(lambda: self.polled("mallory", told["tag"])["status"] == 200, "the page is told of the change")
        new = self.polled("mallory")
        self.assertNotEqual(new["tag"], told["tag"])
        self.assertEqual([flag["value"] for flag in new["flags"] if flag["key"] == "size"], [1])

    def test_a_page_shows_a_key(self):
        self.put("k", "0123456789abcdef")
        self.start("--cors", self.pages.origin, "--keys", "k")
        self.assertEqual(self.polled("mallory")["status"], 401)
        self.assertEqual(self.polled("mallory", Authorization="Bearer 0123456789abcdef")["status"], 200)
        self.assertEqual(self.polled("mallory", **{"X-API-Key": "0123456789abcdef"})["status"], 200)

    def test_a_page_of_another_origin_is_refused(self):
        for cors in ([], ["--cors", "https://app.example.com"]):
            with self.subTest(cors):
                child = self.start("--log", "log", *cors)
                self.assertEqual(self.polled("mallory"), {"fault": "TypeError"})
                self.assertEqual(self.polled("mallory", '"x"'), {"fault": "TypeError"})
                self.assertGreater(self.refused(), 0)
                self.assertEqual((self.evaluated(), self.notes()), (0, []))
                child.kill()
                child.wait()

    def test_no_page_writes_the_log_unasked(self):
        """A browser sends some requests without asking for leave: none of them is evaluated."""
        self.start("--log", "log", "--cors", "https://app.example.com")
        text = '{"context":{"targetingKey":"mallory"}}'
        ways = [(UNASKED, "opaque"), (FRAME, "sent"), (BEACON, True), (FORM, "shown")]
        for number, (script, ended) in enumerate(ways, 1):
            with self.subTest(script):
                self.assertEqual(self.browser.run(script, self.url(f"{FLAGS}/color"), text), ended)
                wait_until(lambda: self.refused() == number, "it is refused")
        self.assertEqual((self.evaluated(), self.notes()), (0, []))


if __name__ == "__main__":
    unittest.main()
