"""The console in Chromium and Firefox."""
import contextlib
import copy
import functools
import http.client
import json
import os
import subprocess
import tempfile
import unittest
from concurrent.futures import ThreadPoolExecutor

from browser import Chromium, Firefox, Pages
from control_service import Folder, Service
from program import PROGRAM, ROOT, SECONDS, found

DEMO = os.path.join(ROOT, "demo")
PICTURES = os.environ.get("CONSOLE_PICTURES")
ENTER, TAB, SPACE, RIGHT = "\ue007", "\ue004", "\ue00d", "\ue014"


def note(page, key):
    return json.dumps([page, 0, None, f"{page}{key}"], separators=(",", ":"), ensure_ascii=False) + "\n"


# What is wrong in how the page looks: it is wider than the window, a control has no name, a text has too little contrast
# (W3C, Web Content Accessibility Guidelines 2.2, 1.4.3: 4.5).
LOOKED_AT = """
const found = [], root = document.documentElement;
if (root.scrollWidth > innerWidth) found.push(`wide: ${root.scrollWidth}`);
const seen = one => one.checkVisibility ? one.checkVisibility() && one.getClientRects().length : one.getClientRects().length;
for (const one of document.querySelectorAll("input, button, a[href], summary, [tabindex='0'], [role=img], img, table, dialog")) {
    const name = one.getAttribute("aria-label") || one.getAttribute("aria-labelledby") || one.alt || (one.labels && one.labels.length && one.labels[0].textContent.trim()) || one.textContent.trim();
    if (seen(one) && !name) found.push(`nameless: ${one.outerHTML.slice(0, 80)}`);
}
const part = value => value / 255 <= 0.04045 ? value / 255 / 12.92 : ((value / 255 + 0.055) / 1.055) ** 2.4;
const light = ([r, g, b]) => 0.2126 * part(r) + 0.7152 * part(g) + 0.0722 * part(b);
const color = text => text.match(/[\d.]+/g).map(Number);
const ground = one => { for (; one; one = one.parentElement) { const it = color(getComputedStyle(one).backgroundColor); if (it.length === 3 || it[3] === 1) return it; } return [255, 255, 255]; };
const walk = document.createTreeWalker(document.body, NodeFilter.SHOW_TEXT);
while (walk.nextNode()) {
    const one = walk.currentNode.parentElement, text = walk.currentNode.data.trim();
    if (!text || !seen(one) || one.closest("script, style, .sr, :disabled, dialog:not([open])")) continue;
    const [low, high] = [light(color(getComputedStyle(one).color)), light(ground(one))].sort((a, b) => a - b);
    if ((high + 0.05) / (low + 0.05) < 4.5) found.push(`faint: ${text.slice(0, 40)} ${((high + 0.05) / (low + 0.05)).toFixed(2)}`);
}
return found;
"""


BROWSERS = {}


def browser_of(kind):
    """The one browser of this kind, which is started by the first test that needs it."""
    if kind not in BROWSERS:
        BROWSERS[kind] = kind()
        unittest.addModuleCleanup(BROWSERS[kind].close)
        BROWSERS[kind].begin()
    return BROWSERS[kind]


def in_each_browser(test):
    """Runs a test in each browser that is here, in both at once, and tells which is not. No script fails meanwhile, and nothing is asked
    of another host."""

    @functools.wraps(test)
    def run(self):
        with ThreadPoolExecutor() as pool:
            runs = [(kind, pool.submit(copy.copy(self).run_in, kind, test)) for kind in (Chromium, Firefox)]
            for kind, ran in runs:
                with self.subTest(browser=kind.__name__):
                    ran.result()

    return run


class ConsoleTest(Folder, unittest.TestCase):
    """A console over documents and logs of a folder of its own."""

    def run_in(self, kind, test):
        lacking = [it for it in kind.NEEDS if not found(it)]
        if lacking:
            self.skipTest(f"there is no {', '.join(lacking)}")
        self.browser = browser_of(kind)
        with contextlib.ExitStack() as self.after:
            self.folder = self.after.enter_context(tempfile.TemporaryDirectory())
            os.mkdir(self.path("log"))
            self.browser.faults()
            test(self)
            self.assertEqual(self.browser.faults(), [])
            names = self.browser.run("return performance.getEntriesByType('resource').map(one => one.name);")
            self.assertEqual([name for name in names if not name.startswith((self.server.origin + "/", "blob:" + self.server.origin, "data:"))], [])

    def begin(self, document, lines, **how):
        """Opens the console over this document and these lines of two workers, some of which stand in both logs."""
        self.put("flags.json", document)
        half = len(lines) // 2
        self.put("log/worker-1.log", "".join(lines[: half + 10]))
        self.put("log/worker-2.log", "".join(lines[half:]))
        paths = self.path("flags.json"), self.path("log")
        self.server = Service(self, *paths, **how)
        self.after.callback(self.server.close)
        self.after.callback(self.browser.open, "about:blank")
        self.browser.open(self.server.origin + "/")
        self.until("document.querySelectorAll('#flag-rows tr').length")

    def until(self, script, seconds=SECONDS):
        """What the script comes to, once it comes to something."""
        body = f"const end = Date.now() + given[0]; while (Date.now() < end) {{ const found = {script}; if (found) return found; await new Promise(go => setTimeout(go, 20)); }} throw new Error();"
        found = self.browser.run(body, 1000 * seconds)
        self.assertNotIsInstance(found, dict, script)
        return found

    def until_served(self, number):
        """Waits until the service has read the document again: the snapshot of this number."""
        self.until(f"(await fetch('snapshot')).headers.get('X-Snapshot') === '{number}'")

    def asked(self):
        """The request that the page makes of its fields."""
        return json.loads(self.browser.run("return JSON.stringify(request(wantedNow()));"))

    def outcome(self):
        """The words for the plan, once it is there."""
        return self.until("document.querySelector('#result[aria-busy=false]') && document.getElementById('outcome').textContent")

    def look(self, name):
        """The page is good to look at, at two widths, light and dark. Screenshots, where they are asked for."""
        for width in (400, 1600):
            for is_dark in (False, True):
                self.browser.look(width, is_dark)
                self.until(f"Math.abs(innerWidth - {width}) < 2 && matchMedia('(prefers-color-scheme: dark)').matches === {str(is_dark).lower()}")
                self.assertEqual(self.browser.run(LOOKED_AT), [], f"{name}, {width}, {is_dark}")
                if PICTURES:
                    self.browser.run("await new Promise(go => setTimeout(go, 300));")
                    path = os.path.join(PICTURES, f"{type(self.browser).__name__.lower()}-{name}-{width}-{'dark' if is_dark else 'light'}.png")
                    with open(path, "wb") as file:
                        file.write(self.browser.picture())
        self.browser.look(1366, False)


def shop():
    with open(os.path.join(DEMO, "flags", "shop.json"), encoding="utf-8") as file:
        return file.read()


def shop_lines():
    with open(os.path.join(DEMO, "rollout", "book.txt"), encoding="utf-8") as file:
        inputs = [json.loads(line) for line in file]
    return [json.dumps(["checkout", 0, None, it], separators=(",", ":")) + "\n" for it in inputs if isinstance(it, str)]


class Rollouts(ConsoleTest):
    """The story of README, in the browser."""

    @in_each_browser
    def test_from_the_first_click_to_the_changed_file(self):
        self.begin(shop(), shop_lines(), allow_apply=True)
        before = self.text("flags.json")
        self.look("flags")
        self.browser.click("a[href='#flag/checkout']")
        self.until("document.querySelectorAll('.counts div').length === 100")
        self.look("flag")
        self.browser.click("#sites button")
        self.assertEqual(self.outcome(), "0 of 300 recorded users switch; 0 would switch if you edited it by hand. No rule that fits switches fewer.")
        self.browser.fill("#total-1", "10")
        self.browser.click("#keep-1")
        self.until("/^1 of 300/.test(document.getElementById('outcome').textContent)")
        self.assertEqual(self.outcome(), "1 of 300 recorded users switch; 10 would switch if you edited it by hand. No rule that fits switches fewer.")
        self.assertEqual(self.browser.run("return document.getElementById('total-0').value;"), "90")
        self.until("document.getElementById('picture').complete && document.getElementById('picture').naturalWidth")
        self.browser.click("#steps")
        self.until("document.querySelectorAll('#step-list details').length === 4")
        self.assertIs(self.browser.run("return document.getElementById('change').hidden;"), True)
        self.browser.click("#show-diff")
        self.until("document.querySelectorAll('#diff .added').length")
        self.look("rollout")
        self.assertEqual(self.text("flags.json"), before)
        self.browser.click("#apply")
        self.until("document.getElementById('sure').open")
        self.browser.click("#apply-no")
        self.assertEqual(self.text("flags.json"), before)
        self.browser.click("#apply")
        self.browser.fill("#who", "Änne <b>")
        self.browser.click("#apply-yes")
        self.until("document.querySelectorAll('#history-rows tr').length === 1 && !document.getElementById('history').hidden")
        cells = self.browser.run("return [...document.querySelector('#history-rows tr').cells].map(cell => cell.textContent);")
        self.assertEqual((cells[1], cells[4]), ("checkouton 5 \u2192 10, off 95 \u2192 90, by Änne <b>", "Änne <b>"))
        rule = json.loads(self.text("flags.json"))["flags"]["checkout"]["targeting"]["if"][2]["fractional"]
        self.assertEqual(sum(weight for name, weight in rule if name == "on"), 10)
        self.until("/^The document is written/.test(document.getElementById('message').textContent)")
        self.until_served("2")
        self.browser.click("#history-rows button")
        self.until("/Going back would switch 1 of 300 users/.test(document.getElementById('history-rows').textContent)")
        self.look("history")

    @in_each_browser
    def test_by_the_keyboard_alone(self):
        self.begin(shop(), shop_lines())
        focused = lambda: self.browser.run("const it = document.activeElement; return it.getAttribute('aria-label') || it.textContent;")
        for _ in range(12):
            self.browser.type(TAB)
            if focused() == "checkout":
                break
        self.browser.type(ENTER)
        self.until("!document.getElementById('flag').hidden")
        self.assertEqual(focused(), "checkout")
        while focused() != "Change this rollout":
            self.browser.type(TAB)
        self.browser.type(ENTER)
        self.until("!document.getElementById('rollout').hidden")
        while not focused().startswith("points of on"):
            self.browser.type(TAB)
        self.browser.type(TAB)
        self.browser.type(RIGHT * 5)
        while focused() != "nobody loses on":
            self.browser.type(TAB)
        self.browser.type(SPACE)
        self.until("/^1 of 300/.test(document.getElementById('outcome').textContent)")

    @in_each_browser
    def test_the_command_line_does_the_same(self):
        self.begin(shop(), shop_lines())
        self.put("log/worker-3.log.gz", "")
        self.browser.run("location.hash = 'rollout/checkout/0';")
        self.outcome()
        self.browser.fill("#total-1", "10")
        self.until("/^1 of 300/.test(document.getElementById('outcome').textContent)")
        self.assertEqual(self.browser.run("return document.getElementById('passed').textContent;"), "Not counted, as they are compressed: worker-3.log.gz.")
        line = self.browser.run("return commandLine();")
        os.symlink(PROGRAM, self.path("flagops"))
        ran = subprocess.run(["sh", "-ec", line], cwd=self.folder, env={**os.environ, "PATH": f"{self.folder}:{os.environ['PATH']}"}, capture_output=True, check=True)
        client = http.client.HTTPConnection(self.server.origin[7:])
        self.after.callback(client.close)
        client.request("POST", "/plan", json.dumps(self.asked()))
        self.assertEqual(json.loads(ran.stdout), json.loads(client.getresponse().read())["plan"])

    @in_each_browser
    def test_prices_and_prohibitions(self):
        names = ["blue", "green", "red"]
        rule = {"fractional": [[name, 10] for name in names]}
        self.begin(json.dumps({"flags": {"color": {"state": "ENABLED", "variants": {name: name for name in names}, "defaultVariant": "red", "targeting": rule}}}), [note("color", key) for key in range(300)])
        self.browser.run("location.hash = 'rollout/color/0';")
        self.outcome()
        for fold in ("forbid", "prices"):
            self.browser.run(f"document.getElementById('{fold}').closest('details').open = true;")
        self.browser.fill("#total-0", "14")
        self.browser.click("#forbid-1-0")
        self.browser.fill("#price-2-1", "3")
        self.until("document.querySelector('#result[aria-busy=false]') && document.querySelectorAll('#switch-rows tr').length")
        asked = self.asked()
        self.assertEqual((asked["forbid"], asked["prices"], sum(asked["totals"].values())), ([["green", "blue"]], [["red", "green", 3]], 30))
        rows = self.browser.run("return [...document.querySelectorAll('#switch-rows tr')].map(row => [...row.cells].slice(0, 2).map(cell => cell.textContent));")
        self.assertNotIn(["green", "blue"], rows)
        self.assertRegex(self.outcome(), "by hand, also in ways that are not allowed")
        self.look("prices")

    @in_each_browser
    def test_how_much_is_evaluated(self):
        self.begin(shop(), shop_lines())
        self.browser.run("await rates();")
        client = http.client.HTTPConnection("127.0.0.1", self.server.port)
        self.after.callback(client.close)
        for number in range(50):
            client.request("POST", "/ofrep/v1/evaluate/flags/checkout", json.dumps({"context": {"targetingKey": f"late-{number}"}}))
            client.getresponse().read()
        self.browser.run("await rates();")
        self.assertRegex(self.browser.run("return document.getElementById('rates').textContent;"), "^A minute: [A-Z_]+ [1-9]")

    @in_each_browser
    def test_no_rule_can(self):
        self.begin(shop(), shop_lines())
        self.browser.run("location.hash = 'rollout/checkout/0';")
        self.outcome()
        self.browser.fill("#total-0", "50")
        self.browser.click("#keep-0")
        self.until("/^No rule can: 95 points have \"off\"; they may only become \"off\", of which at most 50 are asked for; /.test(document.getElementById('outcome').textContent)")
        self.assertIs(self.browser.run("return document.getElementById('show-diff').disabled;"), True)
        self.look("none")

    @in_each_browser
    def test_a_document_that_changed_is_not_written(self):
        self.begin(shop(), shop_lines(), allow_apply=True)
        self.browser.run("location.hash = 'rollout/checkout/0';")
        self.outcome()
        self.browser.fill("#total-1", "10")
        self.until("/^1 of 300/.test(document.getElementById('outcome').textContent)")
        self.browser.click("#show-diff")
        self.until("!document.getElementById('change').hidden")
        changed = shop().replace("#ffffff", "#fffffe")
        self.put("flags.json", changed)
        self.browser.click("#apply")
        self.browser.click("#apply-yes")
        self.until("document.getElementById('message').className === 'bad'")
        self.assertEqual(self.text("flags.json"), changed)
        self.until_served("2")
        self.browser.fill("#total-1", "11")
        self.until("!!document.querySelector('#message button')")
        self.browser.click("#message button")
        self.until("document.getElementById('total-1').value === '5'")


class Names(ConsoleTest):
    """What documents and logs may have."""

    @in_each_browser
    def test_markup_in_names(self):
        evil = "<img src=x onerror=document.title='bad'>\"'&"
        rule = {"fractional": [[evil, 5], ["__proto__", 5], ["off", 90]]}
        document = {"flags": {evil: {"state": "ENABLED", "variants": {evil: True, "off": False, "__proto__": True}, "defaultVariant": evil, "targeting": rule}}}
        self.begin(json.dumps(document), [note(evil, key) for key in range(50)])
        self.browser.click("#flag-rows a")
        self.until("document.querySelectorAll('.counts div').length")
        self.browser.click("#sites button")
        self.outcome()
        self.browser.fill("#total-0", "20")
        self.assertRegex(self.outcome(), "^[0-9]+ of 50 recorded users switch")
        self.assertEqual(self.asked()["totals"], {evil: 20, "__proto__": 5, "off": 75})
        self.look("markup")
        self.assertEqual(self.browser.run("return [document.title, document.images.length, document.getElementById('rollout-flag').textContent];"), ["flagops", 1, evil])

    @in_each_browser
    def test_broken_and_doubted_flags_come_first(self):
        on = {"state": "ENABLED", "variants": {"on": True, "off": False}, "defaultVariant": "off"}
        flags = {"a": on, "b.c \"d\"": {**on, "state": "ON"}, "e": {**on, "targeting": {"fractional": [["on", 0]]}}, "f": {**on, "state": "DISABLED"}, "g": {**on, "variants": {}}}
        self.begin(json.dumps({"flags": flags}), [])
        rows = self.browser.run("return [...document.querySelectorAll('#flag-rows tr')].map(row => row.textContent);")
        for row, words in zip(rows, ['^b.c "d".*broken.*state is "ON"', "^g.*broken.*variants", "^e.*doubtful.*weights", "^a.*enabled", "^f.*disabled"], strict=True):
            self.assertRegex(row, words)
        self.look("broken")
        self.browser.click("#flag-rows a")
        self.until("/This flag is broken/.test(document.getElementById('flag-notes').textContent)")
        self.assertIs(self.browser.run("return document.getElementById('flag-parts').hidden;"), True)
        self.look("broken-flag")

    @in_each_browser
    def test_numbers_are_shown_as_they_are_spelled(self):
        flags = '{"flags":{"rate":{"state":"ENABLED","variants":{"low":0.50,"high":12345678901234567890,"other":1e3},"defaultVariant":"low"}}}'
        self.begin(flags, [])
        self.browser.click("#flag-rows a")
        self.assertEqual(self.browser.run("return [...document.querySelectorAll('#variant-rows td')].map(cell => cell.textContent);"), ["12345678901234567890", "0.50", "1e3"])
        self.assertRegex(self.browser.run("return document.getElementById('flag-chips').textContent;"), "number")

    @in_each_browser
    def test_ten_thousand_flags(self):
        flags = {f"flag-{number:05}": {"state": "ENABLED", "variants": {"on": True, "off": False}, "defaultVariant": "on"} for number in range(10000)}
        self.begin(json.dumps({"flags": flags}), [])
        self.assertEqual(self.browser.run("return [document.querySelectorAll('#flag-rows tr').length, document.getElementById('shown').textContent];"), [200, "10,000 flags"])
        self.browser.fill("#search", "09999")
        self.until("document.querySelectorAll('#flag-rows tr').length === 1")
        self.assertEqual(self.browser.run("return document.getElementById('shown').textContent;"), "1 of 10,000 flags")

    @in_each_browser
    def test_a_record_of_a_million_inputs(self):
        self.begin(shop(), [f'["checkout",0,null,"checkoutuser-{number}"]\n' for number in range(1_000_000)])
        self.browser.run("location.hash = 'rollout/checkout/0';")
        self.outcome()
        self.browser.fill("#total-1", "10")
        self.browser.click("#keep-1")
        self.until("/^[1-9].* of 1,000,000/.test(document.getElementById('outcome').textContent)")


class Strangers(ConsoleTest):
    """Pages of other origins, and other names of the host."""

    @in_each_browser
    def test_another_origin_gets_nothing(self):
        self.begin(shop(), shop_lines())
        pages = Pages()
        self.after.callback(pages.close)
        self.browser.open(pages.origin)
        found = self.browser.run("const found = []; for (const path of ['flags', 'history', 'snapshot']) found.push(await fetch(given[0] + path).then(() => 'answered', fault => fault.name)); return found;", self.server.origin + "/")
        self.assertEqual(found, ["TypeError"] * 3)
        # What the browser says of this is no error of the console's.
        self.browser.faults()
        self.browser.open(self.server.origin + "/")

    @in_each_browser
    def test_another_name_of_the_host(self):
        self.begin(shop(), shop_lines())
        for host, status in [("example.com", 403), (self.server.origin[7:], 200)]:
            client = http.client.HTTPConnection(self.server.origin[7:])
            client.request("GET", "/flags", headers={"Host": host})
            self.assertEqual(client.getresponse().status, status)
            client.close()


if __name__ == "__main__":
    unittest.main()
