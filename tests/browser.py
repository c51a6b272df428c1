"""Browsers without a window: Chromium, driven by its own driver over WebDriver (the W3C's protocol, JSON over HTTP), and Firefox, which
takes the same commands itself over a socket (Marionette); and a place for pages."""
import base64
import http.client
import http.server
import itertools
import json
import os
import re
import socket
import subprocess
import tempfile
import threading

from program import SECONDS, found, wait_until

WORDS = ["--headless=new", "--no-sandbox", "--disable-gpu", "--disable-dev-shm-usage", "--no-first-run", "--disable-background-networking", "--disable-component-update", "--disable-sync", "--password-store=basic"]

# Firefox asks nothing of the net by itself, and tells which scripts fail.
PREFS = {
    "marionette.port": 0, "app.update.disabledForTesting": True, "app.normandy.enabled": False, "browser.shell.checkDefaultBrowser": False,
    "browser.startup.homepage_override.mstone": "ignore", "browser.startup.page": 0, "browser.safebrowsing.update.enabled": False,
    "datareporting.policy.dataSubmissionEnabled": False, "extensions.getAddons.cache.enabled": False, "network.captive-portal-service.enabled": False,
    "network.connectivity-service.enabled": False, "services.settings.server": "data:,#remote-settings-dummy/v1", "toolkit.telemetry.reportingpolicy.firstRun": False,
}


class Chromium:
    """A Chromium with one page at a time."""

    NEEDS = ("chromium", "chromedriver")

    def __init__(self):
        self.folder = tempfile.TemporaryDirectory()
        how = {"stdout": subprocess.PIPE, "stderr": subprocess.DEVNULL, "stdin": subprocess.DEVNULL, "text": True}
        self.driver = subprocess.Popen([found("chromedriver"), "--port=0"], **how)
        self.session = None
        self.port = next(int(answer[1]) for answer in map(re.compile(r"started successfully on port (\d+)").search, self.driver.stdout) if answer)

    def begin(self):
        """Starts it; before anything else."""
        options = {"binary": found("chromium"), "args": [*WORDS, f"--user-data-dir={self.folder.name}"]}
        wanted = {"capabilities": {"alwaysMatch": {"browserName": "chrome", "goog:chromeOptions": options, "timeouts": {"script": 1000 * SECONDS}}}}
        self.session = self.asked("POST", "/session", wanted)["sessionId"]

    def asked(self, method, path, value=None):
        """What the driver answers."""
        client = http.client.HTTPConnection("127.0.0.1", self.port, timeout=SECONDS)
        try:
            client.request(method, path, None if value is None else json.dumps(value), {"Content-Type": "application/json"})
            answer = json.loads(client.getresponse().read())["value"]
        finally:
            client.close()
        if isinstance(answer, dict) and "error" in answer:
            raise OSError(f"{answer['error']}: {answer['message']}")
        return answer

    def post(self, path, **given):
        return self.asked("POST", f"/session/{self.session}{path}", given)

    def open(self, url):
        self.post("/url", url=url)

    def run(self, script, *given):
        """What an asynchronous function with this body comes to in the page: its value, or the name of what it throws."""
        return self.post("/execute/async", script=asynchronous(script), args=given)

    def found(self, css):
        return reference_of(self.post("/element", using="css selector", value=css))

    def click(self, css):
        self.post(f"/element/{self.found(css)}/click")

    def fill(self, css, text):
        """Types a text in place of that of a field."""
        element = self.found(css)
        self.post(f"/element/{element}/clear")
        self.post(f"/element/{element}/value", text=text)

    def type(self, text):
        """Presses keys, wherever the focus is."""
        self.post("/actions", actions=presses(text))

    def look(self, width, is_dark):
        """Shows pages as wide as this, and dark or light."""
        self.command("Emulation.setScrollbarsHidden", hidden=True)
        self.command("Emulation.setDeviceMetricsOverride", width=width, height=900, deviceScaleFactor=1, mobile=False)
        self.command("Emulation.setEmulatedMedia", features=[{"name": "prefers-color-scheme", "value": "dark" if is_dark else "light"}])

    def picture(self):
        """The bytes of a PNG of the whole page."""
        return base64.b64decode(self.command("Page.captureScreenshot", format="png", captureBeyondViewport=True)["data"])

    def command(self, name, **given):
        return self.post("/goog/cdp/execute", cmd=name, params=given)

    def faults(self):
        """What has failed in pages since this was asked last, but answers of a status in the four hundreds."""
        lines = self.post("/se/log", type="browser")
        return [line["message"] for line in lines if line["level"] == "SEVERE" and "status of 4" not in line["message"]]

    def close(self):
        if self.session:
            self.asked("DELETE", f"/session/{self.session}")
        self.driver.terminate()
        self.driver.wait()
        self.driver.stdout.close()
        self.folder.cleanup()


Browser = Chromium


class Firefox:
    """A Firefox with one page at a time."""

    NEEDS = ("firefox-esr",)

    def __init__(self):
        self.folder = tempfile.TemporaryDirectory(ignore_cleanup_errors=True)
        self.numbers = itertools.count(1)
        with open(os.path.join(self.folder.name, "user.js"), "w", encoding="utf-8") as file:
            file.writelines(f"user_pref({json.dumps(name)}, {json.dumps(value)});\n" for name, value in PREFS.items())
        words = ["--headless", "--no-remote", "--marionette", "--remote-allow-system-access", "--profile", self.folder.name, "about:blank"]
        how = {"stdout": subprocess.DEVNULL, "stderr": subprocess.DEVNULL, "stdin": subprocess.DEVNULL}
        self.process = subprocess.Popen([found("firefox-esr"), *words], env={**os.environ, "HOME": self.folder.name, "MOZ_CRASHREPORTER_DISABLE": "1"}, **how)

    def begin(self):
        """Waits until it takes commands; before anything else."""
        path = os.path.join(self.folder.name, "MarionetteActivePort")
        wait_until(lambda: os.path.exists(path) and os.path.getsize(path), "Firefox takes commands")
        with open(path, encoding="utf-8") as file:
            self.socket = socket.create_connection(("127.0.0.1", int(file.read())), SECONDS)
        self.stream = self.socket.makefile("rb")
        self.read()
        self.post("NewSession", timeouts={"script": 1000 * SECONDS})

    def read(self):
        """A message: the number of its bytes, a colon, and JSON."""
        size = b""
        while (byte := self.stream.read(1)) != b":":
            size += byte
        return json.loads(self.stream.read(int(size)))

    def post(self, name, **given):
        return self.send(f"WebDriver:{name}", given)

    def send(self, name, given):
        body = json.dumps([0, next(self.numbers), name, given]).encode()
        self.socket.sendall(f"{len(body)}:".encode() + body)
        _, _, fault, answer = self.read()
        if fault:
            raise OSError(f"{fault['error']}: {fault['message']}")
        return answer["value"] if isinstance(answer, dict) and "value" in answer else answer

    def open(self, url):
        self.post("Navigate", url=url)

    def run(self, script, *given):
        """What an asynchronous function with this body comes to in the page: its value, or the name of what it throws."""
        return self.post("ExecuteAsyncScript", script=asynchronous(script), args=given)

    def found(self, css):
        return reference_of(self.post("FindElement", using="css selector", value=css))

    def click(self, css):
        self.post("ElementClick", id=self.found(css))

    def fill(self, css, text):
        """Types a text in place of that of a field."""
        element = self.found(css)
        self.post("ElementClear", id=element)
        self.post("ElementSendKeys", id=element, text=text)

    def type(self, text):
        """Presses keys, wherever the focus is."""
        self.post("PerformActions", actions=presses(text))

    def look(self, width, is_dark):
        """Shows pages as wide as this, and dark or light."""
        self.own("Services.prefs.setIntPref('layout.css.prefers-color-scheme.content-override', arguments[0] ? 0 : 1);", is_dark)
        self.post("SetWindowRect", width=max(width, 600), height=900)
        self.own("gBrowser.selectedBrowser.style.maxWidth = arguments[0];", f"{width}px")

    def picture(self):
        """The bytes of a PNG of the whole page."""
        return base64.b64decode(self.post("TakeScreenshot", full=True, hash=False))

    def own(self, script, *given):
        """What a script comes to that is the browser's own."""
        self.send("Marionette:SetContext", {"value": "chrome"})
        try:
            return self.post("ExecuteScript", script=script, args=given)
        finally:
            self.send("Marionette:SetContext", {"value": "content"})

    def faults(self):
        """What has failed in pages since this was asked last."""
        return self.own("""
            const lines = Services.console.getMessageArray().filter(one => one instanceof Ci.nsIScriptError && !(one.flags & Ci.nsIScriptError.warningFlag));
            Services.console.reset();
            return lines.filter(one => /^(http|blob)/.test(one.sourceName)).map(one => one.errorMessage);
        """)

    def close(self):
        self.process.terminate()
        self.process.wait()
        self.stream.close()
        self.socket.close()
        self.folder.cleanup()


def asynchronous(script):
    """The body of a function whose last argument is called with what an asynchronous function with this body comes to."""
    return f"const end = arguments[arguments.length - 1]; (async (...given) => {{ {script} }})(...arguments).then(end, fault => end({{fault: fault.name}}));"


def reference_of(answer):
    return next(iter(answer.values()))


def presses(text):
    keys = [{"type": kind, "value": key} for key in text for kind in ("keyDown", "keyUp")]
    return [{"type": "key", "id": "keys", "actions": keys}]


class Page(http.server.BaseHTTPRequestHandler):
    """An empty page at every path."""

    def do_GET(self):
        self.send_response(200)
        self.send_header("Content-Type", "text/html; charset=utf-8")
        self.end_headers()
        self.wfile.write(b"<!doctype html><title>page</title>")

    def log_message(self, *_):
        pass


class Pages:
    """A server of empty pages, and its origin."""

    def __init__(self):
        self.server = http.server.ThreadingHTTPServer(("127.0.0.1", 0), Page)
        self.origin = f"http://127.0.0.1:{self.server.server_port}"
        threading.Thread(target=self.server.serve_forever, daemon=True).start()

    def close(self):
        self.server.shutdown()
        self.server.server_close()
