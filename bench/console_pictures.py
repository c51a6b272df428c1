#!/usr/bin/env python3
"""Draws docs/pictures/console.png and console-dark-at-400.png: the console in Chromium, over the demo's flags and its 300 users, with
`checkout` at ten percent and nobody losing it. Needs chromium, chromedriver and pngquant."""
import os
import subprocess
import sys
import tempfile
import unittest

TOP = os.path.dirname(os.path.dirname(os.path.realpath(__file__)))
sys.path.insert(0, os.path.join(TOP, "tests"))

from browser import Chromium
from control_service import Service
from test_console import shop, shop_lines

PICTURES = [("console.png", 1200, False), ("console-dark-at-400.png", 400, True)]

# Sets the fields as a person does, and waits for the plan and its picture.
FILL = """
const set = (id, name, value) => { const it = document.getElementById(id); it[name] = value; it.dispatchEvent(new Event(name === "value" ? "input" : "change")); };
const until = async is => { while (!is()) await new Promise(go => setTimeout(go, 20)); };
location.hash = "rollout/checkout/0";
await until(() => document.getElementById("total-1"));
set("total-1", "value", 10);
set("keep-1", "checked", true);
await until(() => /^1 of 300/.test(document.getElementById("outcome").textContent));
const picture = document.getElementById("picture");
await until(() => picture.complete && picture.naturalWidth);
await new Promise(go => setTimeout(go, 300));
"""


def main():
    browser = Chromium()
    with tempfile.TemporaryDirectory() as folder:
        document, logs = os.path.join(folder, "shop.json"), os.path.join(folder, "log")
        os.mkdir(logs)
        for path, text in [(document, shop()), (os.path.join(logs, "worker-1.log"), "".join(shop_lines()))]:
            with open(path, "w", encoding="utf-8") as file:
                file.write(text)
        held = unittest.TestCase()
        server = Service(held, document, logs, allow_apply=True)
        try:
            browser.begin()
            for name, width, is_dark in PICTURES:
                browser.look(width, is_dark)
                browser.open(server.origin + "/")
                browser.run(FILL)
                path = os.path.join(TOP, "docs", "pictures", name)
                with open(path, "wb") as file:
                    file.write(browser.picture())
                subprocess.run(["pngquant", "--force", "--strip", "--output", path, "64", path], check=True)
        finally:
            browser.close()
            server.close()
            held.doCleanups()


if __name__ == "__main__":
    main()
