"""From a service to a plan and back: three users are told variants over HTTP, the logs become a book, the rollout is planned on it,
the planned rule is put into the served document, and the service takes it up without another word."""
import json
import os
import shutil
import subprocess
import unittest

from program import PROGRAM, ROOT, SECONDS, wait_until
from test_service import ServiceTest, context

USERS = ("mallory", "alice", "bob")


class WholeWay(ServiceTest):
    """The way of the README."""

    def do(self, *words):
        """What a command prints that is to succeed."""
        ended = subprocess.run([PROGRAM, *words], cwd=self.folder, capture_output=True, text=True, timeout=SECONDS, check=False)
        self.assertEqual(ended.returncode, 0, ended.stderr)
        return ended.stdout

    def variants(self):
        return {user: self.flag("checkout", context(user))[1]["variant"] for user in USERS}

    def test_from_answers_to_a_plan_and_back(self):
        shutil.copy(os.path.join(ROOT, "demo", "flags", "shop.json"), os.path.join(self.folder, "shop.json"))
        self.start("--log", "log", "--workers", "2", "--poll", "1", documents=("shop.json",))
        before = self.variants()
        logs = [f"log/{name}" for name in sorted(os.listdir(os.path.join(self.folder, "log")))]
        self.assertEqual(self.do("book", "book.txt", *logs), f"inputs {len(USERS)}\nfiles {len(logs)}\n")
        with open(os.path.join(self.folder, "book.txt"), encoding="utf-8") as book:
            self.assertEqual(sorted(map(json.loads, book.read().splitlines()[2:])), sorted("checkout" + user for user in USERS))
        request = os.path.join(ROOT, "demo", "rollout", "request.json")
        plan = self.do("plan", "shop.json", request, "book.txt")
        self.assertEqual(json.loads(plan)["cost"], 0)
        self.put("plan.json", plan)
        written = self.do("apply", "--keep", "--write", "shop.json", "plan.json", request, "book.txt")
        self.assertEqual(written.split(" ")[0], "written")
        self.wait_for_snapshot(2)
        self.assertEqual(self.variants(), before)

    def wait_for_snapshot(self, number):
        wait_until(lambda: f"ofrep_snapshot {number}" in self.ask("GET", "/metrics")[2].decode().splitlines(), f"no snapshot {number}")


if __name__ == "__main__":
    unittest.main()
