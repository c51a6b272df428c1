"""What `apply --keep` makes of a document at random, beside what it has to make of it."""
import json
import os
import random
import subprocess
import tempfile

from documents import document_at_random
from program import PROGRAM, SECONDS

NO_INPUTS = '{"book":1}\n'


class Folder:
    """A folder in which the program runs."""

    def __init__(self, at, files):
        self.at = at
        for name, text in files.items():
            self.write(name, text)

    def write(self, name, text):
        with open(os.path.join(self.at, name), "w", encoding="utf-8", newline="") as file:
            file.write(text)

    def read(self, name):
        with open(os.path.join(self.at, name), encoding="utf-8", newline="") as file:
            return file.read()

    def run(self, *words):
        """What a run printed, and its status."""
        ended = subprocess.run([PROGRAM, *words], cwd=self.at, capture_output=True, timeout=SECONDS, check=False)
        return ended.stdout.decode(), ended.returncode


def totals_at_random(document, chance):
    """Totals for the names of the flag, which sum to the weights of the site."""
    total = sum(weight for _, weight in document.buckets)
    cuts = sorted(chance.randint(0, total) for _ in document.variants[1:])
    return dict(zip(document.variants, (b - a for a, b in zip([0, *cuts], [*cuts, total]))))


def request_for(document, chance):
    return json.dumps({"plan": 1, "flag": document.key, "site": document.site, "totals": totals_at_random(document, chance)})


def entry(bucket):
    return json.dumps(bucket, ensure_ascii=False, separators=(",", ":"))


def is_site(value):
    return isinstance(value, dict) and list(value) == ["fractional"]


def differences(old, new):
    """The pairs of values at which two trees differ, each as high as a list of a `fractional`."""
    if is_site(old) and is_site(new) and old != new and len(old["fractional"]) != len(new["fractional"]):
        return [(old, new)]
    if isinstance(old, dict) and isinstance(new, dict) and list(old) == list(new):
        return [it for name in old for it in differences(old[name], new[name])]
    if isinstance(old, list) and isinstance(new, list) and len(old) == len(new):
        return [it for a, b in zip(old, new) for it in differences(a, b)]
    return [] if old == new and type(old) is type(new) else [(old, new)]


def problem_of(seed):
    """What `apply --keep` does wrong with the document of a seed, in words, or None."""
    chance, document = random.Random(seed), document_at_random(seed)
    with tempfile.TemporaryDirectory() as at:
        files = {"doc": document.text, "request": request_for(document, chance), "book": NO_INPUTS, "next": request_for(document, chance)}
        return problem_in(Folder(at, files), document)


def problem_in(folder, document):
    plan, status = folder.run("plan", "doc", "request", "book")
    if status != 0:
        return f"the request is not planned: {plan}"
    folder.write("plan", plan)
    kept, status = folder.run("apply", "--keep", "doc", "plan", "request", "book")
    if document.shared is not None:
        return None if (kept, status) == ("refused apply 11 Shared\n", 1) else "what is shared is changed"
    rule = json.loads(plan)["rule"]
    wanted = document.front + document.mark.join(entry(it) for it in rule) + document.back
    if (kept, status) != (wanted, 0):
        return f"another text: {kept!r} in place of {wanted!r}"
    if folder.read("doc") != document.text:
        return "the document is written, which nobody asked for"
    return problem_of_tree(document, json.loads(kept), rule) or problem_of_use(folder, document, kept)


def problem_of_tree(document, tree, rule):
    """The tree is that of the document but for the buckets."""
    old = json.loads(document.text)
    if len(document.old) == len(rule):
        return None
    changed = differences(old, tree)
    if len(changed) != 1 or not is_site(changed[0][0]):
        return f"the trees differ elsewhere: {changed}"
    before, after = (it["fractional"] for it in changed[0])
    ahead = len(before) - len(document.old)
    return None if after == before[:ahead] + rule else "the list of the site has other items"


def problem_of_use(folder, document, kept):
    """The text means the flags that `apply` prints, and `--write` writes it."""
    folder.write("kept", kept)
    printed, status = folder.run("apply", "doc", "plan", document.key, str(document.site))
    folder.write("applied", printed)
    folder.write("context", json.dumps({"targetingKey": "user", "key": f"k{document.site}"}))
    for words in [
        lambda name: ("check", name),
        lambda name: ("plan", name, "next", "book"),
        lambda name: ("resolve", name, document.key, "text", '""', "context", "0"),
    ]:
        if folder.run(*words("kept")) != folder.run(*words("applied")):
            return f"another answer of {words('kept')}"
    written = folder.run("apply", "--keep", "--write", "--doubted", "doc", "plan", "request", "book")
    if written != (f"written {len(kept.encode())}\n", 0) or folder.read("doc") != kept:
        return f"not written as it is printed: {written}"
    return None if sorted(os.listdir(folder.at)) == sorted(["doc", "request", "book", "next", "plan", "kept", "applied", "context"]) else "a file is left"
