"""Writes the pictures of docs/pictures by the program that is given: `python3 bench/pictures.py ./flagops docs/pictures`.

They are those of the demo (a plan, a rollout in steps, a set which shows that no rule fits), and of flags that are hard to draw:
with 8 and with 64 variants, and with names that have markup, 200 bytes, or another direction of writing.
"""
import json
import os
import subprocess
import sys
import tempfile

NAMES = ["<script>alert(1)</script>", "\"a\" & 'b'", "a-name-of-200-bytes-" * 10, "שלום עולם", "&amp;", "漢字の名前"]


def run(program, words, statuses=(0,)):
    """What the program prints."""
    ran = subprocess.run([program, *words], capture_output=True, text=True, encoding="utf-8", check=False)
    if ran.returncode not in statuses:
        sys.exit(f"{words}: {ran.returncode}\n{ran.stdout}{ran.stderr}")
    return ran.stdout


def written(path, text):
    with open(path, "w", encoding="utf-8") as file:
        file.write(text)
    return path


def flag(names, weight):
    """A document whose flag has these variants, each with so many points."""
    site = {"fractional": [{"var": "key"}, *([name, weight] for name in names)]}
    entry = {"state": "ENABLED", "variants": {name: name for name in names}, "defaultVariant": names[0], "targeting": site}
    return json.dumps({"flags": {"color": entry}})


def totals(names, weight):
    """Each second variant gives a part of its points to the one before."""
    moved = max(weight // 4, 1)
    return {name: weight + (moved if i % 2 == 0 else -moved) for i, name in enumerate(names)}


def drawn(program, folder, names, weight):
    """The picture of the plan for them, over 500 users."""
    page = json.dumps({"by": '{"var":["key"]}', "flag": "color", "site": 0}, separators=(",", ":"))
    users = sorted(json.dumps(f"user-{i}") for i in range(500))
    request = {"plan": 1, "flag": "color", "totals": totals(names, weight)}
    words = [
        written(os.path.join(folder, "doc"), flag(names, weight)),
        written(os.path.join(folder, "request"), json.dumps(request)),
        written(os.path.join(folder, "book"), "\n".join(['{"book":1}', page, *users, ""])),
    ]
    plan = written(os.path.join(folder, "plan"), run(program, ["plan", *words]))
    return run(program, ["picture", *words, plan])


def main(program, to):
    demo = os.path.join(os.path.dirname(os.path.dirname(os.path.abspath(__file__))), "demo")
    shop, book = os.path.join(demo, "flags", "shop.json"), os.path.join(demo, "rollout", "book.txt")
    with tempfile.TemporaryDirectory() as folder:
        made = os.path.join(folder, "made")
        for name, request in (("plan", "request.json"), ("none", "back.json")):
            asked = [shop, os.path.join(demo, "rollout", request), book]
            written(made, run(program, ["plan", *asked], (0, 3)))
            written(os.path.join(to, f"{name}.svg"), run(program, ["picture", *asked, made]))
        asked = [shop, os.path.join(demo, "ramp", "steps.json"), book]
        written(made, run(program, ["ramp", *asked]))
        written(os.path.join(to, "ramp.svg"), run(program, ["picture", "--ramp", *asked, made]))
        for name, names, weight in (
            ("eight", [f"variant-{i}" for i in range(8)], 1000),
            ("sixty-four", [f"variant-{i:02}" for i in range(64)], 2),
            ("names", NAMES, 16),
        ):
            written(os.path.join(to, f"{name}.svg"), drawn(program, folder, names, weight))


if __name__ == "__main__":
    main(*sys.argv[1:])
