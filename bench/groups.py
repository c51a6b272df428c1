#!/usr/bin/env python3
"""Draws docs/pictures/groups.svg: the groups of crates.txt, which of them each stands on, and the ways that go through them.

    bench/groups.py            writes the picture
    bench/groups.py --check    writes nothing; status 1 where the picture is not what would be written

The groups, their subjects, how many crates they have and the arrows come from crates.txt. An arrow is left out where others lead to
the same group. The places are those of ROWS below; docs/ARCHITECTURE.md says what each way does in each group.
"""
import os
import re
import sys
from xml.sax.saxutils import escape

TOP = os.path.dirname(os.path.dirname(os.path.realpath(__file__)))
PICTURE = os.path.join(TOP, "docs", "pictures", "groups.svg")

# The groups of each row, highest first: one over the whole width, or three beside one another.
ROWS = [
    ["Tests"],
    ["The program"],
    ["The service", "The library", "Rollouts"],
    [None, "Streams", "The planner"],
    ["Records", None, "Plans"],
    *(["Books"], ["Flags"], ["Targetings"], ["Rules"], ["Texts"]),
]

# The ways: the letter of each, what it is, and the groups that it goes through.
DOCUMENT = {"The program", "Texts", "Rules", "Targetings", "Flags"}
WAYS = [
    ("R", "resolve", DOCUMENT),
    ("P", "plan", DOCUMENT | {"Books", "Plans", "The planner", "Rollouts"}),
    ("H", "an HTTP request", DOCUMENT | {"Books", "Records", "Streams", "The service"}),
    ("F", "a frame", DOCUMENT | {"Streams"}),
]

WIDTH, MARGIN, COLUMN, GAP = 640, 12, 192, 20
WIDE, NARROW, BETWEEN, TOP_OF_ROWS = 62, 126, 24, 72

STYLE = """svg{color-scheme:light dark}
text{font:16px system-ui,"Segoe UI",Roboto,"Noto Sans",Arial,sans-serif;fill:#1b1b1b}
.n{font-size:20px;font-weight:700}.s,.c{fill:#555}.c{font-size:16px;font-weight:400}.e{text-anchor:end}
.p{fill:#fff}.b{fill:#f3f3f3;stroke:#8a8a8a}.a{fill:none;stroke:#8a8a8a;stroke-width:2}.h{fill:#8a8a8a}
@media(prefers-color-scheme:dark){text{fill:#f4f4f4}.s,.c{fill:#bbb}.p{fill:#171717}.b{fill:#262626}}
.m{font-size:15px;font-weight:700;text-anchor:middle;fill:#111}
.w0{fill:#e69f00}.w1{fill:#56b4e9}.w2{fill:#2fbf95}.w3{fill:#e08fbd}"""


def groups():
    """The groups by name: the subject of each and its crates, and which groups they stand on."""
    found, of, uses = {}, {}, {}
    with open(os.path.join(TOP, "crates.txt"), encoding="utf-8") as file:
        for line in file.read().splitlines()[1:]:
            if line.startswith("# "):
                name, _, subject = line[2:].partition(":")
                name = name.split(" (")[0]
                found[name] = (re.sub(r" \(docs/.*?\)", "", subject.strip()), [])
            elif line:
                crate, _, used = line.partition(":")
                crate = crate.split()[0]
                found[name][1].append(crate)
                of[crate], uses[crate] = name, used.split()
    below = {name: {of[used] for crate in crates for used in uses[crate] if used in of} - {name} for name, (_, crates) in found.items()}
    return found, below


def reduced(below):
    """Which groups each stands on, but those that it stands on through another one."""
    reach = {}
    for name, direct in below.items():
        reach[name] = direct.union(*(reach[other] for other in direct))
    return {name: [other for other in direct if not any(other in reach[between] for between in direct)] for name, direct in below.items()}


def places(found):
    """The corner, width and height of each group's box, and the height of the whole."""
    placed, y = {}, TOP_OF_ROWS
    for row in ROWS:
        height = WIDE if len(row) == 1 else NARROW
        for i, name in enumerate(row):
            if name:
                placed[name] = (MARGIN + i * (COLUMN + GAP), y, WIDTH - 2 * MARGIN if len(row) == 1 else COLUMN, height)
        y += height + BETWEEN
    missing = set(found) ^ set(placed)
    if missing:
        sys.exit(f"bench/groups.py: ROWS and crates.txt differ in {', '.join(sorted(missing))}")
    return placed, y - BETWEEN + MARGIN


def width_of(text, size):
    """At least how wide a text is, in the widest of the common fonts."""
    return sum(0.36 if c in "ijl.,:;'()| " else 0.98 if c in "mwMW@" else 0.72 if c.isupper() else 0.63 for c in text) * size


def wrapped(text, width, size, most):
    """The words of a text in at most so many lines; what does not fit is left out from a comma on."""
    while True:
        lines = [""]
        for word in text.split():
            longer = f"{lines[-1]} {word}".strip()
            if width_of(longer, size) <= width:
                lines[-1] = longer
            else:
                lines.append(word)
        if len(lines) <= most or "," not in text:
            return lines[:most]
        text = text.rpartition(",")[0]


def marks(places, y, ways):
    """The marks of ways, each at its place."""
    return [
        f'<g><title>{escape(WAYS[i][1])}</title><circle class="w{i}" cx="{x}" cy="{y}" r="11"/><text class="m" x="{x}" y="{y + 5}">{WAYS[i][0]}</text></g>'
        for x, i in zip(places, ways)
    ]


def box(name, place, subject, count):
    """A group: its name, how many crates it has, its subject, and the ways that go through it."""
    x, y, width, height = place
    ways = [i for i, (_, _, through) in enumerate(WAYS) if name in through]
    drawn = [f'<rect class="b" x="{x}" y="{y}" width="{width}" height="{height}" rx="6"/>']
    if width > COLUMN:
        lines = wrapped(subject, width - 20, 16, 1)
        drawn.append(f'<text class="n" x="{x + 10}" y="{y + 25}">{escape(name)}<tspan class="c" dx="12">{count} crates</tspan></text>')
        drawn += marks([x + width - 98 + 26 * i for i in ways], y + 20, ways)
    else:
        lines = wrapped(subject, width - 20, 16, 3)
        drawn.append(f'<text class="n" x="{x + 10}" y="{y + 25}">{escape(name)}</text>')
        drawn.append(f'<text class="s e" x="{x + width - 10}" y="{y + height - 11}">{count} crates</text>')
        drawn += marks([x + 21 + 26 * i for i in range(len(ways))], y + height - 17, ways)
    return drawn + [f'<text class="s" x="{x + 10}" y="{y + 49 + 19 * i}">{escape(text)}</text>' for i, text in enumerate(lines)]


def arrow(upper, lower):
    """An arrow from a box to one that it stands on: down to it, across to its side, or beside the boxes between them."""
    x, y, width, height = upper
    to_x, to_y, to_width, _ = lower
    left, right = max(x, to_x), min(x + width, to_x + to_width)
    if left < right:
        middle = (left + right) // 2
        return line(f"M{middle} {y + height}V{to_y}", f"M{middle - 6} {to_y - 9}h12l-6 9z")
    if to_y == y:
        return line(f"M{x + width} {y + height // 2}H{to_x}", f"M{to_x - 9} {y + height // 2 - 6}v12l9 -6z")
    if x < to_x:
        return line(f"M{x + width - 20} {y + height}V{to_y + 20}H{to_x}", f"M{to_x - 9} {to_y + 14}v12l9 -6z")
    start = f"M{x + 20} {y + height}" if to_x + to_width + GAP == x else f"M{x} {y + height - 30}H{x - GAP // 2}"
    return line(f"{start}V{to_y + 20}H{to_x + to_width}", f"M{to_x + to_width + 9} {to_y + 14}v12l-9 -6z")


def line(path, head):
    return f'<path class="a" d="{path}"/><path class="h" d="{head}"/>'


def picture():
    """The text of the picture."""
    found, below = groups()
    placed, height = places(found)
    drawn = [
        f'<svg xmlns="http://www.w3.org/2000/svg" role="img" viewBox="0 0 {WIDTH} {height}">',
        "<title>The groups of crates, and four ways through them</title>",
        f"<style>\n{STYLE}\n</style>",
        f'<rect class="p" width="{WIDTH}" height="{height}"/>',
    ]
    x = MARGIN + 12
    for i, (_, way, _) in enumerate(WAYS):
        drawn += [*marks([x], 24, [i]), f'<text x="{x + 18}" y="30">{escape(way)}</text>']
        x += round(width_of(way, 16)) + 58
    drawn.append(f'<text class="s" x="{MARGIN}" y="58">An arrow points to a group that is used, unless others lead there.</text>')
    for name, direct in reduced(below).items():
        drawn += [arrow(placed[name], placed[other]) for other in sorted(direct)]
    for name, (subject, crates) in found.items():
        drawn += box(name, placed[name], subject, len(crates))
    return "\n".join([*drawn, "</svg>", ""])


def main(words):
    text = picture()
    if words == ["--check"]:
        with open(PICTURE, encoding="utf-8") as file:
            if file.read() != text:
                print("docs/pictures/groups.svg is not the picture of crates.txt: run bench/groups.py", file=sys.stderr)
                return 1
        return 0
    with open(PICTURE, "w", encoding="utf-8") as file:
        file.write(text)
    return 0


if __name__ == "__main__":
    sys.exit(main(sys.argv[1:]))
