"""Checks the links of the repository's pages: each relative link leads to a file or folder that exists, and to a heading where it names one.

    .ci/links.py        prints each broken link with its page and line, and ends with 1 where there is one

Links to other hosts are not followed. Headings have the anchors that GitHub gives them.
"""
import os
import re
import sys
from urllib.parse import unquote

TOP = os.path.dirname(os.path.dirname(os.path.realpath(__file__)))

# Folders that hold what was built.
BUILT = {"out", "target", "__pycache__"}

LINK = re.compile(r"\]\(\s*<?([^()\s<>]+)>?(?:\s+\"[^\"]*\")?\s*\)")
OTHER_HOST = re.compile(r"[a-z][a-z0-9+.-]*:", re.I)


def pages():
    """The paths of all pages, from the top of the repository."""
    for folder, folders, files in os.walk(TOP):
        folders[:] = sorted(name for name in folders if name not in BUILT and (name == ".ci" or not name.startswith(".")))
        for name in sorted(files):
            if name.endswith(".md"):
                yield os.path.relpath(os.path.join(folder, name), TOP)


def lines_of(page):
    """The lines of a page with their numbers, without those of code blocks and without code in a line."""
    fence = None
    with open(os.path.join(TOP, page), encoding="utf-8") as file:
        for number, line in enumerate(file, 1):
            mark = re.match(r" {0,3}(```+|~~~+)", line)
            if fence:
                fence = None if mark and line.strip() == fence else fence
            elif mark:
                fence = mark[1]
            else:
                yield number, line.rstrip("\n")


def anchors_of(page):
    """The anchors of a page's headings. A heading that is repeated has a number behind its anchor."""
    found, seen = set(), {}
    for _, line in lines_of(page):
        heading = re.match(r" {0,3}#{1,6}\s+(.*?)\s*#*$", line)
        if heading:
            text = re.sub(r"\[([^\]]*)\]\([^)]*\)", r"\1", heading[1])
            anchor = re.sub(r"[^\w\- ]", "", text.lower()).replace(" ", "-")
            found.add(anchor if anchor not in seen else f"{anchor}-{seen[anchor]}")
            seen[anchor] = seen.get(anchor, 0) + 1
    return found


def fault_of(page, link, anchors):
    """What is wrong with a link of a page, or nothing."""
    path, _, anchor = link.partition("#")
    target = os.path.normpath(os.path.join(os.path.dirname(page), unquote(path))) if path else page
    if target.startswith("..") or os.path.isabs(target):
        return "leads out of the repository"
    if not os.path.exists(os.path.join(TOP, target)):
        return f"{target} does not exist"
    if not anchor:
        return None
    if target not in anchors:
        return f"{target} is not a page, so it has no headings"
    return None if unquote(anchor) in anchors[target] else f"{target} has no heading with the anchor {anchor}"


def main():
    anchors = {page: anchors_of(page) for page in pages()}
    bad = 0
    for page in anchors:
        for number, line in lines_of(page):
            for link in LINK.findall(re.sub(r"`[^`]*`", "``", line)):
                fault = None if OTHER_HOST.match(link) else fault_of(page, link, anchors)
                if fault:
                    bad += 1
                    print(f"{page}:{number}: ({link}): {fault}")
    return 1 if bad else 0


if __name__ == "__main__":
    sys.exit(main())
