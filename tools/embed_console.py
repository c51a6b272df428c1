#!/usr/bin/env python3
"""Makes the two files that embed the console, `src/source.rt` and `specs/Page.antt` of `crates/ofrep_service`, of `console/console.html`;
with `--check`, says whether they are those already. The policy beside the page names its own style and script by their digests, and
lets nothing else in."""
import base64
import hashlib
import os
import re
import sys

ROOT = os.path.dirname(os.path.dirname(os.path.abspath(__file__)))
PAGE = os.path.join(ROOT, "console", "console.html")
CRATE = os.path.join(ROOT, "crates", "ofrep_service")
MOST_LINES = 900


def policy_of(page):
    """The value of the field Content-Security-Policy (W3C, Content Security Policy Level 3) for the page."""

    def own(tag):
        found = re.findall(f"<{tag}>(.*?)</{tag}>", page, re.DOTALL)
        assert len(found) == 1, tag
        return "'sha256-" + base64.b64encode(hashlib.sha256(found[0].encode()).digest()).decode() + "'"

    return f"default-src 'none'; style-src {own('style')}; script-src {own('script')}; connect-src 'self'; img-src blob: data:; base-uri 'none'; form-action 'none'; frame-ancestors 'none'"


def literal(text):
    """A text as a literal, in one line of a source."""
    return '"' + text.replace("\\", "\\\\").replace('"', '\\"').replace("\n", "\\n") + '"'


def source_of(page):
    assert '"##' not in page
    return f"""//! The page and its policy, made of `console/console.html` by `tools/embed_console.py`.
ghost use Rattle.std.specs.Prelude.{{◌≡◌}};
ghost use Rattle.ofrep_service.specs.Page.{{page_text, policy_text}};

/// The page: HTML, in ASCII.
pub fn page_html() -> &'static str
    ensures {{ result.now ≡ page_text }}
{{
    r##"{page}"##
}}

/// The value of the field `Content-Security-Policy` that it is sent with: its own style and script, by their digests, and nothing from
/// elsewhere.
pub fn page_policy() -> &'static str
    ensures {{ result.now ≡ policy_text }}
{{
    {literal(policy_of(page))}
}}
"""


def spec_of(page):
    return f"""-- The page of the console, and the policy by which a browser takes nothing else (W3C, Content Security Policy Level 3).
-- Made of `console/console.html` by `tools/embed_console.py`.
use Rattle.std.specs.Prelude.{{ℕ, List, codes}}

unfoldable pub page_text : List ℕ
page_text = codes {literal(page)}

abbrev pub policy_text : List ℕ
policy_text = codes {literal(policy_of(page))}
"""


def files_of(page):
    """The texts of the files that embed a page, by their paths."""
    assert set(page) <= {"\n", *map(chr, range(32, 127))}, "the page has other bytes than line feeds and those of ASCII that print"
    assert page.count("\n") <= MOST_LINES, f"the page has more than {MOST_LINES} lines"
    return {os.path.join(CRATE, "src", "source.rt"): source_of(page), os.path.join(CRATE, "specs", "Page.antt"): spec_of(page)}


def text_at(path):
    with open(path, encoding="utf-8", newline="") as file:
        return file.read()


def main():
    files = files_of(text_at(PAGE))
    if sys.argv[1:] == ["--check"]:
        other = [os.path.relpath(path, ROOT) for path, text in files.items() if not os.path.exists(path) or text_at(path) != text]
        if other:
            sys.exit(f"{', '.join(other)}: not of console/console.html; run tools/embed_console.py")
    else:
        for path, text in files.items():
            with open(path, "w", encoding="utf-8", newline="") as file:
                file.write(text)


if __name__ == "__main__":
    main()
