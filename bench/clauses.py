#!/usr/bin/env python3
"""Which clauses of public functions a change took away.

    bench/clauses.py OLD NEW     two checkouts of this repository, such as one made by `git worktree add`

Functions are the same where their type, trait and name are; of several, the one that lacks the fewest clauses is compared. A clause is
the same where its text is, whatever its label. Shown are, of each function that is in both, the clauses of OLD that NEW lacks, and the
`requires` of NEW that OLD lacks; then how many there are. It reads texts: a clause whose words have other names counts as another.
"""
import collections
import os
import re
import sys

ITEM = re.compile(
    r"(?P<impl>^(?:unsafe )?impl\b[^{;]*\{)"
    r"|(?P<trait>^pub trait (?P<of>\w+)[^{]*\{)"
    r"|(?P<end>^\}$)"
    r"|(?P<fn>^\s*(?P<pub>pub(?:\([a-z]+\))? )?(?:const |unsafe |final )*fn (?P<name>\w+))",
    re.M,
)
CLAUSE = re.compile(r"\b(ensures|requires)\b(?:\s+\w+)?\s*\{|\{|;")

Function = collections.namedtuple("Function", "crate is_public clauses")


def owner_of(header):
    """The type and the trait of an `impl`."""
    header = re.sub(r"\bwhere\b.*", "", header, flags=re.S).rstrip("{ \n")
    header = re.sub(r"^(?:unsafe )?impl(<(?:[^<>]|<[^<>]*>)*>)?\s*", "", header)
    trait, _, of = header.rpartition(" for ")
    bare = lambda words: re.sub(r"<.*", "", words.strip(), flags=re.S).strip("&' ").split("::")[-1]
    return bare(of), bare(trait)


def clauses_behind(text, place):
    """The clauses between a function's name and its body, as pairs of kind and text."""
    clauses = []
    while found := CLAUSE.search(text, place):
        if not found[1]:
            break
        end, depth = found.end(), 1
        while depth:
            depth += {"{": 1, "}": -1}.get(text[end], 0)
            end += 1
        clauses.append((found[1], " ".join(text[found.end() : end - 1].split())))
        place = end
    return clauses


def functions_in(top):
    """The functions of all crates, by type, trait and name."""
    functions = collections.defaultdict(list)
    for at, _, names in os.walk(os.path.join(top, "crates")):
        for name in sorted(names):
            if not name.endswith(".rt") or f"{os.sep}src" not in at:
                continue
            with open(os.path.join(at, name), encoding="utf-8") as file:
                text = re.sub(r"^\s*//[^\n]*\n", "\n", file.read(), flags=re.M)
            crate = os.path.relpath(at, os.path.join(top, "crates")).split(os.sep)[0]
            of, trait, in_trait = "", "", False
            for item in ITEM.finditer(text):
                if item["impl"]:
                    (of, trait), in_trait = owner_of(item["impl"]), False
                elif item["trait"]:
                    of, trait, in_trait = item["of"], "", True
                elif item["end"]:
                    of, trait, in_trait = "", "", False
                else:
                    is_public = in_trait or item["pub"] == "pub "
                    functions[of, trait, item["name"]].append(Function(crate, is_public, clauses_behind(text, item.end())))
    return functions


def changes(old, new):
    """What the function that is nearest lacks of the old one, and what it requires beside."""
    lacks = [clause for clause in old.clauses if clause[0] == "ensures" and clause not in new.clauses]
    wants = [clause for clause in new.clauses if clause[0] == "requires" and clause not in old.clauses]
    return lacks, wants


def main():
    """Compares the two trees."""
    old, new = functions_in(sys.argv[1]), functions_in(sys.argv[2])
    stay = same = gone = 0
    for key, functions in sorted(old.items()):
        for function in (each for each in functions if each.is_public):
            if key not in new:
                gone += 1
                continue
            stay += 1
            found = [(changes(function, other), other) for other in new[key]]
            (lacks, wants), other = min(found, key=lambda it: (len(it[0][0]) + len(it[0][1]), it[1].crate != function.crate))
            if not lacks and not wants:
                same += 1
                continue
            print("::".join(part for part in key if part), function.crate, *([] if other.crate == function.crate else ["->", other.crate]))
            for kind, text in lacks:
                print(f"  - {kind} {{ {text} }}")
            for kind, text in wants:
                print(f"  + {kind} {{ {text} }}")
    print(f"{stay} public functions in both, {same} with each clause; {gone} in OLD alone")


if __name__ == "__main__":
    main()
