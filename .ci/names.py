"""Checks that docs/REFUSALS.md has each fault that a refusal of the program can be written with, in a row of its tables or in a list."""
import glob
import os
import re
import sys

# The faults of the calls that the program makes, and those of their names that no refusal has.
FAULTS = {
    "TextFault": set(),
    "RuleFault": set(),
    "PriceFault": set(),
    "DefFault": set(),
    "BookFault": {"LastCall", "Stranger"},
    "BookFileFault": set(),
    "TallyFileFault": set(),
    "RolloutFault": {"Request"},
    "CheckFault": set(),
    "PlanFileFault": set(),
    "LoadFault": set(),
    "PriceMismatch": set(),
    "Doubt": set(),
    "StoreFault": set(),
    "DriveFault": set(),
    "DriveRefusal": {"Drive"},
    "SourceFault": set(),
    "ShareFault": set(),
    "ReadEnd": {"Ended"},
    "RecordStop": {"Broken"},
    "FilterFault": set(),
    "TallyStop": {"Filter"},
    "JoinFault": set(),
    "LogTallyFault": set(),
    "ControlRefusal": {"Rollout", "Logs", "ReadPlan", "PrintPlan", "Check", "Keep"},
}


def names_of(source, fault):
    """The variants of an enum."""
    found = re.search(r"pub enum " + fault + r" \{\n(.*?)\n\}", source, re.S)
    return re.findall(r"^    ([A-Z]\w*)", found.group(1), re.M) if found else []


def names_told(page):
    """The names that the page explains: those of the column `name` or `doubt` of its tables, and what is code in its lists."""
    told, column = set(), None
    for line in page.split("\n"):
        cells = [cell.strip() for cell in re.split(r"(?<!\\)\|", line)]
        if line.startswith("|") and {"name", "doubt"} & {*cells}:
            column = next(i for i, cell in enumerate(cells) if cell in ("name", "doubt"))
        elif line.startswith("|"):
            told |= set(re.findall(r"\w+", cells[column])) if column else set()
        else:
            column = None
            told |= set(re.findall(r"\w+", " ".join(re.findall(r"`([^`]+)`", line)) if line.startswith("- ") else ""))
    return told


def main():
    top = os.path.join(os.path.dirname(os.path.abspath(__file__)), "..")
    with open(os.path.join(top, "docs", "REFUSALS.md"), encoding="utf-8") as page:
        told = names_told(page.read())
    sources = []
    for path in glob.glob(os.path.join(top, "crates", "*", "src", "**", "*.rt"), recursive=True):
        with open(path, encoding="utf-8") as file:
            sources.append(file.read())
    missing = 0
    for fault, silent in FAULTS.items():
        names = {name for source in sources for name in names_of(source, fault)}
        if not names:
            missing += 1
            print(f"there is no fault {fault}")
        for name in sorted(names - silent - told):
            missing += 1
            print(f"docs/REFUSALS.md has no row for {fault}::{name}")
    return 1 if missing else 0


if __name__ == "__main__":
    sys.exit(main())
