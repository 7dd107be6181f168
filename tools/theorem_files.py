#!/usr/bin/env python3
"""Compares the definitions that docs/THEOREM.md names with those that the clauses of the top call cite.

usage: theorem_files.py

A file is cited where a clause of src/top.rt or src/status.rt of connect_run imports it, or a file that is cited does. Ends
with 0 where the page names exactly these files, else with 1.
"""

import re
import sys
from pathlib import Path

ROOT = Path(__file__).resolve().parent.parent
CRATES = ROOT / "crates"
TOP = ["connect_run/src/top.rt", "connect_run/src/status.rt"]
IMPORT = re.compile(r"^\s*(?:pub )?(?:ghost )?use Rattle\.(\w+)\.specs\.(\w+)", re.M)


def imported(path):
    """The spec files of this repository that a file imports, as crate/specs/File.antt."""
    found = (f"{crate}/specs/{name}.antt" for crate, name in IMPORT.findall((CRATES / path).read_text(encoding="utf-8")))
    return {file for file in found if (CRATES / file).is_file()}


def cited():
    seen, todo = set(), [file for top in TOP for file in imported(top)]
    while todo:
        file = todo.pop()
        if file not in seen:
            seen.add(file)
            todo += imported(file)
    return seen


def named():
    """The files that the page names; one with no folder stands in that of the file before it, in a row's first in connect_run."""
    found = set()
    for row in (ROOT / "docs/THEOREM.md").read_text(encoding="utf-8").split("\n"):
        folder = "connect_run/specs"
        for file in re.findall(r"`([\w/]+\.antt)`", row):
            folder = file.rpartition("/")[0] or folder
            found.add(f"{folder}/{file.rpartition('/')[2]}")
    return found


def main(words):
    if words:
        is_asked = bool({"-h", "--help"} & {*words})
        print(__doc__, file=sys.stdout if is_asked else sys.stderr)
        return 0 if is_asked else 2
    on_page, needed = named(), cited()
    for file in sorted(needed - on_page):
        print(f"cited, and not on the page: {file}")
    for file in sorted(on_page - needed):
        print(f"on the page, and not cited: {file}")
    lines = sum((CRATES / file).read_text(encoding="utf-8").count("\n") for file in needed)
    print(f"{len(needed)} files, {lines} lines")
    return 0 if on_page == needed else 1


if __name__ == "__main__":
    sys.exit(main(sys.argv[1:]))
