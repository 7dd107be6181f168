#!/usr/bin/env python3
"""Tries the examples of docs/FORMATS.md, each by the plain judges of graphs.py and by the built program.

usage: try_examples.py [PROGRAM | --plain]

PROGRAM is the one that ./connect builds, where it is left out; with --plain only the judges are asked. Ends with 0 where all
answers are those of the page, else with 1.
"""

import re
import sys
from pathlib import Path

import try_program as trial

ROOT = Path(__file__).resolve().parent.parent
WHOLE, BEHIND = "| Input | Words | Answer | Why |", re.compile(r"\| Behind `(\S+)` \| Answer \| Why \|")


def bare(cell):
    return cell.strip().strip("`")


def text_of(cell):
    lines = bare(cell)
    return "".join(line + "\n" for line in lines.split(" / ")).encode() if lines else b""


def examples():
    """The words, the input and the answer of each row of a table of examples."""
    graph = None
    for line in (ROOT / "docs/FORMATS.md").read_text(encoding="utf-8").split("\n"):
        behind = BEHIND.fullmatch(line)
        if behind or line == WHOLE or not line.startswith("|"):
            graph = (ROOT / behind[1]).read_bytes() if behind else b"" if line == WHOLE else None
        elif graph is not None and not line.startswith("|---"):
            cells = line.split("|")[1:-1]
            if graph:
                yield ["check"], graph + text_of(cells[0]), bare(cells[1])
            else:
                yield bare(cells[1]).split(), text_of(cells[0]), bare(cells[2])


def plainly(words, data):
    return trial.refusal(words, data) or (trial.verdict(data) if words == ["check"] else b"")


def main(words):
    if {"-h", "--help"} & {*words} or len(words) > 1:
        print(__doc__, file=sys.stderr if len(words) > 1 else sys.stdout)
        return 2 if len(words) > 1 else 0
    program = words[0] if words else str(ROOT / "crates/connect/out/connect")
    tried = wrong = 0
    for asked, data, wanted in examples():
        wanted = (wanted + "\n").encode()
        found = {"by the judges": plainly(asked, data)}
        if program != "--plain":
            text, status = trial.run(program, asked, data)
            found["by the program"] = text if status == trial.EXIT.get(wanted.split()[0].decode(), 0) else (text, status)
        tried += 1
        for who, got in found.items():
            if got != wanted:
                wrong += 1
                print(f"{' '.join(asked)} on {data!r}\n    {who} {got!r}\n    on the page {wanted!r}")
    print(f"{tried} examples, {wrong} answers that aren't those of the page")
    return 1 if wrong or not tried else 0


if __name__ == "__main__":
    sys.exit(main(sys.argv[1:]))
