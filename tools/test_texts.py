#!/usr/bin/env python3
"""Tests the changes and the long texts of try_texts.py, without the program.

usage: test_texts.py

Prints what isn't as wanted, and ends with 0 where nothing is, else with 1.
"""

import sys

import graphs as plain
import try_program as trial
import try_texts as texts
from test_graphs import want, wrong

# As many pieces as pass each limit, of which that of lines wants the most; of pieces that are many lines fewer do.
MANY, SOME, SHORT = plain.MOST_LINES + 1, 40, 100
# On graphs of 2,048 lines the plain judges take seconds.
LARGE = 10_000


def test_changes():
    want("cuts", texts.cuts(b"ab\n"), [b"", b"a", b"ab"])
    want("deletions", texts.deletions(b"ab\n"), [b"b\n", b"a\n", b"ab"])
    want("replacements", [*texts.replacements(b"ab", b"a#")], [b"#b", b"a#", b"aa"])
    want("a digit is changed into its neighbours", [*texts.replacements(b"0", b"")], [b"1", b"9"])
    want("each byte is changed into each other one", len({*texts.replacements(b"x", range(256))}), 255)
    want("insertions", texts.insertions(b"a", b"1#"), [b"1a", b"#a", b"a1", b"a#"])
    want("lines are dropped, doubled and exchanged", [*texts.line_changes(b"a\nb\n")],
         [b"b\n", b"a\na\nb\n", b"b\na\n", b"a\n", b"a\nb\nb\n", b"a\nb\n"])
    every = texts.changed(b"a 1\n", b"a\xff")
    want("the text is the first, and none is there twice", (every[0], len(every)), (b"a 1\n", len({*every})))
    each = {b"", b"a 1", b"a 2\n", b" 1\n", b"\xffa 1\n", b"a 1\na 1\n"}
    want("each kind of change is among them", each - {*every}, set())


def test_inputs():
    for asked, graph in texts.CERTIFIED:
        want(f"{asked} suits its graph", trial.refusal(asked.split(), graph), None)
    for title, asked, front, text in texts.REFUSED:
        want(f"the graph {title}", trial.refusal(asked.split(), front + b"end\n" if front else text), None)


def test_long_texts():
    for shape in texts.LONG:
        title, asked, front, piece, end, answer_of = shape
        if len(front + end) > LARGE:
            continue
        for left in {0, len(piece) - 1}:
            length = len(front + end) + (MANY if len(piece) < SHORT else SOME) * len(piece) + left
            data, words = b"".join(texts.blocks(shape, length)), asked.split()
            want(f"the length of {title}", len(data), length)
            found = trial.refusal(words, data) or (trial.verdict(data) if words == ["check"] else None)
            count = texts.pieces(shape, length)[0]
            want(f"the answer to {title}, {length} bytes", found, answer_of and answer_of(count).encode() + b"\n")


def main(words):
    if {"-h", "--help"} & {*words}:
        print(__doc__)
        return 0
    if words:
        print(__doc__, file=sys.stderr)
        return 2
    for name, test in [*globals().items()]:
        if name.startswith("test_"):
            test()
    print("\n".join([*wrong, f"{len(wrong)} not as wanted"]))
    return 1 if wrong else 0


if __name__ == "__main__":
    sys.exit(main(sys.argv[1:]))
