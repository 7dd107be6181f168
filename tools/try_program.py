#!/usr/bin/env python3
"""Tries the built program on random graphs and broken texts, and compares each answer with plain ones.

usage: try_program.py [PROGRAM [ROUNDS [SEED]]]

PROGRAM is the one that ./connect builds, ROUNDS is 300 and SEED is 1 where they are left out. Half of the rounds have graphs
of the forms of forms.py. The values of larger ones are compared with those of tools/yardstick.cpp, where a C++ compiler is.
Ends with 0 where all came out as wanted. Else it says what didn't, leaves the input as failed.graph, and ends with 1.
"""

import os
import random
import subprocess
import sys
import tempfile
from pathlib import Path

import bench
import forms
import graphs as plain

SOLVED = ["flow", "cuttree", "augment", "augment-arcs", "arborescences", "trees", "forests", "orient", "dijoin"]
# The plain searches for a best value pass over all families of disjoint sides, of which seven nodes have too many.
MOST_SEARCHED = 6
# And those over all sides, or all partitions, of which nine nodes have too many. Larger graphs have at most so many nodes.
MOST_SIDES, MOST_FORMED = 8, 20
HERE, MOST_SECONDS = Path(__file__).resolve().parent, 120
# The plain program for the values of larger graphs, where it could be built.
yardstick = None
EXIT = {"rejected": 2, "words": 3, "graph": 4, "large": 5, "unsuited": 6}


def run(program, words, data):
    try:
        done = subprocess.run([program, *words], input=data, capture_output=True, timeout=MOST_SECONDS, check=False)
    except subprocess.TimeoutExpired:
        fail(words, data, f"no answer in {MOST_SECONDS} s", "an answer")
    if done.stderr:
        fail(words, data, done.stderr, b"nothing on standard error")
    return done.stdout, done.returncode


def line(*words):
    return (" ".join(str(w) for w in words) + "\n").encode()


def refusal(words, data):
    """The line with which the program refuses the words or the input, or None."""
    place = plain.bad_word(words)
    if place:
        return line("words", place)
    if words[0] == "trial":
        return None
    if len(data) > plain.MOST_BYTES:
        return line("large", "bytes")
    try:
        graph = plain.read_graph(data)[0] if words[0] == "check" else plain.read_graph_alone(data)
    except plain.Fault as fault:
        return line("large", fault.why) if fault.why in ("nodes", "lines", "numbers", "costs") else line("graph", fault.line, fault.why)
    if words[0] == "check":
        return None
    why = plain.unfit(graph, words)
    return line("unsuited", why) if why else None


def verdict(data):
    """What `check` answers to a graph that reads and a certificate behind it."""
    graph, taken, _ = plain.read_graph(data)
    try:
        words, seen, lines, size = plain.read_certificate(graph, data[taken:])
    except plain.Bad as bad:
        return line("rejected", "malformed", bad.line)
    if size < len(data) - taken:
        return line("rejected", "malformed", lines + 1)
    why = plain.judge(graph, words, seen)
    return line("rejected", why) if why else line("accepted")


def yardstick_value(graph, words):
    """The value by the plain program, or None where there is no compiler; for a cut tree it is the sum of the weights."""
    if not yardstick:
        return None
    done = subprocess.run([yardstick, *words], input=plain.plain_text(graph), capture_output=True, timeout=120, check=True)
    return int(done.stdout)


def best_value(graph, words):
    """The value that an answer has, found another way, or None where it has none or where that would take too long."""
    if len(graph.names) > MOST_SIDES:
        return None
    if words[0] == "flow":
        s, t = (graph.number(w.encode()) for w in words[1:])
        return plain.most_walks(len(graph.names), graph.lines, graph.directed, s, t)
    if words[0] == "arborescences":
        return plain.most_arborescences(len(graph.names), graph.lines, graph.number(words[1].encode()))
    if words[0] == "trees":
        return plain.most_trees(len(graph.names), graph.lines)
    if words[0] == "forests":
        return plain.fewest_forests(len(graph.names), graph.lines)
    if words[0] in ("augment", "augment-arcs") and len(graph.names) <= MOST_SEARCHED:
        least = plain.least_arcs if graph.directed else plain.least_edges
        return least(len(graph.names), graph.lines, int(words[1]))
    if words[0] == "dijoin" and len(graph.names) <= MOST_SEARCHED:
        return plain.least_dijoin(len(graph.names), graph.lines)
    return None


def trial_answer(program, words):
    """A trial's line and exit number, by what its command answers on the graph that the plain generator makes."""
    graph, asked = plain.trial(words[1], int(words[2]), int(words[3]))
    data = plain.plain_text(graph)
    text, status = run(program, asked, data)
    said, seen, _, size = plain.read_certificate(graph, text)
    expect(asked, data, (said, size, plain.judge(graph, said, seen)), (asked, len(text), None))
    held = dict(seen)
    return line("value", held["value"]) if "value" in held else line("impossible" if "impossible" in held else "done"), status


def is_possible(graph, words):
    n, lines = len(graph.names), graph.lines
    if words[0] == "dijoin" and n > MOST_SIDES:
        return plain.has_dijoin(n, lines)
    if words[0] == "dijoin":
        return all(any(plain.enters(line, side) and not line[2] for line in lines) for side in plain.closed_sides(n, lines))
    if words[0] == "orient" and n > MOST_SIDES:
        return plain.is_connected(n, lines, False, 2 * int(words[1]))
    return words[0] != "orient" or plain.has_orientation(n, lines, int(words[1]))


def compare(program, words, data):
    text, status = run(program, words, data)
    wanted = refusal(words, data)
    if wanted:
        expect(words, data, (text, status), (wanted, EXIT[wanted.split()[0].decode()]))
        return
    if words[0] == "trial":
        expect(words, data, (text, status), trial_answer(program, words))
        return
    if words[0] == "check":
        wanted = verdict(data)
        expect(words, data, (text, status), (wanted, EXIT.get(wanted.split()[0].decode(), 0)))
        return
    graph, taken, _ = plain.read_graph(data)
    said, seen, _, size = plain.read_certificate(graph, text)
    expect(words, data, (said, size, status), (words, len(text), 0 if is_possible(graph, words) else 1))
    expect(words, data, ("impossible", None) in seen, status == 1)
    expect(words, data, plain.judge(graph, said, seen), None)
    best = best_value(graph, words) if status == 0 else None
    if best is not None:
        expect(words, data, dict(seen)["value"], best)
    value = yardstick_value(graph, words) if len(graph.names) > MOST_SIDES else None
    if value is not None:
        expect(words, data, bench.value_of(words[0], text), value)
    front = data[:taken] if data[:taken].endswith(b"\n") else data[:taken] + b"\n"
    expect(words, data, run(program, ["check"], front + text), (b"accepted\n", 0))
    for _ in range(2):
        broken = front + mutated(text)
        compare(program, ["check"], broken)


def expect(words, data, got, wanted):
    if got != wanted:
        fail(words, data, got, wanted)


def fail(words, data, got, wanted):
    Path("failed.graph").write_bytes(data)
    sys.exit(f"connect {' '.join(words)} < failed.graph\n got {got}\n wanted {wanted}")


def try_streams(program):
    """Words that are no text, a source that fails, and a sink that takes nothing: the exit numbers that only the real edges give."""
    graph = b"graph undirected\nnode a\nend\n"
    got = subprocess.run([program, b"flow", b"\xff", b"b"], input=graph, capture_output=True, check=False)
    expect(["flow", "(no text)", "b"], graph, (got.stdout, got.stderr, got.returncode), (b"", b"", 10))
    folder = os.open("/", os.O_RDONLY)
    got = subprocess.run([program, "forests"], stdin=folder, capture_output=True, check=False)
    os.close(folder)
    expect(["forests"], b"", (got.stdout, got.stderr, got.returncode), (b"", b"", 7))
    with open("/dev/full", "wb") as full:
        got = subprocess.run([program, "forests"], input=graph, stdout=full, stderr=subprocess.PIPE, check=False)
    expect(["forests"], graph, (got.stderr, got.returncode), (b"", 8))


# ---- random texts

def rarely(form, most):
    """Seldom the form of a number from 0 to the most, and now and then of one past it."""
    return form % random.choice([0, 1, most, random.randint(0, most), most + (random.random() < 0.05)]) if random.random() < 0.2 else b""


def random_graph(directed, most_nodes=7, most_lines=24):
    n = random.randint(1, most_nodes)
    names = random.sample(["a", "b", "c", "node", "end", "fixed", "cost", "x.1", "Y_2", "-", "edge", "q" * 32], n)
    lines = [b"graph directed" if directed else b"graph undirected"]
    lines += [b"node " + name.encode() + rarely(b" %d", 8192) for name in names]
    word = b"arc " if directed else b"edge "
    # Half of the digraphs have no circuit, and so closed sides.
    upward, often = directed and random.random() < 0.5, random.choice([0.1, 0.1, 0.5])
    if n > 1:
        for _ in range(random.randint(0, most_lines)):
            u, v = random.sample(names, 2)
            u, v = sorted((u, v), key=names.index) if upward else (u, v)
            end = (b" fixed" if random.random() < often else rarely(b" cost %d", 100)) if directed else b""
            lines.append(word + u.encode() + b" " + v.encode() + end)
    lines.append(b"end")
    return names, lines


def spelled(lines):
    """The lines as bytes, with other blanks, comments and line ends here and there."""
    out, loose = [], random.random() < 0.3
    for text in lines:
        if loose and random.random() < 0.3:
            text = random.choice([b" ", b"\t", b""]) + text.replace(b" ", random.choice([b" ", b"\t", b"  "])) + random.choice([b"", b" ", b"\r"])
        out.append(text + b"\n")
        if loose and random.random() < 0.15:
            out.insert(random.randint(0, len(out) - 1), random.choice([b"\n", b"# note\n", b"\t \r\n"]))
    data = b"".join(out)
    return data[:-1] if random.random() < 0.1 else data


def mutated(data):
    """The text with one or two changes of a byte, a word or a line."""
    for _ in range(random.choice([1, 1, 2])):
        kind = random.random()
        if kind < 0.25 and data:
            at = random.randrange(len(data))
            data = data[:at] + random.choice([b"", b"a", b" ", b"\n", b"\r", b"1", b"0", b"\xff", b"#"]) + data[at + 1:]
        elif kind < 0.5:
            at = random.randint(0, len(data))
            data = data[:at] + random.choice([b" ", b"\n", b"0", b"end\n", b"set\n", b"z", b"\t", b" cost 1", b" 07"]) + data[at:]
        elif kind < 0.85 and b"\n" in data:
            lines = data.split(b"\n")
            at, other = random.randrange(len(lines)), random.randrange(len(lines))
            change = random.randrange(4)
            if change == 0:
                del lines[at]
            elif change == 1:
                lines.insert(at, lines[other])
            elif change == 2:
                lines[at], lines[other] = lines[other], lines[at]
            else:
                words = lines[at].split(b" ")
                words[random.randrange(len(words))] = random.choice(data.split() or [b"x"])
                lines[at] = b" ".join(words)
            data = b"\n".join(lines)
        else:
            data = data[:random.randint(0, len(data))]
    return data


def random_words(names, directed, counts):
    if random.random() < 0.05:
        return ["trial", random.choice(plain.KINDS), str(random.randint(2, 12)), str(random.randrange(2 ** 32))]
    if random.random() < 0.1:
        pool = list(plain.COMMANDS) + plain.KINDS + names + ["0", "1", "02", "32", "33", "+1", "4294967296", "", "a b"]
        return [random.choice(pool) for _ in range(random.randint(0, 4))]
    suited = ["flow", "arborescences", "augment-arcs", "dijoin", "dijoin"] if directed else ["flow", "cuttree", "trees", "forests", "augment", "orient"]
    command = random.choice(suited if random.random() < 0.9 else SOLVED)
    pick = lambda: random.choice(names) if random.random() < 0.97 else "nobody"
    k = str(random.choice(counts))
    after = {"flow": [pick(), pick()], "arborescences": [pick()], "augment": [k], "augment-arcs": [k], "orient": [k]}
    return [command] + after.get(command, [])


# Beginnings of texts: two nodes without an arc, and nodes whose numbers add up to the most.
HEAD, ARCS = b"graph undirected\n", b"graph directed\nnode a\nnode b\n"
FULL = HEAD + b"".join(b"node x%d 8192\n" % j for j in range(1, 9))

# Inputs that random ones seldom are, and trials, which read none. In the second graph sets that lack entering arcs cross, so
# that only sets that lack leaving ones prove the answer.
FIXED = [
    (["augment-arcs", "1"], b"graph directed\nnode a\nnode b\nnode c\narc a b\narc a c\nend\n"),
    (["augment-arcs", "2"], b"graph directed\nnode c\nnode a\nnode b\n" + 2 * b"arc c a\narc c b\n" + b"arc a c\narc b c\nend\n"),
    (["augment", "3"], b"graph undirected\nnode a\nnode b\nnode c\nend\n"),
    (["augment", "32"], b"graph undirected\nnode a\nend\n"),
    (["orient", "1"], b"graph undirected\nnode a\nnode b\nnode c\nnode d\n" + b"".join(b"edge %c %c\n" % tuple(p) for p in [b"ab", b"ac", b"ad", b"bc", b"bd", b"cd"]) + b"end\n"),
    (["orient", "1"], b"graph undirected\nnode a\nnode b\nedge a b\nend\n"),
    (["dijoin"], ARCS + b"end\n"),
    (["dijoin"], ARCS + b"arc a b fixed\nend\n"),
    (["dijoin"], ARCS + b"arc a b fixed\narc a b\nend\n"),
    (["dijoin"], ARCS + b"arc a b cost 0\nend\n"),
    (["dijoin"], ARCS + 40 * b"arc a b cost 100\n" + b"end\n"),
    (["dijoin"], ARCS + b"node c\narc a b cost 2\narc b c cost 3\nend\n"),
    (["dijoin"], ARCS + b"node c\narc a b\narc c b\nend\n"),
    (["dijoin"], ARCS + b"node c\narc a b\narc b c\narc c a\nend\n"),
    (["forests"], FULL + b"end\n"),
    (["forests"], FULL + b"node x9 8192\nend\n"),
    (["forests"], FULL + b"node x1 8192\nend\n"),
    (["flow", "a", "b"], ARCS + 40 * b"arc a b cost 100\n" + b"arc b a cost 0\nend\n"),
    (["flow", "a", "b"], ARCS + 41 * b"arc a b cost 100\n" + b"end\n"),
    (["flow", "a", "b"], ARCS + 40 * b"arc a b cost 100\n" + b"arc b a fixed\nend\n"),
    (["flow", "a", "b"], ARCS + b"arc a b cost 101\nend\n"),
    (["flow", "a", "b"], ARCS + b"arc a b fixed cost 3\nend\n"),
    (["forests"], HEAD + b"node a! x\nend\n"),
    *((["trial", kind, nodes, number], b"") for kind in plain.KINDS for nodes, number in (("2", "0"), ("40", "7"), ("24", "4294967295"))),
]


def longest():
    """Texts of the greatest length and of a byte more, which who imports this file needn't hold."""
    return [(["forests"], size * b"#") for size in (plain.MOST_BYTES, plain.MOST_BYTES + 1)]


def random_input():
    """Words and a graph's text, which half of the time is of one of the forms, and seldom of one with many nodes."""
    directed = random.random() < 0.4
    if random.random() < 0.5:
        (names, lines), counts = random_graph(directed), [1, 1, 2, 2, 3, 4, 5, random.randint(1, 32)]
    else:
        few, many = random.choice([1, 2, 2, 3, 4, 5, 6, 6]), random.randint(MOST_SIDES + 1, MOST_FORMED)
        (names, lines), counts = forms.formed(directed, many if random.random() < 0.15 else few), forms.COUNTS
    return random_words(names, directed, counts), spelled(lines)


def try_all(program, rounds):
    for words, data in [*FIXED, *longest()]:
        compare(program, words, data)
    for _ in range(rounds):
        words, data = random_input()
        compare(program, words, data)
        compare(program, words, mutated(data))


def main(words):
    global yardstick
    if {"-h", "--help"} & {*words}:
        print(__doc__)
        return
    if len(words) > 3 or not all(word.isdigit() for word in words[1:]):
        sys.exit(__doc__)
    program = words[0] if words else str(HERE.parent / "crates/connect/out/connect")
    rounds, seed = (int(word) for word in [*words[1:], *["300", "1"][len(words[1:]):]])
    random.seed(seed)
    with tempfile.TemporaryDirectory() as room:
        yardstick = bench.yardstick(room)
        try_streams(program)
        try_all(program, rounds)
    print(f"{rounds} rounds from seed {seed}: as wanted")


if __name__ == "__main__":
    main(sys.argv[1:])
