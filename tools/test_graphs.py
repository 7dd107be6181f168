#!/usr/bin/env python3
"""Tests the judges of graphs.py against small cases by hand and, for the best values, against searches over all objects.

usage: test_graphs.py

Prints what isn't as wanted, and ends with 0 where nothing is, else with 1.
"""

import itertools
import random
import sys

import graphs as plain

wrong, tried = [], 0


def want(title, got, wanted):
    global tried
    tried += 1
    if got != wanted:
        wrong.append(f"{title}\n    got {got}\n    wanted {wanted}")


def graph_of(kind, text):
    """A graph from words such as "ab bc", whose nodes are the letters in order; * before a word marks an arc that is fixed."""
    graph = plain.Graph(kind == "directed")
    graph.names = [c.encode() for c in sorted({*text} - {*" *."})]
    graph.numbers = [0 for _ in graph.names]
    for word in text.replace(".", " ").split():
        if len(word.strip("*")) == 2:
            u, v = (graph.number(c.encode()) for c in word.strip("*"))
            graph.lines.append((u, v, word.startswith("*"), 1))
    return graph


EDGES = lambda text: graph_of("undirected", text)
ARCS = lambda text: graph_of("directed", text)
SQUARE, K4, TRIANGLE = EDGES("ab bd ac cd"), EDGES("ab ac ad bc bd cd"), EDGES("ab ac bc")


# ---- graph texts

def fault_of(text, alone=True):
    try:
        (plain.read_graph_alone if alone else plain.read_graph)(text.encode())
    except plain.Fault as fault:
        return fault.line, fault.why
    return None


def test_graph_texts():
    head = "graph undirected\nnode a\nnode b\n"
    arcs = "graph directed\nnode a\nnode b\n"
    full = "graph undirected\n" + "".join(f"node {j} 8192\n" for j in range(8))
    for text, fault in [
        (head + "edge a b\nend\n", None),
        ("# note\r\n\n\tgraph  undirected \nnode a\nend", None),
        ("", (1, "header")),
        ("node a\n", (1, "header")),
        ("graph mixed\n", (1, "header")),
        (head, (4, "noend")),
        (head + "graph undirected\n", (4, "line")),
        (head + "edge a\n", (4, "line")),
        (head + "end a\n", (4, "line")),
        (head + "arc a b\n", (4, "kind")),
        (head + "edge a b!\n", (4, "name")),
        (head + "node " + 33 * "a" + "\n", (4, "name")),
        (head + "node a\n", (4, "twice")),
        (head + "edge a c\n", (4, "unknown")),
        (head + "edge a a\n", (4, "loop")),
        ("graph directed\nend\n", (2, "nonode")),
        ("graph directed\nnode fixed\nnode end\narc fixed end fixed\nend\n", None),
        (head + "end\nedge a b\n", (5, "line")),
        (head + "end\n# note\n", None),
        ("graph directed\n" + "".join(f"node {j}\n" for j in range(129)), (130, "nodes")),
        (head + 2049 * "edge a b\n" + "end\n", (3 + 2049, "lines")),
        (head + "node c 8192\nend\n", None),
        (head + "node c 8193\n", (4, "number")),
        (head + "node c 01\n", (4, "number")),
        (head + "node c -1\n", (4, "number")),
        (head + "node c! x\n", (4, "name")),
        (head + "node a x\n", (4, "number")),
        (head + "node c 1 2\n", (4, "line")),
        (head + "edge a b cost 1\n", (4, "line")),
        (head + "arc a b cost x\n", (4, "kind")),
        (arcs + "arc a b cost 100\narc b a cost 0\nend\n", None),
        (arcs + "arc a b cost 101\n", (4, "number")),
        (arcs + "arc a c cost x\n", (4, "number")),
        (arcs + "arc a b cost\n", (4, "line")),
        (arcs + "arc a b fixed cost 3\n", (4, "line")),
        (full + "node a\nend\n", None),
        (full + "node a 1\n", (10, "numbers")),
        (full + "node 0 1\n", (10, "twice")),
        (arcs + 40 * "arc a b cost 100\n" + "arc b a cost 0\nend\n", None),
        (arcs + 40 * "arc a b cost 100\n" + "arc b a fixed\n", (44, "costs")),
        (arcs + 40 * "arc a b cost 100\n" + "arc b b\n", (44, "loop")),
    ]:
        want(f"the fault of {text[:60]!r}", fault_of(text), fault)
    graph, *_ = plain.read_graph(b"graph directed\nnode a 7\nnode b\narc a b cost 3\narc b a fixed\narc a b\nend\n")
    want("numbers and costs are read", (graph.numbers, graph.lines), ([7, 0], [(0, 1, False, 3), (1, 0, True, 1), (0, 1, False, 1)]))
    want("what follows a graph isn't read with it", fault_of(head + "end\nedge a b\n", alone=False), None)


def test_words():
    for words, place in [([], 1), (["fly"], 1), (["flow"], 2), (["flow", "a"], 3), (["flow", "a", "b"], None),
                         (["flow", "a", "b", "c"], 4), (["trees"], None), (["trees", "a"], 2), (["augment", "0"], 2),
                         (["augment", "32"], None), (["augment", "33"], 2), (["augment", "02"], 2), (["orient"], 2)]:
        want(f"the first bad place of {words}", plain.bad_word(words), place)
    for graph, words, why in [(SQUARE, ["flow", "a", "d"], None), (SQUARE, ["flow", "a", "e"], "node"),
                              (SQUARE, ["flow", "a", "a"], "same"), (SQUARE, ["arborescences", "a"], "kind"),
                              (ARCS("ab"), ["trees"], "kind"), (EDGES("a"), ["trees"], "small"),
                              (ARCS("a"), ["arborescences", "a"], "small"), (EDGES("a"), ["augment", "3"], None)]:
        want(f"why {words} is unsuited", plain.unfit(graph, words), why)


def test_generated():
    want("the first draw from 0", plain.draws(0)(10), 7)
    graph, words = plain.trial("augment-arcs", 2, 5)
    want("two nodes have seven parallel lines", (graph.lines, graph.directed, words), (7 * [(0, 1, False, 1)], True, ["augment-arcs", "4"]))
    graph, words = plain.trial("flow", 40, 7)
    want("a tree comes first, and each line goes up", ([h for _, h, *_ in graph.lines[:39]], all(t < h for t, h, *_ in graph.lines)),
         (list(range(1, 40)), True))
    want("the ends of a flow", words, ["flow", "n1", "n40"])
    want("its text reads back", plain.read_graph(plain.plain_text(graph))[0].lines, graph.lines)


# ---- counts and objects

def test_counts():
    digraph = ARCS("ab bc ca ac ac")
    for count, side, wanted in [(plain.degree, {0}, 4), (plain.leaving, {0}, 3), (plain.entering, {0}, 1),
                                (plain.induced, {0, 2}, 3), (plain.degree, set(), 0), (plain.induced, {0, 1, 2}, 5)]:
        want(f"{count.__name__} of {side}", count(digraph.lines, side), wanted)
    want("lines between classes", plain.between(K4.lines, [{0, 1}, {2}, {3}]), 5)
    want("how many partitions", [len(list(plain.partitions(list(range(n))))) for n in range(1, 6)], [1, 2, 5, 15, 52])
    want("how many sides", len(list(plain.sides([0, 1, 2]))), 7)
    want("how many disjoint families of three nodes", len(list(plain.disjoint_families(3))), 14)
    want("one node has no proper side", list(plain.disjoint_families(1)), [[]])


def test_objects():
    walk = lambda graph, *numbers: plain.is_walk(graph, 0, 3, numbers)
    want("a walk goes by its lines in turn", [walk(SQUARE, 0, 1), walk(SQUARE, 1, 0), walk(SQUARE), walk(SQUARE, 0)],
         [True, False, False, False])
    want("a walk may not go against an arc", [walk(ARCS("ab bd cd"), 0, 1), walk(ARCS("ba bd cd"), 0, 1)], [True, False])
    want("a walk may pass a node twice", plain.is_walk(EDGES("ab bc bc bd"), 0, 3, [0, 1, 2, 3]), True)
    want("forests", [plain.is_forest(3, p) for p in ([(0, 1), (1, 2)], [(0, 1), (0, 1)], [(0, 1), (1, 2), (0, 2)], [])],
         [True, False, False, True])
    arborescence = lambda text: plain.is_arborescence(4, ARCS("abcd. " + text).lines, 0)
    want("arborescences", [arborescence(t) for t in ("ab bc cd", "ab ac ad", "ab cd dc", "ab bc cb", "ba bc bd", "ab bc")],
         [True, True, False, False, False, False])
    want("walks in the square", plain.most_walks(4, SQUARE.lines, False, 0, 3), 2)
    want("walks that need a detour", plain.most_walks(4, ARCS("ab ac bc bd cd").lines, True, 0, 3), 2)
    want("connectivity", [plain.connectivity(4, K4.lines, False), plain.connectivity(3, ARCS("ab bc ca").lines, True),
                          plain.connectivity(3, ARCS("ab bc").lines, True), plain.connectivity(1, [], False)], [3, 1, 0, None])


def test_best_values():
    want("trees of K4", plain.most_trees(4, K4.lines), 2)
    want("forests of K4, of a triangle and of no edge",
         [plain.fewest_forests(g, ls) for g, ls in ((4, K4.lines), (3, TRIANGLE.lines), (3, []))], [2, 2, 0])
    want("arborescences of the complete digraph", plain.most_arborescences(3, ARCS("ab ac ba bc ca cb").lines, 0), 2)
    want("edges that a path lacks", [plain.least_edges(3, EDGES("ab bc").lines, k) for k in (1, 2, 3)], [0, 1, 3])
    want("edges that three nodes lack", [plain.least_edges(3, [], k) for k in (1, 2, 3)], [2, 3, 5])
    want("arcs that a star lacks", plain.least_arcs(3, ARCS("ab ac").lines, 1), 2)
    want("arcs where sets cross", plain.least_arcs(3, ARCS("ca ca cb cb ac bc").lines, 2), 2)
    want("orientations", [plain.has_orientation(4, K4.lines, 1), plain.has_orientation(2, EDGES("ab").lines, 1),
                          plain.has_orientation(2, EDGES("ab ab").lines, 1), plain.has_orientation(1, [], 5)],
         [True, False, True, True])


def test_dijoins():
    want("closed sides of two arcs into one node", plain.closed_sides(3, ARCS("ab cb").lines), [{1}, {0, 1}, {1, 2}])
    costly = [(0, 1, False, 2), (1, 2, False, 3)]
    want("least dijoins", [plain.least_dijoin(n, lines) for n, lines in
                           ((3, ARCS("ab cb").lines), (3, ARCS("ab bc ca").lines), (2, []), (2, ARCS("*ab").lines), (2, ARCS("*ab ab").lines), (3, costly))],
         [2, 0, None, None, 1, 5])


# ---- the best values, by searches over all objects

def fewest_new(n, lines, directed, k):
    """The fewest new lines by a search over all lists of them, or None where it takes more than four."""
    pairs = [(u, v) for u in range(n) for v in range(n) if u < v or directed and u > v]
    for count in range(5):
        for new in itertools.combinations_with_replacement(pairs, count):
            if plain.is_connected(n, [*lines, *new], directed, k):
                return count
    return None


def turned(n, lines, k):
    """Whether one of all orientations is k-arc-connected."""
    return any(plain.is_connected(n, [(u, v) if straight else (v, u) for (u, v), straight in zip(lines, ways)], True, k)
               for ways in itertools.product([True, False], repeat=len(lines)))


def most_parts(lines, good, size):
    """The most disjoint sets of so many lines that are good, by a search over all of them."""
    parts = [set(p) for p in itertools.combinations(range(len(lines)), size) if good([lines[j] for j in p])]

    def most(used, at):
        return max((1 + most(used | parts[i], i + 1) for i in range(at, len(parts)) if not used & parts[i]), default=0)
    return most(set(), 0)


def cheapest_dijoin(n, lines):
    """The least cost of a dijoin without fixed arcs by a search over all sets of arcs, or None."""
    free = [j for j in range(len(lines)) if not lines[j][2]]
    costs = [sum(lines[j][3] for j in join) for size in range(len(free) + 1) for join in itertools.combinations(free, size)
             if plain.is_connected(n, [*lines, *((lines[j][1], lines[j][0]) for j in join)], True, 1)]
    return min(costs, default=None)


def test_searches():
    rng = random.Random(5)
    for _ in range(150):
        n = rng.randint(2, 4)
        lines = [tuple(rng.sample(range(n), 2)) for _ in range(rng.randint(0, 7))]
        k, root = rng.randint(1, 3), rng.randrange(n)
        for directed, least in ((False, plain.least_edges), (True, plain.least_arcs)):
            found = fewest_new(n, lines, directed, k) if n < 4 or not directed else None
            if found is not None:
                want(f"{least.__name__} of {lines} on {n} nodes, k = {k}", least(n, lines, k), found)
        want(f"orientation of {lines}, k = {k}", plain.has_orientation(n, lines, k), turned(n, lines, k))
        want(f"cuts of {lines} with 2 k edges, k = {k}", plain.is_connected(n, lines, False, 2 * k), turned(n, lines, k))
        want(f"trees of {lines}", plain.most_trees(n, lines), most_parts(lines, lambda p: plain.is_forest(n, p), n - 1))
        arcs = [(t, h, rng.random() < 0.2, rng.randint(0, 3)) for t, h in lines]
        want(f"least dijoin of {arcs}", plain.least_dijoin(n, arcs), cheapest_dijoin(n, arcs))
        want(f"whether there is a dijoin of {arcs}", plain.has_dijoin(n, arcs), cheapest_dijoin(n, arcs) is not None)
        want(f"arborescences of {lines} from {root}", plain.most_arborescences(n, lines, root),
             most_parts(lines, lambda p: plain.is_arborescence(n, p, root), n - 1))


# ---- certificates

def verdict(graph, text):
    """None for an accepted certificate, told by lines with / between, the line at which it is malformed, or why it is rejected."""
    try:
        words, seen, _, _ = plain.read_certificate(graph, text.replace(" / ", "\n").encode() + b"\n")
    except plain.Bad as bad:
        return bad.line
    return plain.judge(graph, words, seen)


CERTIFICATES = [
    (SQUARE, "flow a d / value 2", [
        ("path 3 4 / path 1 2 / dual cut / set a / end", None),
        ("path 1 2 / dual cut / set a / end", "gap"),
        ("path 1 2 / path 1 2 / dual cut / set a / end", "infeasible"),
        ("path 1 2 / path / dual cut / set a / end", "infeasible"),
        ("path 3 4 / path 1 2 / dual cut / set a d / end", "dual"),
        ("path 3 4 / path 1 2 / dual cut / set a b / end", None),
        ("path 3 4 / path 1 2 / dual cut / set a b c / end", None),
        ("path 3 4 / path 1 2 / dual cut / set b a / end", 7),
        ("path 3 4 / path 1 5 / dual cut / set a / end", 5),
        ("path 3 4 / path 1 2 / dual cut / end", 7),
        ("path 3 4 / path 1 2 / dual cut / set a", 8),
        ("path 3 4 / path 1 2 / dual in / set a / end", 6),
    ]),
    (EDGES("ab bc"), "cuttree", [
        ("tree a b 1 / tree b c 1 / end", None),
        ("tree a b 1 / tree a c 1 / end", "dual"),
        ("tree a b 1 / end", "infeasible"),
        ("tree a b 1 / tree a b 1 / end", "infeasible"),
        ("tree a b 2 / tree b c 1 / end", "dual"),
        ("value 1 / tree a b 1 / tree b c 1 / end", 3),
    ]),
    (EDGES("ab bc"), "augment 2 / value 1", [
        ("edge a c / dual subpartition / set a / set c / end", None),
        ("edge a a / dual subpartition / set a / set c / end", "infeasible"),
        ("edge a b / dual subpartition / set a / set c / end", "infeasible"),
        ("edge a c / dual subpartition / set a / set a / end", "dual"),
        ("edge a c / dual subpartition / set a b c / end", "dual"),
        ("edge a c / dual subpartition / set / end", "dual"),
        ("edge a c / dual subpartition / set b / end", "gap"),
        ("edge a c / edge a c / dual subpartition / set a / set c / end", "gap"),
        ("edge a c / dual components / set a / set c / end", 5),
    ]),
    (EDGES("a b"), "augment 1 / value 1", [
        ("edge a b / dual components / set a / set b / end", None),
        ("edge a b / dual components / set a / end", "dual"),
        ("edge a b / dual components / set a b / end", "gap"),
        ("dual components / set a / set b / end", "infeasible"),
    ]),
    (ARCS("ab ac"), "augment-arcs 1 / value 2", [
        ("arc b a / arc c a / dual out / set b / set c / end", None),
        ("arc b a / arc c a / dual in / set a / end", "gap"),
        ("arc b a / arc b a / dual out / set b / set c / end", "infeasible"),
        ("arc b a / arc c a / dual out / set b / set b / end", "dual"),
        ("arc b a / arc c a / dual cut / set b / set c / end", 6),
    ]),
    (ARCS("ab ac ba bc ca cb"), "arborescences a / value 2", [
        ("part 1 4 / part 2 6 / dual cut / set b / end", None),
        ("part 1 4 / part 1 2 / dual cut / set b / end", "infeasible"),
        ("part 4 6 / part 1 2 / dual cut / set b / end", "infeasible"),
        ("part 1 4 / part 2 6 / dual cut / set a b / end", "dual"),
        ("part 1 4 / part 2 6 / dual cut / set / end", "dual"),
    ]),
    (TRIANGLE, "trees / value 1", [
        ("part 1 2 / dual partition / set a / set b / set c / end", None),
        ("part 1 / dual partition / set a / set b / set c / end", "infeasible"),
        ("part 1 2 / dual partition / set a b c / end", "dual"),
        ("part 1 2 / dual partition / set a / set b / end", "dual"),
        ("part 1 2 / dual partition / set a b / set c / end", "gap"),
    ]),
    (TRIANGLE, "forests / value 2", [
        ("part 1 2 / part 3 / dual set / set a b c / end", None),
        ("part 1 2 / part 1 3 / dual set / set a b c / end", "infeasible"),
        ("part 1 2 3 / part / dual set / set a b c / end", "infeasible"),
        ("part 1 2 / part 3 / dual set / set a / end", "dual"),
        ("part 1 2 / part 3 / dual none / end", "gap"),
        ("part 1 2 / part 3 / dual none / set a b c / end", 7),
    ]),
    (EDGES("ab ab"), "orient 1", [
        ("arc a b / arc b a / end", None),
        ("arc a b / arc a b / end", "infeasible"),
        ("arc a b / end", 4),
        ("impossible / dual cut / set a / end", "dual"),
    ]),
    (EDGES("ab"), "orient 1", [
        ("impossible / dual cut / set a / end", None),
        ("impossible / dual cut / set a b / end", "dual"),
        ("impossible / dual cut / end", 5),
    ]),
]

COSTLY = plain.Graph(True)
COSTLY.names, COSTLY.numbers, COSTLY.lines = [b"a", b"b", b"c"], [0, 0, 0], [(0, 1, False, 2), (1, 2, False, 3)]
CERTIFICATES += [
    (ARCS("ab cb"), "dijoin", [
        ("value 2 / join 1 2 / dual dicuts / set a b / set b c / end", None),
        ("value 2 / join 1 2 / dual dicuts / set b / set b / end", "dual"),
        ("value 2 / join 1 2 / dual dicuts / set a / set b c / end", "dual"),
        ("value 2 / join 1 2 / dual dicuts / set a b / end", "gap"),
        ("value 1 / join 1 / dual dicuts / set a b / end", "infeasible"),
        ("value 2 / join 1 1 / dual dicuts / set a b / set b c / end", "infeasible"),
        ("value 2 / join 1 2 / join / dual dicuts / set a b / set b c / end", 5),
        ("impossible / dual dicut / set b / end", "dual"),
        ("impossible / dual cut / set b / end", 4),
    ]),
    (COSTLY, "dijoin", [
        ("value 5 / join 1 2 / dual dicuts / set b c / set b c / set c / set c / set c / end", None),
        ("value 5 / join 1 2 / dual dicuts / set b c / set b c / set b c / set c / set c / end", "dual"),
        ("value 2 / join 1 2 / dual dicuts / set b c / set c / end", "gap"),
    ]),
    (ARCS("*ab"), "dijoin", [
        ("impossible / dual dicut / set b / end", None),
        ("impossible / dual dicut / set a / end", "dual"),
        ("impossible / dual dicut / set a b / end", "dual"),
        ("value 1 / join 1 / dual dicuts / set b / end", "infeasible"),
    ]),
    (ARCS("ab bc ca"), "dijoin", [("value 0 / join / dual dicuts / end", None)]),
]


def test_certificates():
    for graph, front, rows in CERTIFICATES:
        for text, wanted in rows:
            whole = f"certificate 1 / command {front} / {text}"
            want(f"the verdict on {whole}", verdict(graph, whole), wanted)
    want("another first line", verdict(SQUARE, "certificate 2"), 1)
    want("a command that doesn't suit", verdict(SQUARE, "certificate 1 / command arborescences a"), 2)


def main(words):
    if {"-h", "--help"} & {*words}:
        print(__doc__)
        return 0
    if words:
        print(__doc__, file=sys.stderr)
        return 2
    for name, test in [*globals().items()]:
        if name.startswith("test_"):
            test()
    print("\n".join([*wrong, f"{tried} cases, {len(wrong)} not as wanted"]))
    return 1 if wrong else 0


if __name__ == "__main__":
    sys.exit(main(sys.argv[1:]))
