#!/usr/bin/env python3
"""Tests convert.py: each format back and forth, what is refused and where, and broken inputs.

usage: test_convert.py

What needs networkx is skipped where it isn't there.
"""

import contextlib
import io
import random
import sys
import tempfile
import unittest
from collections import Counter
from pathlib import Path
from types import SimpleNamespace
from unittest import mock

import convert
import graphs as plain

try:
    import networkx as nx
except ImportError:
    nx = None

EXAMPLES = sorted((Path(__file__).resolve().parent.parent / "examples").glob("*.graph"))
OWN, BY_NETWORKX = ["edges", "dot"], ["graphml", "gml"]
with_networkx = unittest.skipIf(nx is None, "networkx isn't there")
BROKEN = [b"", b"\xff", b'"', b"0", b"9", b"{", b"]", b"\n", b"-", b"<", b"\x00", b"'", b"\\"]
EDGE = b"graph undirected\nnode a\nnode b\nedge a b\nend\n"
MIXED = b"""graph directed
node z 12
node a
node b.c-d_E
arc a z
arc z a cost 0
arc a z cost 100
arc b.c-d_E a fixed
arc a b.c-d_E
end
"""


def options(**held):
    return SimpleNamespace(**{"directed": False, "rename": False, "drop": False, "terminals": None, **held})


def to(target, data, source="graph", **held):
    return convert.convert(data if isinstance(data, bytes) else data.encode(), source, target, options(**held))


def contents(data):
    """What a graph text says, whatever the order of its edges and of an edge's ends."""
    graph = plain.read_graph_alone(data)
    pairs = [(t, h) if graph.directed else (min(t, h), max(t, h)) for t, h, *_ in graph.lines]
    return graph.directed, graph.names, graph.numbers, Counter((*pair, *line[2:]) for pair, line in zip(pairs, graph.lines))


def random_graph(directed, parallel=True):
    graph = plain.Graph(directed)
    graph.names = [b"%d" % v for v in range(random.randint(1, 9))]
    lines = [b"graph directed" if directed else b"graph undirected", *(b"node " + name for name in graph.names)]
    seen = set()
    for _ in range(random.randint(0, 20) if len(graph.names) > 1 else 0):
        u, v = random.sample(graph.names, 2)
        pair = (u, v) if directed else frozenset((u, v))
        if parallel or pair not in seen:
            seen.add(pair)
            end = random.choice([b"", b"", b" fixed", b" cost 7"]) if directed else b""
            lines.append((b"arc " if directed else b"edge ") + u + b" " + v + end)
    return b"".join(line + b"\n" for line in [*lines, b"end"])


class Refusing(unittest.TestCase):
    def refused(self, words, source, data, target="graph", **held):
        with self.assertRaises(convert.Refused) as caught:
            to(target, data, source, **held)
        self.assertEqual(str(caught.exception)[:len(words)], words)

    def all_refused(self, source, *rows, **held):
        for data, words in rows:
            with self.subTest(data=data[:60]):
                self.refused(words, source, data, **held)


class BackAndForth(Refusing):
    def test_own_formats_keep_all(self):
        for path in EXAMPLES:
            data = path.read_bytes()
            directed = plain.read_graph_alone(data).directed
            for form in OWN:
                with self.subTest(path=path.name, form=form):
                    self.assertEqual(contents(to("graph", to(form, data), form, directed=directed)), contents(data))
        self.assertEqual(to("graph", to("dot", MIXED), "dot"), MIXED)
        numberless = MIXED.replace(b"z 12", b"z")
        self.assertEqual(to("graph", to("edges", numberless), "edges", directed=True), numberless)

    def test_random(self):
        random.seed(1)
        for _ in range(100):
            data = random_graph(random.random() < 0.5)
            directed = plain.read_graph_alone(data).directed
            for form in OWN:
                self.assertEqual(to("graph", to(form, data), form, directed=directed), data)

    @with_networkx
    def test_networkx_keeps_what_is_held(self):
        random.seed(2)
        made = [random_graph(random.random() < 0.5) for _ in range(30)]
        for data in [path.read_bytes() for path in EXAMPLES] + [MIXED] + made:
            for form in BY_NETWORKX:
                with self.subTest(data=data, form=form):
                    self.assertEqual(contents(to("graph", to(form, data), form)), contents(data))
        for _ in range(30):
            data = random_graph(False, parallel=False)
            self.assertEqual(contents(to("graph", to("graph6", data), "graph6")), contents(data))
            data = random_graph(False)
            self.assertEqual(contents(to("graph", to("sparse6", data), "sparse6")), contents(data))

    def test_names_come_back(self):
        text = 'graph { "two words" -- "say \\"so\\""; n1 -- "two words"; plain; "" ; "\nä" }'
        made = to("graph", text, "dot", rename=True)
        self.assertEqual(plain.read_graph_alone(made).names, [b"n1_", b"n2", b"n1", b"plain", b"n5", b"n6"])
        self.assertIn(b'# name n1_ "two words"\n', made)
        self.assertIn(b'# name n6 "\\n\\u00e4"\n', made)
        again = to("dot", made, rename=True)
        self.assertIn('"two words" -- "say \\"so\\""', again.decode())
        self.assertEqual(to("graph", again, "dot", rename=True), made)
        self.assertIn(b'"n1_" -- "n2"', to("dot", made))
        self.refused("the comments of names", "graph", made.replace(b'"two words"', b'"plain"'), "dot", rename=True)
        self.refused("line 2: no quoted name", "graph", made.replace(b'"two words"', b'"two" "words"'), "dot", rename=True)
        self.refused("line 2: no quoted name", "graph", made.replace(b'"two words"', b'"\\ud800"'), "dot", rename=True)
        self.refused("node n1_: an edge list", "graph", made, "edges", rename=True)

    def test_what_the_other_format_has_not(self):
        square = EXAMPLES[[path.stem for path in EXAMPLES].index("square")].read_bytes()
        self.refused("graph6 has no digraphs", "graph", MIXED, "graph6")
        self.refused("node z: edges has no numbers", "graph", MIXED, "edges")
        self.refused("node a: graph6 names this node 0", "graph", square, "graph6")
        self.refused("node a: dimacs names this node 1", "graph", square, "dimacs")
        double = b"graph undirected\nnode 0\nnode 1\nedge 0 1\nedge 1 0\nend\n"
        self.refused("line 2 of the graph: graph6 has no parallel", "graph", double, "graph6")
        digraph = b"graph directed\nnode 1\nnode 2\narc 1 2 cost 3\nend\n"
        self.refused("line 1 of the graph: dimacs has no costs", "graph", digraph, "dimacs", terminals=["1", "2"])
        self.refused("dimacs has digraphs with", "graph", digraph, "dimacs", drop=True)
        self.refused('--terminals: there is no node "x"', "graph", digraph, "dimacs", drop=True, terminals=["1", "x"])
        self.assertEqual(to("dimacs", digraph, drop=True, terminals=["1", "2"]), b"p max 2 1\nn 1 s\nn 2 t\na 1 2 1\n")
        self.assertTrue(to("dimacs", square, rename=True).startswith(b'c name 1 "a"\nc name 2 "b"\n'))

    @with_networkx
    def test_gml_labels(self):
        node = 'node [ id %d label "%s" ]'
        for nodes, names in [(node % (5, "a") + node % (7, "b"), [b"a", b"b"]),
                             (node % (5, "a") + node % (7, "a"), [b"5", b"7"]),
                             ("node [ id 5 ]" + node % (7, "a"), [b"5", b"7"])]:
            made = to("graph", f"graph [ {nodes} edge [ source 5 target 7 ] ]".replace(" ", "\n"), "gml")
            self.assertEqual(plain.read_graph_alone(made).names, names)


class Limits(Refusing):
    def test_nodes(self):
        self.all_refused("dot",
            ("graph {}", "the graph has no node"),
            ("graph {\n" + "".join(f"a{j}\n" for j in range(129)) + "}", "line 130: more than"),
            ('graph {\n"a b" }', 'line 2: the name "a b"'), ("graph { " + "a" * 33 + " }", 'line 1: the name "aaa'),
            ("graph { ä }", 'line 1: the name "\\u00e4"'),
            ("graph { a [number=8193] }", "line 1: the number of the node is 8193"),
            ("graph { a [number=01] }", "line 1: the number"), ("graph { a [number=-1] }", "line 1: the number"),
            ("graph { node [number=8192] " + "\n".join("abcdefghi") + "}", "line 9: with this node the numbers"))
        most = "".join(f"v{j}\n" for j in range(128))
        self.assertEqual(len(plain.read_graph_alone(to("graph", most, "edges")).names), 128)

    def test_lines(self):
        self.all_refused("dot",
            ("digraph { a -> b\nb -> b }", "line 2: a loop at b"),
            ("graph { a -- b [cost=1] }", "line 1: a cost or fixed"),
            ("digraph { a -> b [cost=101] }", "line 1: the cost is 101"),
            ("digraph { a -> b [cost=1.5] }", 'line 1: the cost is "1.5"'),
            ("digraph { a -> b [fixed=maybe] }", 'line 1: fixed is "maybe"'),
            ("digraph { a -> b [fixed=true cost=2] }", "line 1: a fixed arc"),
            ("digraph {\n" + "a -> b [cost=100]\n" * 41 + "}", "line 42: with this arc the costs"),
            ("graph {\n" + "a -- b\n" * 2049 + "}", "line 2050: more than 2,048"))
        self.assertEqual(len(plain.read_graph_alone(to("graph", "a b\n" * 2048, "edges")).lines), 2048)
        self.assertEqual(to("graph", "graph { a -- b [cost=1] }", "dot", drop=True), EDGE)

    def test_bytes(self):
        self.refused("more than 33,554,432 bytes", "edges", b"#" * (plain.MOST_BYTES + 1))
        self.refused("line 2: not UTF-8", "edges", b"a b\nc \xff\n")
        self.refused("line 3: no graph text (nonode)", "graph", b"# note\ngraph directed\nend\n", "dot")

    @with_networkx
    def test_places_of_networkx(self):
        loop = nx.MultiGraph([("a", "b"), ("b", "b")])
        self.refused('edge "b" "b": a loop', "graphml", "\n".join(nx.generate_graphml(loop)))
        self.refused('node "a b": the name', "gml", "\n".join(nx.generate_gml(nx.path_graph(["a b", "c"]))))
        costly = nx.DiGraph()
        costly.add_edge("a", "b", cost=2.5)
        self.refused('edge "a" "b": the cost is 2.5', "graphml", "\n".join(nx.generate_graphml(costly)))
        for form, data in [("graphml", b"<graphml"), ("graphml", b""), ("gml", b"graph ["), ("graph6", b"\x01\x02"),
                           ("sparse6", b"x")]:
            self.refused(f"networkx can't read it as {form}", form, data)
        second = b"<graph edgedefault='directed'><node id='a'/></graph></graphml>"
        self.refused("networkx takes 2 of 3 nodes", "graphml", to("graphml", EDGE).replace(b"</graphml>", second))
        same = to("graphml", EDGE).replace(b"<edge ", b"<edge id='x' source='a' target='b' /><edge id='x' ")
        self.refused("networkx takes 1 of 2 edges", "graphml", same)
        self.refused("line 3: a second graph", "graph6", b"Cr\n\nCr\n")
        self.refused("no graph", "graph6", b"\n")
        self.refused('node "128": more than 128 nodes', "graph6", nx.to_graph6_bytes(nx.empty_graph(129), header=False))


class Formats(Refusing):
    def test_edges(self):
        text = "# note\na b {'cost': 3, 'weight': 2.5}\nb c # last\n\nd\nc a {'fixed': True}\n"
        self.assertEqual(to("graph", text, "edges", directed=True),
                         b"graph directed\nnode a\nnode b\nnode c\nnode d\narc a b cost 3\narc b c\narc c a fixed\nend\n")
        self.all_refused("edges",
            ("a b 3", 'line 1: "3" behind the names'), ("a b\na b {[1]: 2}", "line 2: "), ("a b {", "line 1: "),
            ("a b {'cost': 1}", "line 1: a cost or fixed"), ("", "the graph has no node"),
            ("a b " + "(" * 100000, "line 1: "))

    def test_dimacs(self):
        text = "c note\np col 4 3\ne 1 2\ne 2 1\ne 4 1\n"
        self.assertEqual(to("graph", text, "dimacs"),
                         b"graph undirected\nnode 1\nnode 2\nnode 3\nnode 4\nedge 1 2\nedge 2 1\nedge 4 1\nend\n")
        text = "p max 3 3\nn 1 s\nn 3 t\na 1 2 2\na 2 3 1\na 1 3 0\n"
        self.assertEqual(to("graph", text, "dimacs"),
                         b"graph directed\n# terminals 1 3\nnode 1\nnode 2\nnode 3\narc 1 2\narc 1 2\narc 2 3\nend\n")
        self.all_refused("dimacs",
            ("", "no problem line"), ("e 1 2\n", "line 1: no problem line"), ("p edge 2\n", "line 1: the problem"),
            ("p min 2 1\n", "line 1: the problem"), ("p edge 2 x\n", "line 1: the problem line has"),
            ("p edge 129 0\n", "line 1: more than 128"), ("p edge 2 1\np edge 2 1\n", "line 2: a second"),
            ("p edge 2 1\ne 1 3\n", 'line 2: there is no node "3"'), ("p edge 2 1\ne 1 2 3\n", "line 2: not 'e U V'"),
            ("p edge 2 1\na 1 2 1\n", 'line 2: a line "a"'), ("p edge 2 1\nn 1 4\n", 'line 2: a line "n"'),
            ("c\np edge 2 2\ne 1 2\n", "line 2: 2 lines of edges are told, and 1 stand"),
            ("p max 2 1\na 1 2\n", "line 2: not 'a U V CAPACITY'"),
            ("p max 2 1\na 1 2 -1\n", 'line 2: the capacity "-1"'),
            ("p max 2 1\na 1 2 2049\n", "line 2: more than 2,048 edges or arcs, one"),
            ("p max 2 1\nn 1 x\n", "line 2: not 'n NODE s'"), ("p max 2 1\nn 1 s\nn 2 s\n", "line 3: not"),
            ("p edge 0 0\n", "the graph has no node"), ("p edge 2 1\ne 1 1\n", "line 2: a loop"))

    def test_dot(self):
        text = """/* a
note */ strict digraph "the name" { // more
# a line of the preprocessor
  rankdir = LR; graph [a=b]; node [number=3, shape="box"] edge [cost=2]
  a -> b -> c [cost=7; color=red][fixed=false]
  "a" -> c, 2.5 [number="4"]
  EDGE [cost=1]; "edge"; -7 -> a
}
"""
        self.refused('line 6: "," where a statement should stand', "dot", text)
        made = to("graph", text.replace("c, 2.5", "c; 2.5"), "dot")
        self.assertEqual(made.decode().split("\n"), [
            "graph directed", "node a 3", "node b 3", "node c 3", "node 2.5 4", "node edge 3", "node -7 3", "arc a b cost 7",
            "arc b c cost 7", "arc a c cost 2", "arc -7 a", "end", ""])
        self.assertEqual(to("graph", 'graph{"a\\\nb"--c}', "dot"), b"graph undirected\nnode ab\nnode c\nedge ab c\nend\n")

    def test_dot_refused(self):
        self.all_refused("dot",
            ("", "line 1: the end where 'graph'"), ("grph {}", 'line 1: "grph" where'),
            ("graph {\na", "line 2: the end where"), ("graph {\nsubgraph { a } }", "line 2: subgraphs aren't read"),
            ("graph {\n{ a } }", "line 2: subgraphs"), ("graph { a --\n{b c} }", "line 2: subgraphs"),
            ("graph { a:n -- b }", "line 1: ports"), ("graph { a -- b:n }", "line 1: ports"),
            ("graph { a [label=<b>] }", "line 1: HTML"), ('graph { "a" + "b" }', "line 1: joined"),
            ("graph { a -> b }", 'line 1: "->" where'), ("digraph { a -- b }", 'line 1: "--" where'),
            ("graph { a } graph { b }", 'line 1: "graph" where the end'), ("graph { a [b }", 'line 1: "}" where'),
            ("graph { node a }", "line 1: \"a\" where '['"), ("graph {\n\n! }", 'line 3: "!" begins'),
            ('graph { "a }', 'line 1: "\\"" begins'), ("graph { /* a }", 'line 1: "/" begins'),
            ("strict graph { a -- b\nb -- a }", "line 2: an edge of a strict graph"))

    def test_broken_inputs_are_refused_and_no_more(self):
        random.seed(3)
        texts = {"dot": b'digraph g { a -> b [cost=3]; "c" [number=4]\n// x\nb -> c -> a [fixed=true] }', "graph": MIXED,
                 "edges": b"a b {'cost': 3}\nc\nb c\n", "dimacs": b"p max 3 2\nn 1 s\nn 2 t\na 1 2 3\na 2 3 1\n"}
        if nx:
            texts.update(gml=to("gml", MIXED), graphml=to("graphml", MIXED), graph6=b"Cr\n", sparse6=b":Cci\n")
        refused = 0
        for _ in range(150):
            for form, text in texts.items():
                data = bytearray(text)
                for _ in range(random.randint(1, 3)):
                    at = random.randint(0, len(data))
                    data[at:at + random.randint(0, 3)] = random.choice(BROKEN)
                held = {"directed": form == "edges", "rename": random.random() < 0.5}
                try:
                    made = to("dot" if form == "graph" else "graph", bytes(data), form, **held)
                    plain.read_graph_alone(made if form != "graph" else to("graph", made, "dot", rename=True))
                except convert.Refused:
                    refused += 1
        self.assertGreater(refused, 100)


class Words(unittest.TestCase):
    def called(self, *words, given=b""):
        out, err = io.TextIOWrapper(io.BytesIO()), io.StringIO()
        given = mock.patch("sys.stdin", io.TextIOWrapper(io.BytesIO(given)))
        with given, contextlib.redirect_stdout(out), contextlib.redirect_stderr(err):
            try:
                status = convert.main(list(words))
            except SystemExit as end:
                status = end.code
        out.flush()
        return status, out.buffer.getvalue(), err.getvalue()

    def test_endings(self):
        with tempfile.TemporaryDirectory() as folder:
            dot, graph, edges = (Path(folder) / name for name in ("a.GV", "a.graph", "a.edges"))
            dot.write_text("graph { a -- b }")
            self.assertEqual(self.called(str(dot), str(graph)), (0, b"", ""))
            self.assertEqual(graph.read_bytes(), EDGE)
            self.assertEqual(self.called(str(graph), str(edges)), (0, b"", ""))
            self.assertEqual(self.called(str(edges)), (0, graph.read_bytes(), ""))
            dot.write_text("graph { a -- a }")
            said = f"convert: {dot}: line 1: a loop at a, and no graph text has loops\n"
            self.assertEqual(self.called(str(dot), str(graph)), (1, b"", said))
            self.assertIn(b"edge a b", graph.read_bytes())
            self.assertEqual(self.called(str(graph), folder + "/none/b.dot")[0], 1)

    def test_words(self):
        self.assertEqual(self.called("--from", "edges", given=b"a b\n")[:2], (0, EDGE))
        for words in ([], ["a.txt"], ["a.graph"], ["a.graph", "b.graph"], ["a.graph", "b.txt"], ["--from", "xml"],
                      ["--directed", "a.dot"], ["a.dot", "b", "c"], ["--terminals", "a", "b", "a.dot"], ["--rnme", "a.dot"]):
            with self.subTest(words=words):
                self.assertEqual(self.called(*words)[:2], (2, b""))
        status, text, _ = self.called("--help")
        self.assertEqual((status, text.decode()), (0, convert.__doc__))
        self.assertEqual(self.called("/nowhere/a.dot")[0], 1)

    def test_without_networkx(self):
        with mock.patch.dict(sys.modules, networkx=None):
            for form in ("graphml", "gml", "graph6", "sparse6"):
                for words in (["--from", form], ["--from", "edges", "--to", form]):
                    status, text, said = self.called(*words, "--rename", given=b"a b\n")
                    self.assertEqual((status, text), (1, b""))
                    self.assertIn(f"{form} takes networkx, which {sys.executable} has not", said)
            self.assertEqual(self.called("--from", "edges", "--to", "dot", given=b"a b\n")[0], 0)


if __name__ == "__main__":
    unittest.main()
