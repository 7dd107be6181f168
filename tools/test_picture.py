#!/usr/bin/env python3
"""Tests picture.py, with Graphviz where it is installed and always without it.

usage: test_picture.py [-v]

Ends with 0 where all is as wanted, else with 1.
"""

import os
import re
import shutil
import subprocess
import sys
import tempfile
import unittest
from pathlib import Path

import graphs as plain
import picture
import strokes

TOOL = Path(__file__).resolve().parent / "picture.py"
EXAMPLES = TOOL.parent.parent / "examples"
SQUARE = "graph undirected\nnode a\nnode b\nnode c\nnode d\nedge a b\nedge b d\nedge a c\nedge c d\nend\n"
INTO = "graph directed\nnode x\nnode y\nnode z\narc x y cost 2\narc z y fixed\nend\n"
CHAIN = "graph directed\nnode a\nnode b\nnode c\narc a b cost 2\narc b c cost 3\nend\n"
FLOW = "certificate 1\ncommand flow a d\nvalue 2\npath 3 4\npath 1 2\ndual cut\nset a\nend\n"
ROUND = "certificate 1\ncommand orient 1\narc a b\narc b d\narc c a\narc d c\nend\n"
NEVER = "certificate 1\ncommand orient 2\nimpossible\ndual cut\nset a\nend\n"
MORE = "certificate 1\ncommand augment 3\nvalue 2\nedge a d\nedge b c\ndual subpartition\nset a\nset b\nset c\nset d\nend\n"
WHOLE = "certificate 1\ncommand augment 1\nvalue 0\ndual components\nset a b c d\nend\n"
TREE = "certificate 1\ncommand cuttree\ntree a b 2\ntree b c 2\ntree c d 2\nend\n"
TREES = "certificate 1\ncommand trees\nvalue 1\npart 1 2 3\ndual partition\nset a\nset b\nset c\nset d\nend\n"
FORESTS = "certificate 1\ncommand forests\nvalue 2\npart 1 2 3\npart 4\ndual set\nset a b c d\nend\n"
STOPPED = "certificate 1\ncommand dijoin\nimpossible\ndual dicut\nset x y\nend\n"
JOIN = "certificate 1\ncommand dijoin\nvalue 5\njoin 1 2\ndual dicuts\nset b c\nset b c\nset c\nset c\nset c\nend\n"


class Case(unittest.TestCase):
    def setUp(self):
        folder = tempfile.TemporaryDirectory()
        self.addCleanup(folder.cleanup)
        self.folder = Path(folder.name)

    def asked(self, *words, texts=(), path=None, data=b""):
        """Runs the tool in a folder with these texts: its exit status, what it wrote, and what it said."""
        for name, text in dict(texts).items():
            (self.folder / name).write_bytes(text if isinstance(text, bytes) else text.encode())
        env = dict(os.environ, **({} if path is None else {"PATH": path}))
        command = [sys.executable, str(TOOL), *words]
        done = subprocess.run(command, input=data, capture_output=True, cwd=self.folder, env=env, check=False)
        self.assertNotIn(b"Traceback", done.stderr)
        return done.returncode, done.stdout.decode(), done.stderr.decode()

    def dot(self, graph, answer=None, *words):
        texts = {"g": graph, **({"c": answer} if answer else {})}
        status, out, said = self.asked("g", *(["c"] if answer else []), *words, texts=texts)
        self.assertEqual((status, said), (0, ""))
        return out

    def refused(self, said, *words, texts):
        self.assertEqual(self.asked(*words, texts=texts), (1, "", said + "\n"))


class Texts(Case):
    def test_a_graph_alone(self):
        out = self.dot(SQUARE)
        self.assertEqual(out.count(" -- "), 4)
        self.assertIn('"a" [label="a"]', out)

    def test_standard_input(self):
        self.asked("g", texts={"g": SQUARE})
        self.assertEqual(self.asked("g", "-", data=FLOW.encode())[0], 0)
        self.assertEqual(self.asked("-", data=SQUARE.encode())[0], 0)

    def test_broken_graphs(self):
        for text, why in [("node a\n", "graph 1 header"), (SQUARE + "edge a b\n", "graph 11 line"), ("", "graph 1 header"),
                          ("graph undirected\nnode a\nedge a a\nend\n", "graph 3 loop"),
                          ("graph undirected\n" + "".join(f"node n{j}\n" for j in range(129)), "large nodes, line 130"),
                          (b"\xff\n", "graph 1 header")]:
            self.refused("g: " + why, "g", texts={"g": text})

    def test_broken_certificates(self):
        for text, why in [("", "malformed 1"), (FLOW.replace("path 1 2", "path 1 5"), "malformed 5"),
                          (FLOW + "end\n", "malformed 9"), (FLOW.replace("end\n", ""), "malformed 8"),
                          (FLOW.replace("path 3 4", "path 1 2"), "infeasible"),
                          (FLOW.replace("set a", "set b"), "dual"), (FLOW.replace("value 2", "value 3"), "gap"),
                          (FLOW.replace("\n", "\r\n"), "malformed 1"), (b"\xff\xfe\n", "malformed 1")]:
            self.refused("c: rejected " + why, "g", "c", texts={"g": SQUARE, "c": text})

    def test_missing_files(self):
        self.refused("g: No such file or directory", "g", texts={})
        self.refused("no/x.dot: No such file or directory", "g", "-o", "no/x.dot", texts={"g": SQUARE})

    def test_words(self):
        for words in [[], ["g", "c", "d"], ["g", "-o"], ["g", "-o", "x.gif"], ["g", "-o", "x.svg", "-o", "y.svg"],
                      ["--fast", "g"], ["-", "-"]]:
            self.assertEqual(self.asked(*words, texts={"g": SQUARE})[0], 2, words)
        status, out, _ = self.asked("--help")
        self.assertEqual((status, out.split("\n")[2][:12]), (0, "usage: pictu"))


class Places(Case):
    def test_spread(self):
        self.asked("g", texts={"p": "# places\na 0 0\nb 1 0\nc 0 -1.5\nd 1 -1.5\n"})
        out = self.dot(SQUARE, None, "--places", "p")
        at = [tuple(map(float, pair)) for pair in re.findall(r'pos="(\S+),(\S+)!"', out)]
        self.assertEqual((len(at), at[0]), (4, (0, 0)))
        self.assertGreater(at[1][0], 0.3)

    def test_refusals(self):
        for text, why in [("a 0 0\n", "no place for b"), ("a 0\n", "line 1 isn't NAME X Y"),
                          ("a 0 x\n", "line 1 isn't NAME X Y"),
                          ("a 0 nan\n", "line 1 isn't NAME X Y"), ("a 0 0\na 0 1\n", "line 2: a is placed twice"),
                          ("z 0 0\n", "line 1: z is no node"), (b"\xff 0 0\n", "a byte that isn't ASCII")]:
            self.refused("p: " + why, "g", "--places", "p", texts={"g": SQUARE, "p": text})
        same = "".join(f"{name} 1 1\n" for name in "abcd")
        self.refused("two nodes have the same place", "g", "--places", "p", texts={"g": SQUARE, "p": same})


class Looks(Case):
    def test_flow(self):
        out = self.dot(SQUARE, FLOW)
        self.assertEqual(out.count("#0072B2"), 2)
        self.assertEqual(out.count("#D55E00"), 2)
        self.assertEqual(out.count("dashed"), 2 + 1)
        self.assertEqual(out.count(strokes.SHADE), 1)
        self.assertIn("a set that is left by 2 lines", out)

    def test_orientation(self):
        out = self.dot(SQUARE, ROUND)
        arcs = re.findall(r'"(\w)" -- "(\w)" \[dir="forward"', out)
        self.assertEqual(arcs, [("a", "b"), ("b", "d"), ("c", "a"), ("d", "c")])
        never = self.dot(SQUARE, NEVER)
        self.assertEqual((never.count("dashed"), never.count(strokes.SHADE)), (2, 1))
        self.assertIn("fewer than 4 edges leave", never)

    def test_new_lines(self):
        out = self.dot(SQUARE, MORE)
        self.assertEqual(out.count('style="dashed"'), 2)
        self.assertEqual(out.count("lacks 1"), 4)
        self.assertEqual(self.dot(SQUARE, WHOLE).count("class 1"), 4)

    def test_cut_tree(self):
        out = self.dot(SQUARE, TREE)
        self.assertEqual(out.count('"tree/'), 4 + 2 * 3)
        self.assertEqual(len(re.findall(r'(?:head|tail)label="2"', out)), 3)
        self.assertIn("its cut of 2 lines", out)
        one = self.dot("graph undirected\nnode a\nend\n", "certificate 1\ncommand cuttree\nend\n")
        self.assertNotIn("tree/", one)

    def test_parts(self):
        out = self.dot(SQUARE, TREES)
        self.assertIn("each node is a class of its own", out)
        self.assertIn("1 line in no tree", out)
        out = self.dot(SQUARE, FORESTS)
        self.assertIn("All 4 nodes have 4 lines inside, of which a forest has at most 3", out)

    def test_dijoins(self):
        out = self.dot(CHAIN, JOIN)
        self.assertEqual(out.count('penwidth="4"'), 2)
        self.assertIn(r'label="b\n1"', out)
        self.assertIn(r'label="c\n1-2"', out)
        self.assertIn("1: 2, 2: 3", out)
        stopped = self.dot(INTO, STOPPED)
        self.assertIn("only fixed arcs enter", stopped)
        self.assertEqual(stopped.count("penwidth=\"3.5\""), 1)

    def test_costs_are_for_dijoins(self):
        flow = "certificate 1\ncommand flow x y\nvalue 1\npath 1\ndual cut\nset x\nend\n"
        self.assertNotIn("fixed", self.dot(INTO, flow))
        self.assertIn("fixed", self.dot(INTO))

    def test_words_that_dot_knows(self):
        text = "graph undirected\nnode graph\nnode node\nedge graph node\nend\n"
        self.assertIn('"graph" -- "node"', self.dot(text))

    def test_each_look_is_of_its_own(self):
        looks = [(said["style"], said["penwidth"], ":" in said["color"]) for _, said in map(strokes.look, range(8))]
        self.assertEqual(len(set(looks)), 8)

    def test_runs(self):
        self.assertEqual([strokes.runs(n) for n in ([], [3], [1, 2, 3, 5], [1, 3, 4])], ["", "3", "1-3 5", "1 3-4"])


class Files(Case):
    def test_without_graphviz(self):
        status, out, said = self.asked("g", "c", "-o", "x.svg", texts={"g": SQUARE, "c": FLOW}, path="/nowhere")
        self.assertEqual((status, out, said), (3, "", "Graphviz's neato isn't here: the DOT text is in x.dot\n"))
        self.assertEqual((self.folder / "x.dot").read_text(), self.dot(SQUARE, FLOW))
        self.assertEqual(self.asked("g", "c", path="/nowhere")[::2], (0, ""))
        self.assertEqual(self.asked("g", "c", "-o", "y.dot", path="/nowhere"), (0, "", ""))

    @unittest.skipUnless(shutil.which("neato"), "Graphviz isn't installed")
    def test_with_graphviz(self):
        for graph, answer in [(SQUARE, FLOW), (SQUARE, TREE), (CHAIN, JOIN), (SQUARE, ROUND)]:
            self.assertEqual(self.asked("g", "c", "-o", "x.svg", texts={"g": graph, "c": answer}), (0, "", ""))
            svg = (self.folder / "x.svg").read_text()
            for name in re.findall(r"^node (\w+)", graph, re.M):
                self.assertIn(f">{name}</text>", svg)
            self.assertEqual((svg.count("<g "), svg.count("</g>"), svg.count("<title")), (1, 1, 0))
        self.assertEqual(self.asked("g", "c", "-o", "x.png"), (0, "", ""))
        self.assertEqual((self.folder / "x.png").read_bytes()[:4], b"\x89PNG")

    @unittest.skipUnless(shutil.which("neato"), "Graphviz isn't installed")
    def test_a_failing_graphviz(self):
        (self.folder / "neato").write_text("#!/bin/sh\necho broken >&2\nexit 1\n")
        (self.folder / "neato").chmod(0o755)
        got = self.asked("g", "-o", "x.svg", texts={"g": SQUARE}, path=str(self.folder) + os.pathsep + os.environ["PATH"])
        self.assertEqual(got, (1, "", "neato: broken\n"))

    def test_each_example_is_drawn(self):
        for path in sorted(EXAMPLES.glob("*.graph")):
            places = path.with_suffix(".places")
            words = ["--places", str(places)] if places.exists() else []
            status, out, said = self.asked(str(path), *words)
            self.assertEqual((status, said), (0, ""), path)
            self.assertEqual(len(re.findall(" (?:--|->) ", out)), len(plain.read_graph_alone(path.read_bytes()).lines))


if __name__ == "__main__":
    unittest.main()
