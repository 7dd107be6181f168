"""What a graph is taken from: names of nodes, networkx graphs beside lists, and what is refused."""

import os
import pickle
import tempfile
import unittest
from pathlib import Path
from unittest import mock

from support import K4, RING, SQUARE, cc, nx, with_networkx


class Texts(unittest.TestCase):
    def test_names_are_the_nodes_own(self):
        graph = cc.Graph([("a", 7), (7, "x.1")], nodes={"z": 5, "a": 0})
        self.assertEqual(graph.text, "graph undirected\nnode z 5\nnode a\nnode 7\nnode x.1\nedge a 7\nedge 7 x.1\nend\n")
        self.assertEqual(graph.nodes, ("z", "a", 7, "x.1"))

    def test_names_are_made(self):
        for nodes in (["a", "two words"], [(1, 2), "a"], ["7", 7], ["x" * 33, "a"], ["", "a"], ["ä", "a"], ["a\n", "b"]):
            with self.subTest(nodes=nodes):
                graph = cc.Graph([tuple(nodes)])
                self.assertEqual(list(graph.names.values()), ["n1", "n2"])
                answer = cc.flow(graph, *nodes)
                self.assertEqual((answer.walks, answer.cut), (((0,),), {nodes[0]}))

    def test_costs(self):
        source = [(1, 2, {"cost": 0}), (1, 2, {"cost": 1}), (1, 2, {"fixed": True}), [1, 2, {"cost": 100}]]
        graph = cc.Graph(source, directed=True)
        self.assertEqual(graph.text.split("\n")[3:7], ["arc 1 2 cost 0", "arc 1 2", "arc 1 2 fixed", "arc 1 2 cost 100"])

    def test_unwritable(self):
        for source, kind, place, words in [
            ([(1, 2), (3, 3)], cc.SelfLoop, 1, "edge 1 has twice the same end 3"),
            ([(1, 2), 5], cc.Unwritable, 1, "edge 1 is 5"),
            (["ab"], cc.Unwritable, 0, "edge 0 is 'ab'"),
            ([(1, 2, 3)], cc.Unwritable, 0, "edge 0 has 3"),
            ([(1, 2, {"weight": 3})], cc.Unwritable, 0, "edge 0 has {'weight': 3}"),
            ([(1, [2])], cc.Unwritable, [2], "isn't hashable"),
            ([(1, 2, {"cost": 101})], cc.Unwritable, 0, "cost 101"),
            ([(1, 2, {"cost": -1})], cc.Unwritable, 0, "cost -1"),
            ([(1, 2, {"cost": 2.0})], cc.Unwritable, 0, "cost 2.0"),
            ([(1, 2, {"cost": True})], cc.Unwritable, 0, "cost True"),
            ([(1, 2, {"fixed": 1})], cc.Unwritable, 0, "fixed 1"),
            ([(1, 2, {"fixed": True, "cost": 3})], cc.Unwritable, 0, "can't have a cost"),
            ({(1, 2)}, cc.Unwritable, None, "not set"),
        ]:
            with self.subTest(source=source), self.assertRaises(kind) as caught:
                cc.dijoin(source, directed=True)
            self.assertEqual(caught.exception.place, place)
            self.assertIn(words, str(caught.exception))
        self.assertRaises(cc.Unwritable, cc.trees, [(1, 2, {"cost": 1})])
        self.assertRaises(cc.Unwritable, cc.Graph, [], nodes={"a": 8193})
        self.assertRaises(cc.Unwritable, cc.trees, cc.Graph(SQUARE), directed=False)
        self.assertRaises(cc.Unwritable, cc.flow, SQUARE, ["a"], "d")


class Refusals(unittest.TestCase):
    def test_each_status(self):
        full = [(1, 2)] * 2048
        for call, kind, line, status in [
            (lambda: cc.augment(SQUARE, 33), cc.BadWords, "words 2", 3),
            (lambda: cc.augment(SQUARE, 0), cc.BadWords, "words 2", 3),
            (lambda: cc.trial("fly", 2, 1), cc.BadWords, "words 2", 3),
            (lambda: cc.trees([]), cc.BadGraph, "graph 2 nonode", 4),
            (lambda: cc.forests([], nodes=range(129)), cc.TooLarge, "large nodes", 5),
            (lambda: cc.forests(full + [(1, 2)]), cc.TooLarge, "large lines", 5),
            (lambda: cc.dijoin([(1, 2, {"cost": 100})] * 41, directed=True), cc.TooLarge, "large costs", 5),
            (lambda: cc.trees(RING, directed=True), cc.Unsuited, "unsuited kind", 6),
            (lambda: cc.flow(SQUARE, "a", "z"), cc.Unsuited, "unsuited node", 6),
            (lambda: cc.arborescences([("none0", "none1")], "z", directed=True), cc.Unsuited, "unsuited node", 6),
            (lambda: cc.arborescences(SQUARE, "z"), cc.Unsuited, "unsuited kind", 6),
            (lambda: cc.flow(SQUARE, "a", "a"), cc.Unsuited, "unsuited same", 6),
            (lambda: cc.trees([], nodes=["a"]), cc.Unsuited, "unsuited small", 6),
            (lambda: cc.check(SQUARE, ""), cc.Rejected, "rejected malformed 1", 2),
            (lambda: cc.check(SQUARE, "certificate 1\ud800\n"), cc.Rejected, "rejected malformed 1", 2),
        ]:
            with self.subTest(line=line), self.assertRaises(kind) as caught:
                call()
            self.assertEqual((caught.exception.line, caught.exception.status), (line, status))
            again = pickle.loads(pickle.dumps(caught.exception))
            self.assertEqual((type(again), str(again)), (kind, f"{line} (exit {status})"))
        for k in (2.0, "2", True):
            self.assertRaises(TypeError, cc.augment, SQUARE, k)

    def test_program(self):
        for program in ("", "/nowhere/connect", "/"):
            self.assertRaises(cc.NoProgram, cc.trees, SQUARE, program=program)
        for other in ("/bin/true", "/bin/false", "/bin/echo"):
            self.assertRaises(cc.BadAnswer, cc.trees, SQUARE, program=other)
            self.assertRaises(cc.BadAnswer, cc.trees(SQUARE).checked, program=other)
            self.assertRaises(cc.BadAnswer, cc.trial, "flow", 2, 1, program=other)
        with mock.patch.dict(os.environ, CONNECT="/nowhere/connect"):
            self.assertRaises(cc.NoProgram, cc.trees, SQUARE)

    def test_each_status_of_a_program(self):
        with tempfile.TemporaryDirectory() as folder:
            program = Path(folder) / "program"
            for status, said, kind in [
                (2, "rejected gap\\n", cc.Rejected), (2, "rejected\\n", cc.BadAnswer), (2, "rejected gap", cc.BadAnswer),
                (3, "words 1\\n", cc.BadWords), (4, "graph 1 loop\\n", cc.BadGraph), (5, "large bytes\\n", cc.TooLarge),
                (6, "unsuited kind\\n", cc.Unsuited), (6, "large bytes\\n", cc.BadAnswer), (7, "", cc.ReadFault),
                (7, "words 1\\n", cc.BadAnswer), (8, "certificate 1\\ncomm", cc.WriteFault), (8, "", cc.WriteFault),
                (9, "", cc.NoMemory), (10, "", cc.WordsNotTaken), (70, "", cc.NotBuilt), (11, "", cc.BadAnswer),
                (0, "certificate 1\\n", cc.BadAnswer), (1, "", cc.BadAnswer), (1, "accepted\\n", cc.BadAnswer),
            ]:
                program.write_text(f"#!/bin/sh\nprintf '{said}'\nexit {status}\n")
                program.chmod(0o700)
                with self.subTest(status=status, said=said), self.assertRaises(kind) as caught:
                    cc.check(SQUARE, "", program=program)
                if kind is not cc.BadAnswer:
                    self.assertEqual(caught.exception.status, status)

    def test_program_of_the_checkout(self):
        with mock.patch.dict(os.environ, CONNECT=""):
            self.assertTrue(cc.program.find().endswith("/connect"))
            with mock.patch.object(cc.program, "CHECKOUT", cc.program.CHECKOUT / "python"):
                self.assertRaises(cc.NoProgram, cc.program.find)


@with_networkx
class Networkx(unittest.TestCase):
    def test_same_as_lists(self):
        for answer, listed in [
            (cc.flow(nx.Graph(SQUARE), "a", "d"), cc.flow(SQUARE, "a", "d")),
            (cc.trees(nx.Graph(K4)), cc.trees(K4)),
            (cc.forests(nx.MultiGraph(K4)), cc.forests(K4)),
            (cc.augment(nx.MultiGraph(SQUARE), 3), cc.augment(SQUARE, 3)),
            (cc.augment_arcs(nx.DiGraph(RING), 2), cc.augment_arcs(RING, 2, directed=True)),
            (cc.arborescences(nx.MultiDiGraph(RING), 0), cc.arborescences(RING, 0, directed=True)),
            (cc.dijoin(nx.DiGraph(SQUARE)), cc.dijoin(SQUARE, directed=True)),
            (cc.cut_tree(nx.Graph(K4)), cc.cut_tree(K4)),
            (cc.orient(nx.Graph(SQUARE), 1), cc.orient(SQUARE, 1)),
        ]:
            self.assertEqual(answer.value, listed.value)
            self.assertTrue(answer.checked())

    def test_edges_are_the_graphs_own(self):
        graph = nx.MultiGraph()
        graph.add_edge((0, 0), "two words", key="up")
        graph.add_edge((0, 0), "two words")
        answer = cc.flow(graph, (0, 0), "two words")
        self.assertEqual({edge for walk in answer.walks for edge in walk}, set(graph.edges(keys=True)))
        oriented = nx.MultiDiGraph()
        oriented.add_edges_from(cc.orient(graph, 1).arcs)
        self.assertTrue(nx.is_strongly_connected(oriented))
        self.assertEqual({key for *_, key in oriented.edges(keys=True)}, {"up", 1})
        simple = nx.Graph(SQUARE)
        self.assertTrue({edge for part in cc.forests(simple).parts for edge in part} == set(simple.edges))
        simple.add_edges_from(cc.augment(simple, 2).edges)
        self.assertEqual(nx.edge_connectivity(simple), 2)

    def test_attributes(self):
        graph = nx.DiGraph()
        graph.add_node("c", number=3)
        graph.add_edge("a", "b", cost=2, weight=0.5)
        graph.add_edge("b", "c", fixed=True)
        graph.add_edge("a", "c", cost=4)
        self.assertEqual(cc.Graph(graph).text.split("\n")[1], "node c 3")
        answer = cc.dijoin(graph)
        self.assertEqual((answer.value, set(answer.arcs)), (4, {("a", "c")}))

    def test_unwritable(self):
        loop = nx.MultiGraph([(1, 2), (2, 2)])
        with self.assertRaises(cc.SelfLoop) as caught:
            cc.trees(loop)
        self.assertEqual(caught.exception.place, (2, 2, 0))
        graph = nx.Graph()
        graph.add_edge(1, 2, cost=3)
        self.assertRaises(cc.Unwritable, cc.trees, graph)
        self.assertRaises(cc.Unwritable, cc.trees, nx.Graph(SQUARE), directed=False)
        self.assertRaises(cc.Unwritable, cc.trees, nx.Graph(SQUARE), nodes=["z"])

    def test_values_of_networkx(self):
        graph = nx.gnm_random_graph(12, 30, seed=3)
        tree = cc.cut_tree(graph)
        for s, t in ((0, 5), (3, 11), (7, 2)):
            value = nx.edge_connectivity(graph, s, t)
            self.assertEqual((cc.flow(graph, s, t).value, tree.least_cut(s, t)[0]), (value, value))


if __name__ == "__main__":
    unittest.main()
