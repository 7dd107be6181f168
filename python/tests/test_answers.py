"""Values against known ones, and answers against the definitions, in the caller's own nodes and edges."""

import random
import unittest

from support import (K4, RING, SQUARE, cc, classes, crossing, entering, flow_value, inside, is_forest, is_spanning_tree,
                     is_walk, leaving, reached, sides)

NAMES = [(0, 1), (0, "two words"), "two words", "ä", "", 7, "7", -7, 2.5, None, frozenset({1}), "x" * 40]


class Known(unittest.TestCase):
    def check_value(self, answer, value):
        self.assertEqual(answer.value, value)
        self.assertTrue(answer.checked())

    def test_flow(self):
        answer = cc.flow(SQUARE, "a", "d")
        self.check_value(answer, 2)
        self.assertEqual(sorted(answer.walks), [(0, 1), (2, 3)])
        self.assertEqual(answer.cut, {"a"})
        self.assertEqual(answer.words, ("flow", "a", "d"))
        self.assertEqual(answer.certificate.split("\n")[:3], ["certificate 1", "command flow a d", "value 2"])
        self.check_value(cc.flow(SQUARE, "d", "a", directed=True), 0)
        self.check_value(cc.flow(SQUARE, "a", "x", nodes=["x"]), 0)

    def test_cut_tree(self):
        answer = cc.cut_tree(K4 + [(0, 1)])
        self.check_value(answer, None)
        self.assertEqual(sorted(weight for *_, weight in answer.pairs), [3, 3, 4])
        self.assertEqual(answer.least_cut(0, 1)[0], 4)
        self.assertEqual(answer.least_cut(2, 1), (3, {2}))
        for wrong in ((0, 0), (0, 9)):
            self.assertRaises(ValueError, answer.least_cut, *wrong)

    def test_augment(self):
        answer = cc.augment(SQUARE, 3)
        self.check_value(answer, 2)
        self.assertEqual(answer.dual, "subpartition")
        self.assertEqual(set(answer.sets), {frozenset(v) for v in "abcd"})
        answer = cc.augment([("a", "b")], 1, nodes=["c", "d"])
        self.check_value(answer, 2)
        self.assertEqual(answer.dual, "components")
        self.assertEqual(set(answer.sets), {frozenset("ab"), frozenset("c"), frozenset("d")})
        self.check_value(cc.augment([], 32, nodes=["alone"]), 0)

    def test_augment_arcs(self):
        answer = cc.augment_arcs([("a", "b"), ("a", "c")], 1, directed=True)
        self.check_value(answer, 2)
        self.assertEqual(answer.dual, "out")
        self.assertEqual(set(answer.sets), {frozenset("b"), frozenset("c")})
        self.assertEqual(sorted(answer.arcs), [("b", "a"), ("c", "a")])
        self.check_value(cc.augment_arcs(RING, 1, directed=True), 0)

    def test_arborescences(self):
        answer = cc.arborescences([("r", "a"), ("r", "b"), ("a", "b"), ("b", "a")], "r", directed=True)
        self.check_value(answer, 2)
        self.check_value(cc.arborescences(RING, 0, directed=True), 1)

    def test_trees(self):
        answer = cc.trees(K4)
        self.check_value(answer, 2)
        self.assertEqual(set(answer.partition), {frozenset([v]) for v in range(4)})
        self.check_value(cc.trees([(0, 1)], nodes=[2]), 0)

    def test_forests(self):
        answer = cc.forests(K4)
        self.check_value(answer, 2)
        self.assertEqual(answer.dense, {0, 1, 2, 3})
        answer = cc.forests([], nodes=["alone"])
        self.check_value(answer, 0)
        self.assertEqual((answer.parts, answer.dense), ((), None))

    def test_orient(self):
        answer = cc.orient(SQUARE, 1)
        self.check_value(answer, None)
        self.assertEqual([set(arc) for arc in answer.arcs], [set(edge) for edge in SQUARE])
        answer = cc.orient(SQUARE, 2)
        self.assertIsInstance(answer, cc.Impossible)
        self.check_value(answer, None)
        self.assertEqual((answer.dual, crossing(SQUARE, answer.side) < 4), ("cut", True))

    def test_dijoin(self):
        answer = cc.dijoin([("a", "b", {"cost": 2}), ("b", "c", {"cost": 3}), ("b", "c", {"fixed": True})], directed=True)
        self.check_value(answer, 5)
        self.assertEqual(answer.arcs, (0, 1))
        self.assertEqual(sorted(map(sorted, answer.dicuts)), [["b", "c"], ["b", "c"], ["c"], ["c"], ["c"]])
        self.check_value(cc.dijoin([("x", "y", {"cost": 0}), ("z", "y", {"cost": 1, "fixed": False})], directed=True), 1)
        answer = cc.dijoin([("a", "b", {"fixed": True, "cost": 1})], directed=True)
        self.assertIsInstance(answer, cc.Impossible)
        self.check_value(answer, None)
        self.assertEqual((answer.dual, answer.side), ("dicut", {"b"}))
        self.assertEqual(cc.dijoin(RING, directed=True).dicuts, ())

    def test_trial(self):
        self.assertEqual(cc.trial("flow", 40, 7), cc.Trial("flow", 40, 7, 8, True))
        self.assertEqual(cc.trial("orient", 12, 1).value, None)
        self.assertEqual(cc.trial("orient", 64, 2), cc.Trial("orient", 64, 2, None, False))


class ByDefinition(unittest.TestCase):
    """Random graphs whose nodes no text could name, so that each answer has passed both tables of names."""

    def setUp(self):
        random.seed(1)

    def graphs(self, count, directed, upward=False):
        for _ in range(count):
            nodes = random.sample(NAMES, random.randint(2, 6))
            ends = [random.sample(nodes, 2) for _ in range(random.randint(0, 16))]
            if upward:
                ends = [sorted(pair, key=nodes.index) for pair in ends]
            ends = [tuple(pair) for pair in ends]
            yield nodes, ends, cc.Graph(ends, directed=directed, nodes=nodes)

    def disjoint(self, parts):
        used = [j for part in parts for j in part]
        self.assertEqual(len(used), len(set(used)))

    def test_flow(self):
        for directed in (False, True):
            for nodes, ends, graph in self.graphs(10, directed):
                s, t = random.sample(nodes, 2)
                answer = cc.flow(graph, s, t)
                self.assertEqual(answer.value, flow_value(nodes, ends, s, t, directed))
                self.assertEqual(answer.value, len(answer.walks))
                self.disjoint(answer.walks)
                self.assertTrue(all(is_walk([ends[j] for j in walk], s, t, directed) for walk in answer.walks))
                self.assertTrue(s in answer.cut and t not in answer.cut)
                self.assertEqual((leaving if directed else crossing)(ends, answer.cut), answer.value)
                self.assertTrue(answer.checked())

    def test_cut_tree(self):
        for nodes, ends, graph in self.graphs(8, False):
            answer = cc.cut_tree(graph)
            self.assertTrue(is_spanning_tree(nodes, [pair[:2] for pair in answer.pairs]))
            for s in nodes:
                for t in nodes:
                    if s != t:
                        value, side = answer.least_cut(s, t)
                        self.assertTrue(s in side and t not in side)
                        self.assertEqual(value, crossing(ends, side))
                        self.assertEqual(value, flow_value(nodes, ends, s, t, False))

    def test_augmentations(self):
        for nodes, ends, graph in self.graphs(8, False):
            for k in (1, 2, 3):
                answer = cc.augment(graph, k)
                self.assertEqual(answer.value, len(answer.edges))
                self.assertTrue(all(crossing(ends + list(answer.edges), side) >= k for side in sides(nodes)))
                if k == 1:
                    self.assertEqual(set(answer.sets), classes(nodes, ends))
                else:
                    self.assertEqual(answer.value, (sum(k - crossing(ends, side) for side in answer.sets) + 1) // 2)
        for nodes, ends, graph in self.graphs(8, True):
            answer = cc.augment_arcs(graph, 2)
            self.assertTrue(all(entering(ends + list(answer.arcs), side) >= 2 for side in sides(nodes)))
            count = entering if answer.dual == "in" else leaving
            self.assertEqual(answer.value, sum(2 - count(ends, side) for side in answer.sets))

    def test_packings(self):
        for nodes, ends, graph in self.graphs(8, True):
            root = random.choice(nodes)
            answer = cc.arborescences(graph, root)
            self.disjoint(answer.parts)
            self.assertEqual((len(answer.parts), root in answer.cut), (answer.value, False))
            self.assertEqual(entering(ends, answer.cut), answer.value)
            for part in answer.parts:
                arcs = [ends[j] for j in part]
                self.assertTrue(is_spanning_tree(nodes, arcs) and reached(arcs, root) == set(nodes))
        for nodes, ends, graph in self.graphs(8, False):
            answer = cc.trees(graph)
            self.disjoint(answer.parts)
            self.assertTrue(all(is_spanning_tree(nodes, [ends[j] for j in part]) for part in answer.parts))
            between = len(ends) - sum(inside(ends, part) for part in answer.partition)
            self.assertEqual(answer.value, between // (len(answer.partition) - 1))
            answer = cc.forests(graph)
            self.assertEqual(sorted(j for part in answer.parts for j in part), list(range(len(ends))))
            self.assertTrue(all(is_forest(nodes, [ends[j] for j in part]) for part in answer.parts))
            if ends:
                self.assertEqual(answer.value, -(-inside(ends, answer.dense) // (len(answer.dense) - 1)))

    def test_orient(self):
        seen = set()
        for nodes, ends, graph in self.graphs(16, False):
            answer = cc.orient(graph, 1)
            seen.add(type(answer))
            if isinstance(answer, cc.Impossible):
                self.assertLess(crossing(ends, answer.side), 2)
            else:
                self.assertEqual([set(arc) for arc in answer.arcs], [set(edge) for edge in ends])
                self.assertTrue(all(entering(answer.arcs, side) for side in sides(nodes)))
        self.assertEqual(seen, {cc.Orientation, cc.Impossible})

    def test_dijoin(self):
        seen = set()
        for nodes, ends, _ in self.graphs(16, True, upward=True):
            held = [random.choice([{}, {"cost": random.randint(0, 4)}, {"fixed": random.random() < 0.7}]) for _ in ends]
            answer = cc.dijoin([(*edge, more) for edge, more in zip(ends, held)], directed=True, nodes=nodes)
            seen.add(type(answer))
            free = [j for j, more in enumerate(held) if not more.get("fixed")]
            closed = [side for side in sides(nodes) if not leaving(ends, side)]
            if isinstance(answer, cc.Impossible):
                self.assertIn(answer.side, closed)
                self.assertFalse(entering([ends[j] for j in free], answer.side))
                continue
            self.assertTrue(set(answer.arcs) <= set(free))
            self.assertTrue(all(entering([ends[j] for j in answer.arcs], side) for side in closed))
            self.assertTrue(all(side in closed for side in answer.dicuts))
            for j in free:
                self.assertLessEqual(sum(entering([ends[j]], side) for side in answer.dicuts), held[j].get("cost", 1))
            self.assertEqual(answer.value, len(answer.dicuts))
            self.assertEqual(answer.value, sum(held[j].get("cost", 1) for j in answer.arcs))
        self.assertEqual(seen, {cc.Dijoin, cc.Impossible})


if __name__ == "__main__":
    unittest.main()
