"""The reader of certificates, which takes nothing but what its table has, and answers that don't fit their certificate."""

import dataclasses
import pickle
import random
import sys
import unittest

from support import K4, RING, ROOT, SQUARE, cc
from connect_certified.certificate import read

sys.path.append(str(ROOT / "tools"))
import graphs as plain  # noqa: E402
from try_program import mutated  # noqa: E402

FLOW = "certificate 1\ncommand flow a d\nvalue 2\npath 3 4\npath 1 2\ndual cut\nset a\nend\n"


class Reader(unittest.TestCase):
    def refused(self, graph, text, words=""):
        with self.assertRaises(cc.BadAnswer) as caught:
            read(graph, text)
        self.assertIn(words, str(caught.exception))

    def test_each_line(self):
        graph = cc.Graph(SQUARE)
        self.assertEqual(read(graph, FLOW).walks, ((2, 3), (0, 1)))
        for old, new, words in [
            ("certificate 1", "certificate 2", "version"), ("certificate 1\n", "", "line 1"),
            ("certificate 1", "certificate", "line 1"), ("flow a d", "flow a", "line 2"),
            ("flow a d", "fly a d", "line 2"), ("command flow a d", "command", "line 2"),
            ("value 2", "value two", "'two' is no number"), ("value 2", "value 02", "no number"),
            ("value 2", "value -1", "no number"), ("value 2", "value 18446744073709551616", "no number"),
            ("value 2\n", "", "'value'"), ("value 2", "impossible", "'value'"),
            ("path 3 4", "path 3 5", "'5' is no number from 1 to 4"), ("path 3 4", "path 0", "no number"),
            ("path 3 4", "path 3  4", "'path'"), ("path 3 4", "part 3 4", "'dual'"),
            ("path 3 4", "path 3 4\nnote", "'dual'"), ("path 1 2", " path 1 2", "'dual'"),
            ("dual cut", "dual cuts", "not a dual"), ("dual cut\n", "", "'dual'"), ("set a", "set z", "'z' is no node"),
            ("set a", "set a a", "order"), ("set a", "set d a", "order"), ("set a\n", "", "0 sets"),
            ("set a", "set a\nset b", "2 sets"), ("end\n", "", "0 words"), ("end\n", "end", "line feed"),
            ("end\n", "end\nend\n", "follows"), ("end\n", "end \n", "'end'"), ("end\n", "end\n\n", "follows"),
            ("value 2\n", "value 2\r\n", "no number"), (FLOW, "", "line 1"), ("set a", "set a\t", "no node"),
        ]:
            with self.subTest(old=old, new=new):
                self.refused(graph, FLOW.replace(old, new), words)

    def test_forms(self):
        square, ring = cc.Graph(SQUARE), cc.Graph(RING, directed=True)
        for graph, lines, words in [
            (square, "dijoin/value 0/join/dual dicuts", "the other kind"),
            (ring, "trees/value 0/dual partition/set 0/set 1 2", "the other kind"),
            (square, "flow a a/value 0/dual cut/set a", "to itself"),
            (square, "flow a z/value 0/dual cut/set a", "no node"),
            (square, "augment 33/value 0/dual subpartition", "no number from 1 to 32"),
            (square, "augment 02/value 0/dual subpartition", "no number"),
            (square, "augment 1/value 0/dual subpartition", "not a dual"),
            (square, "augment 2/value 0/dual components", "not a dual"),
            (square, "augment 2/value 1/edge a/dual subpartition", "not two nodes"),
            (square, "augment 2/impossible/dual cut/set a", "'value'"),
            (square, "cuttree/tree a b/tree a c 2", "two nodes and a number"),
            (square, "forests/value 0/dual none/set a", "1 sets"),
            (square, "orient 1/value 0/arc a b", "in their order"),
            (square, "orient 1/arc a b/arc b d/arc a c", "in their order"),
            (square, "orient 1/arc a b/arc b d/arc c d/arc a c", "in their order"),
            (square, "orient 2/impossible/dual dicut/set a", "not a dual"),
            (ring, "dijoin/value 0/dual dicuts", "one line of 'join'"),
            (ring, "dijoin/value 0/join/join/dual dicuts", "one line of 'join'"),
            (ring, "dijoin 1/value 0/join/dual dicuts", "not a command"),
            (ring, "check/value 0", "not a command"),
        ]:
            with self.subTest(lines=lines):
                self.refused(graph, "certificate 1\ncommand " + lines.replace("/", "\n") + "\nend\n", words)

    def test_other_command_than_asked(self):
        self.assertRaises(cc.BadAnswer, read, cc.Graph(SQUARE), FLOW, None, ["flow", "d", "a"])


class BesideThePlainReader(unittest.TestCase):
    """tools/graphs.py has a plain reader of certificates, written for the tests of the program: the two take the same."""

    def answers(self):
        arcs = [("a", "b", {"cost": 2}), ("b", "c"), ("b", "c", {"fixed": True})]
        for solve, source, *more in [
            (cc.flow, SQUARE, "a", "d"), (cc.cut_tree, SQUARE), (cc.augment, SQUARE, 3), (cc.augment, SQUARE, 1),
            (cc.trees, SQUARE), (cc.forests, SQUARE), (cc.orient, SQUARE, 1), (cc.orient, SQUARE, 2),
        ]:
            yield solve(source, *more)
        for solve, source, *more in [(cc.dijoin, arcs), (cc.arborescences, RING, 0), (cc.augment_arcs, arcs, 1),
                                     (cc.dijoin, [("a", "b", {"fixed": True})])]:
            yield solve(source, *more, directed=True)

    def test_broken_texts(self):
        random.seed(1)
        taken = 0
        for answer in self.answers():
            graph = plain.read_graph_alone(answer.graph.text.encode())
            for _ in range(200):
                text = mutated(answer.certificate.encode())
                try:
                    wanted = plain.read_certificate(graph, text)[3] == len(text)
                except plain.Bad:
                    wanted = False
                try:
                    found = bool(read(answer.graph, text.decode("utf-8", "surrogateescape")))
                except cc.BadAnswer:
                    found = False
                self.assertEqual(found, wanted, text)
                taken += found
        self.assertGreater(taken, 100)


class Checked(unittest.TestCase):
    def test_check(self):
        answer = cc.check(SQUARE, FLOW)
        self.assertEqual((type(answer), answer.walks, answer.cut), (cc.Flow, ((2, 3), (0, 1)), {"a"}))
        self.assertTrue(answer.checked())
        made = cc.trees([((u, 0), (v, 0)) for u, v in K4])
        self.assertEqual(cc.check(made.graph, made.certificate), made)

    def test_wrong_certificates(self):
        answer = cc.flow(SQUARE, "a", "d")
        for old, new, reason, place in [("path 1 2", "path 3 4", "infeasible", None), ("set a", "set b", "dual", None),
                                        ("value 2", "value 3", "gap", None), ("value 2", "value two", "malformed", 3)]:
            wrong = dataclasses.replace(answer, certificate=answer.certificate.replace(old, new))
            with self.subTest(new=new), self.assertRaises(cc.Rejected) as caught:
                wrong.checked()
            self.assertEqual((caught.exception.reason, caught.exception.place, caught.exception.status), (reason, place, 2))
        for wrong in (dataclasses.replace(answer, graph=cc.Graph(SQUARE[:-1])), dataclasses.replace(answer, certificate="")):
            self.assertRaises(cc.Rejected, wrong.checked)

    def test_fields_that_the_certificate_has_not(self):
        answer, other = cc.flow(SQUARE, "a", "d"), cc.flow(SQUARE, "d", "a")
        for change in ({"value": 3}, {"walks": answer.walks[:1]}, {"cut": frozenset("abc")}, {"words": other.words},
                       {"certificate": other.certificate}):
            with self.subTest(change=change):
                self.assertRaises(cc.Differs, dataclasses.replace(answer, **change).checked)

    def test_frozen_and_portable(self):
        answer = cc.flow(SQUARE, "a", "d")
        with self.assertRaises(dataclasses.FrozenInstanceError):
            answer.value = 3
        again = pickle.loads(pickle.dumps(answer))
        self.assertEqual(again, answer)
        self.assertEqual(hash(again), hash(answer))
        self.assertTrue(again.checked())


if __name__ == "__main__":
    unittest.main()
