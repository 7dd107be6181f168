#!/usr/bin/env python3
"""Tests try_guide.py on pages and programs made for it.

usage: test_guide.py [-v]

Ends with 0 where all is as wanted, else with 1.
"""

import contextlib
import io
import tempfile
import unittest
from pathlib import Path
from unittest import mock

import try_guide

SESSION = "Text.\n\n```\n$ echo one; echo two\none\ntwo\n$ true\n$ echo three\nthree\n```\n"
APART = "```\n./connect trees\n```\n\n```\ngraph undirected\n```\n\nThe answer:\n\n```\ncertificate 1\nend\n```\n"


class Commands(unittest.TestCase):
    def test_sessions(self):
        self.assertEqual(list(try_guide.commands_of(SESSION)),
                         [("echo one; echo two", "one\ntwo\n"), ("true", ""), ("echo three", "three\n")])

    def test_an_answer_apart(self):
        self.assertEqual(list(try_guide.commands_of(APART)), [("./connect trees", "certificate 1\nend\n")])
        self.assertEqual(list(try_guide.commands_of("```\n./connect trees\n```\n")), [("./connect trees", None)])

    def test_other_blocks(self):
        for text in ["```\nrt ci\n```\n", "```\ncat a | ./connect check\n```\n", "`$ echo`\n", "```\n>>> 1\n1\n```\n",
                     "```\n```\n"]:
            self.assertEqual(list(try_guide.commands_of(text)), [], text)

    def test_left_out(self):
        self.assertEqual(try_guide.why_left("pip install ./python", None), "that installs")
        self.assertIn("networkx", try_guide.why_left("python3 tools/compare_networkx.py trees", None))
        self.assertIsNone(try_guide.why_left("./connect trees < examples/k4.graph", None))


class Pages(unittest.TestCase):
    def tried(self, text, program="#!/bin/sh\n[ $1 = check ] && echo rejected malformed 1 || echo \"$@\"\n"):
        """Runs the whole script on one page in a root of its own: its exit status and what it wrote."""
        with tempfile.TemporaryDirectory() as path, io.StringIO() as out:
            root = Path(path)
            (root / "docs").mkdir()
            (root / "examples").mkdir()
            (root / "examples/one.graph").write_text("graph undirected\nnode a\nend\n")
            (root / "docs/GUIDE.md").write_text(text)
            (root / "program").write_text(program)
            (root / "program").chmod(0o755)
            with mock.patch.object(try_guide, "ROOT", root), contextlib.redirect_stdout(out):
                return try_guide.main([str(root / "program")]), out.getvalue()

    def test_all_as_it_stands(self):
        status, out = self.tried(SESSION + "```\n$ ./connect trees; echo $?\ntrees\n0\n```\n")
        self.assertEqual((status, out), (0, "docs/GUIDE.md: 4 commands ran\n0 differences\n"))

    def test_differences(self):
        for text, number in [("```\n$ ./connect trees\nforests\n```\n", 1), (APART, 1), ("```\n./connect trees\n```\n", 1),
                             ("```\n$ ./connect a\nb\n$ ./connect c\nd\n```\n", 2), ("```\n$ echo lost >&2\n```\n", 1),
                             ("![none](pictures/none.svg)\n", 1)]:
            status, out = self.tried(text)
            self.assertEqual((status, out.split("\n")[-2]), (1, f"{number} differences"), text)

    def test_a_graph_that_is_not_read(self):
        status, out = self.tried("", "#!/bin/sh\necho graph 1 header\n")
        self.assertEqual(status, 1)
        self.assertIn("one.graph", out)


if __name__ == "__main__":
    unittest.main()
