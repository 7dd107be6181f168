"""The examples of README.md, as they stand there."""

import doctest
import unittest

from support import ROOT, with_networkx


@with_networkx
class Readme(unittest.TestCase):
    def test_examples(self):
        failed, tried = doctest.testfile(str(ROOT / "python/README.md"), module_relative=False, encoding="utf-8")
        self.assertEqual((failed, tried > 8), (0, True))


if __name__ == "__main__":
    unittest.main()
