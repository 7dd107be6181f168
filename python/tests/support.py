"""What the tests share: the program, the package, and networkx where it is."""

import os
import sys
import unittest
from pathlib import Path

ROOT = Path(__file__).resolve().parents[2]
sys.path.insert(0, str(ROOT / "python"))
# Never the wrapper `connect`, which would build the program first.
os.environ.setdefault("CONNECT", str(ROOT / "crates/connect/out/connect"))

import connect_certified as cc  # noqa: E402

try:
    import networkx as nx
except ImportError:
    nx = None

with_networkx = unittest.skipIf(nx is None, "networkx isn't there")

SQUARE = [("a", "b"), ("b", "d"), ("a", "c"), ("c", "d")]
K4 = [(u, v) for u in range(4) for v in range(u + 1, 4)]
RING = [(0, 1), (1, 2), (2, 0)]


def crossing(ends, side):
    """How many edges have one end in the side."""
    return sum((u in side) != (v in side) for u, v in ends)


def entering(ends, side):
    return sum(v in side and u not in side for u, v in ends)


def leaving(ends, side):
    return entering([(v, u) for u, v in ends], side)


def inside(ends, side):
    return sum(u in side and v in side for u, v in ends)


def classes(nodes, ends):
    """The connected components, as a set of frozensets."""
    of = {node: {node} for node in nodes}
    for u, v in ends:
        if of[u] is not of[v]:
            of[u] |= of[v]
            for node in of[v]:
                of[node] = of[u]
    return {frozenset(part) for part in of.values()}


def is_forest(nodes, ends):
    return len(classes(nodes, ends)) == len(nodes) - len(ends)


def is_spanning_tree(nodes, ends):
    return len(ends) == len(nodes) - 1 and is_forest(nodes, ends)


def reached(ends, root):
    """The nodes to which arcs lead from the root."""
    came, grown = {root}, True
    while grown:
        more = {v for u, v in ends if u in came} - came
        came, grown = came | more, bool(more)
    return came


def is_walk(ends, s, t, directed):
    at = s
    for u, v in ends:
        if at == u:
            at = v
        elif at == v and not directed:
            at = u
        else:
            return False
    return bool(ends) and at == t


def flow_value(nodes, ends, s, t, directed):
    """The least cut of s and t, by all sets."""
    others = [node for node in nodes if node not in (s, t)]
    count = leaving if directed else crossing
    return min(count(ends, {s} | {v for j, v in enumerate(others) if chosen >> j & 1}) for chosen in range(2 ** len(others)))


def sides(nodes):
    """All sets that are neither empty nor all nodes."""
    nodes = list(nodes)
    for chosen in range(1, 2 ** len(nodes) - 1):
        yield {v for j, v in enumerate(nodes) if chosen >> j & 1}
