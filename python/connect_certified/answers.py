"""The answers, each with its object, its dual and its value in the caller's own nodes and edges.

An edge is its index where the graph was a list of edges, (u, v) in a networkx Graph or DiGraph, and (u, v, key) in a
multigraph, as the graph itself has it.
"""

from __future__ import annotations

from dataclasses import dataclass, field
from typing import Optional

from .errors import Differs
from .graph import Edge, Graph, Node
from .program import Program, accept

_Pair = tuple[Node, Node, int]



@dataclass(frozen=True)
class Answer:
    """What all answers have: the graph, the command's words, and the certificate, which is the program's own text."""

    graph: Graph = field(repr=False, compare=False)
    words: tuple[str, ...]
    certificate: str = field(repr=False)
    # The program= of the call, which checked() asks again.
    program: Program = field(repr=False, compare=False)

    def checked(self, program: Program = None) -> bool:
        """True where `check` accepts the certificate for the graph, and the fields are what the certificate has.

        Raises Rejected where `check` doesn't accept it, and Differs where the fields are others.
        """
        from .certificate import read  # (which makes the classes of this file)

        used = self.program if program is None else program
        accept(used, self.graph.text, self.certificate)
        if read(self.graph, self.certificate, used) != self:
            raise Differs(f"the certificate is accepted, but its fields aren't those of {self!r}")
        return True


@dataclass(frozen=True)
class Flow(Answer):
    """The most walks that share no edge, and a set with s and without t that only so many edges or arcs leave."""

    value: int
    walks: tuple[tuple[Edge, ...], ...]
    cut: frozenset[Node]


@dataclass(frozen=True)
class CutTree(Answer):
    """A cut tree: pairs (u, v, weight) that are a spanning tree, each with the value of a least cut of its two nodes."""

    value: None
    pairs: tuple[_Pair, ...]

    def least_cut(self, s: Node, t: Node) -> tuple[int, frozenset[Node]]:
        """The value of a least cut of two different nodes and its side with s, read off the tree."""
        if s == t or s not in self.graph.names or t not in self.graph.names:
            raise ValueError(f"{s!r} and {t!r} aren't two different nodes of the graph")
        way = self._way(s, t)
        least = min(way, key=lambda pair: pair[2])
        return least[2], frozenset(self._reached(s, without=least))

    def _reached(self, s: Node, without: Optional[_Pair] = None) -> dict[Node, Optional[_Pair]]:
        """The nodes on s's side without the pair, each with the pair by which it is reached."""
        came: dict[Node, Optional[_Pair]] = {s: None}
        queue = [s]
        for node in queue:
            for pair in self.pairs:
                if pair is not without and node in pair[:2]:
                    other = pair[1] if pair[0] == node else pair[0]
                    if other not in came:
                        came[other] = pair
                        queue.append(other)
        return came

    def _way(self, s: Node, t: Node) -> list[_Pair]:
        came = self._reached(s)
        way: list[_Pair] = []
        while (pair := came[t]) is not None:
            way.append(pair)
            t = pair[1] if pair[0] == t else pair[0]
        return way


@dataclass(frozen=True)
class Augmentation(Answer):
    """The fewest new edges (u, v) that make a graph K-edge-connected, and sets that need so many.

    `dual` is `components` for K = 1 and else `subpartition`.
    """

    value: int
    edges: tuple[tuple[Node, Node], ...]
    dual: str
    sets: tuple[frozenset[Node], ...]


@dataclass(frozen=True)
class ArcAugmentation(Answer):
    """The fewest new arcs (tail, head) that make a digraph K-arc-connected, and sets that need so many.

    `dual` is `in` where the sets need arcs that enter them, and `out` where they need arcs that leave them.
    """

    value: int
    arcs: tuple[tuple[Node, Node], ...]
    dual: str
    sets: tuple[frozenset[Node], ...]


@dataclass(frozen=True)
class Arborescences(Answer):
    """The most spanning arborescences of the root that share no arc, and a set without it that only so many arcs enter."""

    value: int
    parts: tuple[tuple[Edge, ...], ...]
    cut: frozenset[Node]


@dataclass(frozen=True)
class Trees(Answer):
    """The most spanning trees that share no edge, and a partition of the nodes that shows that there are no more."""

    value: int
    parts: tuple[tuple[Edge, ...], ...]
    partition: tuple[frozenset[Node], ...]


@dataclass(frozen=True)
class Forests(Answer):
    """The fewest forests that have each edge once, and a set with too many edges inside for fewer.

    `dense` is None where there is no edge.
    """

    value: int
    parts: tuple[tuple[Edge, ...], ...]
    dense: Optional[frozenset[Node]]


@dataclass(frozen=True)
class Orientation(Answer):
    """An arc (tail, head) for each edge, in the order of the graph's edges; (tail, head, key) for a multigraph."""

    value: None
    arcs: tuple[tuple[Node, ...], ...]


@dataclass(frozen=True)
class Dijoin(Answer):
    """Arcs of the least cost that enter each set that no arc leaves, and as many such sets as they cost."""

    value: int
    arcs: tuple[Edge, ...]
    dicuts: tuple[frozenset[Node], ...]


@dataclass(frozen=True)
class Impossible(Answer):
    """Nothing feasible exists, since `side` forbids it. It is neither empty nor all nodes.

    `dual` is `cut` for `orient K`, where fewer than 2K edges leave the side, and `dicut` for `dijoin`, where no arc leaves
    the side and only fixed arcs enter it.
    """

    value: None
    dual: str
    side: frozenset[Node]


@dataclass(frozen=True)
class Trial:
    """A trial's outcome: `value` where the command has one, else None; `possible` is False where nothing feasible exists."""

    kind: str
    nodes: int
    number: int
    value: Optional[int]
    possible: bool
