"""The caller's graph, with the numbers and the names that the program has for its nodes and edges."""

from __future__ import annotations

import itertools
import re
from collections.abc import Mapping as MappingType
from typing import Any, Hashable, Iterable, Iterator, Mapping, Optional, Sequence, Union

from .errors import SelfLoop, Unwritable

Node = Hashable
# What an answer has for an edge: its index in a list of edges, (u, v) of a Graph or DiGraph, (u, v, key) of a multigraph.
Edge = Any
Nodes = Union[Iterable[Node], Mapping[Node, int], None]

NAME = re.compile(r"[A-Za-z0-9_.\-]{1,32}\Z")
MOST_NUMBER, MOST_COST = 8_192, 100


class Graph:
    """A graph for the program. Every call makes one of the graph that it is given; make it once to save that.

    `source` is a networkx Graph, DiGraph, MultiGraph or MultiDiGraph, or a list or tuple of edges (u, v) or
    (u, v, {"cost": 3}) or (u, v, {"fixed": True}). For a list `directed` says whether these are arcs, and `nodes` has
    nodes that come before those of the edges, in particular isolated ones; a mapping gives their numbers.

    Of a networkx graph the attributes `cost` and `fixed` of arcs and `number` of nodes are read, and no others.

    Raises SelfLoop or Unwritable, both with the edge or node as `place`, where a graph text can't hold the graph.
    """

    def __init__(self, source: Any, *, directed: Optional[bool] = None, nodes: Nodes = None) -> None:
        # Names of nodes, in order, and what stands behind a name in the text.
        self._numbers: dict[Node, str] = {}
        self.ends: list[tuple[Node, Node]] = []
        self.edges: list[Edge] = []
        self._costs: list[str] = []
        if _is_networkx(source):
            if directed is not None or nodes is not None:
                raise Unwritable("directed= and nodes= are for a list of edges; a networkx graph has its own")
            self.directed = bool(source.is_directed())
            self._read_networkx(source)
        elif isinstance(source, (list, tuple)):
            self.directed = bool(directed)
            self._read_list(source, nodes)
        else:
            raise Unwritable(f"a graph is a networkx graph or a list of edges, not {type(source).__name__}")
        self.nodes: tuple[Node, ...] = tuple(self._numbers)
        self.names: dict[Node, str] = dict(zip(self.nodes, _names(self.nodes)))
        self.text = "".join(line + "\n" for line in self._lines())

    def __repr__(self) -> str:
        kind = "directed" if self.directed else "undirected"
        return f"<Graph {kind}, {len(self.nodes)} nodes, {len(self.ends)} edges>"

    def name(self, node: Node) -> str:
        """The node's name in the text; for one that isn't a node a name that no node has, which the program refuses."""
        if _hashed(node) in self.names:
            return self.names[node]
        taken = set(self.names.values())
        return next(name for name in map("none{}".format, itertools.count()) if name not in taken)

    def _read_networkx(self, source: Any) -> None:
        for node, held in source.nodes(data=True):
            self._add_node(node, held.get("number"))
        whole = source.edges(keys=True, data=True) if source.is_multigraph() else source.edges(data=True)
        for *edge, held in whole:
            self._add_edge(tuple(edge), edge[0], edge[1], held)

    def _read_list(self, source: Sequence[Any], nodes: Nodes) -> None:
        for node in () if nodes is None else nodes:
            self._add_node(node, nodes[node] if isinstance(nodes, MappingType) else None)
        for index, edge in enumerate(source):
            if not isinstance(edge, (list, tuple)) or len(edge) not in (2, 3):
                raise Unwritable(f"edge {index} is {edge!r}, and not (u, v) or (u, v, attributes)", index)
            held = edge[2] if len(edge) == 3 else {}
            if not isinstance(held, MappingType) or not set(held) <= {"cost", "fixed"}:
                raise Unwritable(f"edge {index} has {held!r}, and not a dict of cost or fixed", index)
            for node in edge[:2]:
                if _hashed(node) not in self._numbers:
                    self._add_node(node, None)
            self._add_edge(index, edge[0], edge[1], held)

    def _add_node(self, node: Node, number: Any) -> None:
        if number is not None and not _within(number, MOST_NUMBER):
            raise Unwritable(f"node {node!r} has number {number!r}, and not an int from 0 to {MOST_NUMBER}", node)
        self._numbers[_hashed(node)] = f" {number}" if number else ""

    def _add_edge(self, edge: Edge, u: Node, v: Node, held: Mapping[str, Any]) -> None:
        if u == v:
            raise SelfLoop(f"edge {edge!r} has twice the same end {u!r}", edge)
        self.edges.append(edge)
        self.ends.append((u, v))
        self._costs.append(self._cost(edge, held))

    def _cost(self, edge: Edge, held: Mapping[str, Any]) -> str:
        """What stands behind an edge's ends in the text."""
        cost, fixed = held.get("cost"), held.get("fixed")
        if cost is None and fixed is None:
            return ""
        if not self.directed:
            raise Unwritable(f"edge {edge!r} has a cost or is fixed, which only arcs of a digraph can be", edge)
        if fixed is not None and not isinstance(fixed, bool):
            raise Unwritable(f"arc {edge!r} has fixed {fixed!r}, and not True or False", edge)
        if cost is not None and not _within(cost, MOST_COST):
            raise Unwritable(f"arc {edge!r} has cost {cost!r}, and not an int from 0 to {MOST_COST}", edge)
        if fixed and cost not in (None, 1):
            raise Unwritable(f"arc {edge!r} is fixed, and can't have a cost of its own", edge)
        return " fixed" if fixed else "" if cost in (None, 1) else f" cost {cost}"

    def _lines(self) -> Iterator[str]:
        word = "arc" if self.directed else "edge"
        yield "graph directed" if self.directed else "graph undirected"
        for node, name in self.names.items():
            yield f"node {name}{self._numbers[node]}"
        for (u, v), cost in zip(self.ends, self._costs):
            yield f"{word} {self.names[u]} {self.names[v]}{cost}"
        yield "end"


def _is_networkx(source: Any) -> bool:
    """By its shape, so that networkx needn't be there for callers of lists."""
    return all(hasattr(source, name) for name in ("is_directed", "is_multigraph", "nodes", "edges"))


def _within(number: Any, most: int) -> bool:
    return isinstance(number, int) and not isinstance(number, bool) and 0 <= number <= most


def _hashed(value: Any) -> Node:
    node: Node = value
    try:
        hash(node)
    except TypeError as error:
        raise Unwritable(f"{value!r} can't be a node: it isn't hashable", value) from error
    return node


def _names(nodes: Sequence[Node]) -> list[str]:
    """The nodes' own names, where they are strings and ints that a text can have, each else; otherwise n1, n2 and so on."""
    names = [str(node) for node in nodes if isinstance(node, (str, int))]
    if len(names) == len(nodes) == len(set(names)) and all(NAME.match(name) for name in names):
        return names
    return [f"n{place}" for place in range(1, len(nodes) + 1)]
