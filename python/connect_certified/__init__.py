"""Min-max problems of graph connectivity, answered by the proved program `connect`, each with a certificate.

G is a networkx graph, a list of edges, or a Graph made of either; directed= and nodes= belong to lists of edges (see
Graph). Each answer has its object, dual and value in the caller's own nodes and edges, and `checked()`. The program is
found by program=, else by the environment's CONNECT, else as `connect` of the checkout in which this package stands.

Each call raises Unwritable, or its SelfLoop, where a graph text can't hold G; a Refusal (BadWords, BadGraph, TooLarge,
Unsuited and others, by exit status) where the program refuses; NoProgram where there is none; and BadAnswer where what
it wrote isn't as documented. All are ConnectErrors.
"""

from __future__ import annotations

from typing import Any, Optional, Union, cast

from .answers import (Answer, Arborescences, ArcAugmentation, Augmentation, CutTree, Dijoin, Flow, Forests, Impossible,
                      Orientation, Trees, Trial)
from .certificate import read
from .errors import (BadAnswer, BadGraph, BadWords, ConnectError, Differs, NoMemory, NoProgram, NotBuilt, ReadFault, Refusal,
                     Rejected, SelfLoop, TooLarge, Unsuited, Unwritable, WordsNotTaken, WriteFault)
from .graph import Edge, Graph, Node, Nodes
from .program import Program, accept, run

__all__ = [
    "flow", "cut_tree", "augment", "augment_arcs", "arborescences", "trees", "forests", "orient", "dijoin", "trial", "check",
    "Graph", "Node", "Edge", "Answer", "Flow", "CutTree", "Augmentation", "ArcAugmentation", "Arborescences", "Trees",
    "Forests", "Orientation", "Dijoin", "Impossible", "Trial",
    "ConnectError", "NoProgram", "BadAnswer", "Differs", "Unwritable", "SelfLoop", "Refusal", "Rejected", "BadWords",
    "BadGraph", "TooLarge", "Unsuited", "ReadFault", "WriteFault", "NoMemory", "WordsNotTaken", "NotBuilt",
]


def flow(G: Any, s: Node, t: Node, *, directed: Optional[bool] = None, nodes: Nodes = None, program: Program = None) -> Flow:
    """The most walks from s to t of which no two share an edge or arc, and a least cut (Menger).

    `walks` has the edges of each walk in its order, `cut` is a set with s and without t that `value` edges or arcs leave.
    """
    graph = _graph(G, directed, nodes)
    return cast(Flow, _solved(graph, ["flow", graph.name(s), graph.name(t)], program))


def cut_tree(G: Any, *, directed: Optional[bool] = None, nodes: Nodes = None, program: Program = None) -> CutTree:
    """A cut tree of an undirected graph (Gomory and Hu): `pairs` of (u, v, weight), and least_cut(s, t) read off them."""
    return cast(CutTree, _solved(_graph(G, directed, nodes), ["cuttree"], program))


def augment(G: Any, k: int, *, directed: Optional[bool] = None, nodes: Nodes = None,
            program: Program = None) -> Augmentation:
    """The fewest edges that, added to an undirected graph, make it k-edge-connected, and disjoint sets that need so many."""
    return cast(Augmentation, _solved(_graph(G, directed, nodes), ["augment", _decimal(k)], program))


def augment_arcs(G: Any, k: int, *, directed: Optional[bool] = None, nodes: Nodes = None,
                 program: Program = None) -> ArcAugmentation:
    """The fewest arcs that, added to a digraph, make it k-arc-connected, and disjoint sets that need so many (Frank)."""
    return cast(ArcAugmentation, _solved(_graph(G, directed, nodes), ["augment-arcs", _decimal(k)], program))


def arborescences(G: Any, root: Node, *, directed: Optional[bool] = None, nodes: Nodes = None,
                  program: Program = None) -> Arborescences:
    """The most spanning arborescences of the root, no arc in two, and a set without it that so many arcs enter (Edmonds)."""
    graph = _graph(G, directed, nodes)
    return cast(Arborescences, _solved(graph, ["arborescences", graph.name(root)], program))


def trees(G: Any, *, directed: Optional[bool] = None, nodes: Nodes = None, program: Program = None) -> Trees:
    """The most spanning trees of an undirected graph, no edge in two, and a partition that shows that there are no more."""
    return cast(Trees, _solved(_graph(G, directed, nodes), ["trees"], program))


def forests(G: Any, *, directed: Optional[bool] = None, nodes: Nodes = None, program: Program = None) -> Forests:
    """The fewest forests that have each edge of an undirected graph once, and a set with too many edges inside for fewer."""
    return cast(Forests, _solved(_graph(G, directed, nodes), ["forests"], program))


def orient(G: Any, k: int, *, directed: Optional[bool] = None, nodes: Nodes = None,
           program: Program = None) -> Union[Orientation, Impossible]:
    """A direction for each edge that makes the graph k-arc-connected, or a set that fewer than 2k edges leave."""
    return cast(Union[Orientation, Impossible], _solved(_graph(G, directed, nodes), ["orient", _decimal(k)], program))


def dijoin(G: Any, *, directed: Optional[bool] = None, nodes: Nodes = None,
           program: Program = None) -> Union[Dijoin, Impossible]:
    """Arcs of least cost, none fixed, of which one enters each set that no arc leaves, and as many such sets as they cost;
    or a set that no arc leaves and only fixed arcs enter (Lucchesi and Younger)."""
    return cast(Union[Dijoin, Impossible], _solved(_graph(G, directed, nodes), ["dijoin"], program))


def trial(kind: str, nodes: int, number: int, *, program: Program = None) -> Trial:
    """What the command of this kind finds on the graph that is made from the number, with so many nodes."""
    said, status = run(program, ["trial", kind, _decimal(nodes), _decimal(number)])
    words = said.split()
    if said == " ".join(words) + "\n" and (status, words[0]) in ((0, "value"), (0, "done"), (1, "impossible")):
        if words[0] != "value" and len(words) == 1:
            return Trial(kind, nodes, number, None, status == 0)
        if words[0] == "value" and len(words) == 2 and words[1].isdecimal():
            return Trial(kind, nodes, number, int(words[1]), True)
    raise BadAnswer(f"a trial wrote {said[:200]!r} and ended with {status}")


def check(G: Any, certificate: str, *, directed: Optional[bool] = None, nodes: Nodes = None,
          program: Program = None) -> Answer:
    """The answer that a certificate has, where the program accepts it for G; else Rejected is raised.

    The certificate has the names of Graph(G).names: the nodes' own where they are strings and ints that can be names in
    a graph text, else n1, n2 and so on in the order of the nodes.
    """
    graph = _graph(G, directed, nodes)
    accept(program, graph.text, certificate)
    return read(graph, certificate, program)


def _graph(source: Any, directed: Optional[bool], nodes: Nodes) -> Graph:
    if not isinstance(source, Graph):
        return Graph(source, directed=directed, nodes=nodes)
    if directed is not None or nodes is not None:
        raise Unwritable("directed= and nodes= are for a list of edges; a Graph has its own")
    return source


def _decimal(number: int) -> str:
    """The number as a word. Whether it is in its range the program says."""
    if not isinstance(number, int) or isinstance(number, bool):
        raise TypeError(f"{number!r} is no int")
    return str(int(number))


def _solved(graph: Graph, words: list[str], program: Program) -> Answer:
    text, status = run(program, words, graph.text)
    answer = read(graph, text, program, words)
    if isinstance(answer, Impossible) != (status == 1):
        raise BadAnswer(f"{' '.join(words)!r} ended with {status} and wrote {text[:200]!r}")
    return answer
