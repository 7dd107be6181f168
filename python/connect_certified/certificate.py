"""Reads a certificate into an answer. What its table of commands doesn't have is an error, wherever it stands."""

from __future__ import annotations

import re
from dataclasses import dataclass
from typing import Any, Callable, Optional, Sequence

from .answers import (Answer, Arborescences, ArcAugmentation, Augmentation, CutTree, Dijoin, Flow, Forests, Impossible,
                      Orientation, Trees)
from .errors import BadAnswer
from .graph import Edge, Graph, Node
from .program import Program

DECIMAL = re.compile(r"(0|[1-9][0-9]*)\Z")
MOST = 2 ** 64 - 1
ANY = -1


class _Reader:
    """The lines of a text one by one, and their words for nodes and edges of the graph."""

    def __init__(self, graph: Graph, text: str) -> None:
        self.graph, self.at = graph, 0
        self.lines = text.split("\n")
        self.named = {name: place for place, name in enumerate(graph.names.values())}

    def bad(self, why: str) -> BadAnswer:
        line = self.lines[self.at] if self.at < len(self.lines) else ""
        return BadAnswer(f"certificate line {self.at + 1}, {line[:80]!r}: {why}")

    def starts(self, word: str) -> bool:
        return self.lines[self.at].split(" ")[0] == word

    def take(self, word: str, count: int = ANY) -> list[str]:
        """The words behind the first one, which has to be this, and the step to the next line."""
        words = self.lines[self.at].split(" ")
        if words[0] != word or "" in words or count not in (ANY, len(words) - 1):
            raise self.bad(f"not a line of {word!r}" + ("" if count == ANY else f" and {count} words"))
        self.at += 1
        if self.at == len(self.lines):
            raise self.bad("the text ends without a line feed")
        return words[1:]

    def finish(self) -> None:
        """Takes the last line, behind whose line feed nothing may follow."""
        self.take("end", 0)
        if self.lines[self.at:] != [""]:
            raise self.bad("something follows 'end'")

    def number(self, word: str, least: int = 0, most: int = MOST) -> int:
        if not DECIMAL.match(word) or not least <= int(word) <= most:
            raise self.bad(f"{word!r} is no number from {least} to {most}")
        return int(word)

    def node(self, word: str) -> Node:
        if word not in self.named:
            raise self.bad(f"{word!r} is no node")
        return self.graph.nodes[self.named[word]]

    def side(self) -> frozenset[Node]:
        names = self.take("set")
        nodes = [self.node(name) for name in names]
        places = [self.named[name] for name in names]
        if places != sorted(set(places)):
            raise self.bad("the nodes of a set don't stand in the graph's order")
        return frozenset(nodes)


# ---- the words behind the first of an object line

def _edges(reader: _Reader, words: list[str]) -> tuple[Edge, ...]:
    return tuple(reader.graph.edges[reader.number(word, 1, len(reader.graph.edges)) - 1] for word in words)


def _pair(reader: _Reader, words: list[str]) -> tuple[Node, ...]:
    if len(words) != 2:
        raise reader.bad("not two nodes")
    return tuple(reader.node(word) for word in words)


def _weighed(reader: _Reader, words: list[str]) -> tuple[Any, ...]:
    if len(words) != 3:
        raise reader.bad("not two nodes and a number")
    return (*_pair(reader, words[:2]), reader.number(words[2]))


# ---- what the lines are to an answer

def _flat(reader: _Reader, parts: list[Any]) -> tuple[Edge, ...]:
    if len(parts) != 1:
        raise reader.bad("not one line of 'join'")
    return tuple(parts[0])


def _directions(reader: _Reader, arcs: list[Any]) -> tuple[Any, ...]:
    """The arcs, each with the key of its edge where edges have one."""
    graph = reader.graph
    if [set(arc) for arc in arcs] != [set(ends) for ends in graph.ends]:
        raise reader.bad("not an arc for each edge, in their order")
    return tuple(arc + (edge[2:] if isinstance(edge, tuple) else ()) for arc, edge in zip(arcs, graph.edges))


def _several(_: _Reader, lines: list[Any]) -> tuple[Any, ...]:
    return tuple(lines)


@dataclass(frozen=True)
class Form:
    """How a command's certificates look: the kind of its graph (None for both), what the words behind it are, whether it
    has a value, the first word of its object lines and what is behind it, the answer's field for them, the kinds of its dual
    with their numbers of sets, and the answer's fields for the kind and the sets."""

    make: Callable[..., Answer]
    directed: Optional[bool]
    operands: tuple[str, ...]
    valued: bool
    item: str
    each: Callable[[_Reader, list[str]], Any]
    object: str
    whole: Callable[[_Reader, list[Any]], Any] = _several
    duals: tuple[tuple[str, int], ...] = ()
    kind: Optional[str] = None
    sets: Optional[str] = None
    impossible: Optional[str] = None


# One row a command; `augment 1` has a dual of its own.
FORMS = {
    "flow": Form(Flow, None, ("node", "node"), True, "path", _edges, "walks", duals=(("cut", 1),), sets="cut"),
    "cuttree": Form(CutTree, False, (), False, "tree", _weighed, "pairs"),
    "augment 1": Form(Augmentation, False, ("k",), True, "edge", _pair, "edges", duals=(("components", ANY),), kind="dual",
                      sets="sets"),
    "augment": Form(Augmentation, False, ("k",), True, "edge", _pair, "edges", duals=(("subpartition", ANY),), kind="dual",
                    sets="sets"),
    "augment-arcs": Form(ArcAugmentation, True, ("k",), True, "arc", _pair, "arcs", duals=(("in", ANY), ("out", ANY)),
                         kind="dual", sets="sets"),
    "arborescences": Form(Arborescences, True, ("node",), True, "part", _edges, "parts", duals=(("cut", 1),), sets="cut"),
    "trees": Form(Trees, False, (), True, "part", _edges, "parts", duals=(("partition", ANY),), sets="partition"),
    "forests": Form(Forests, False, (), True, "part", _edges, "parts", duals=(("set", 1), ("none", 0)), sets="dense"),
    "orient": Form(Orientation, False, ("k",), False, "arc", _pair, "arcs", _directions, impossible="cut"),
    "dijoin": Form(Dijoin, True, (), True, "join", _edges, "arcs", _flat, duals=(("dicuts", ANY),), sets="dicuts",
                   impossible="dicut"),
}


def read(graph: Graph, text: str, program: Program = None, asked: Optional[Sequence[str]] = None) -> Answer:
    """The answer that a certificate has; where words are asked for, its command has to be these. Raises BadAnswer."""
    reader = _Reader(graph, text)
    if reader.take("certificate", 1) != ["1"]:
        raise BadAnswer("the certificate isn't of version 1")
    words, form = _command(reader)
    if asked is not None and words != list(asked):
        raise BadAnswer(f"the certificate is of {' '.join(words)!r}, and {' '.join(asked)!r} was asked")
    begun = (graph, tuple(words), text, program)
    if form.impossible and reader.starts("impossible"):
        reader.take("impossible", 0)
        kind, sides = _dual(reader, ((form.impossible, 1),))
        answer: Answer = Impossible(*begun, value=None, dual=kind, side=sides[0])
    else:
        answer = form.make(*begun, **_fields(reader, form))
    reader.finish()
    return answer


def _command(reader: _Reader) -> tuple[list[str], Form]:
    """The command's words and its row."""
    words = reader.take("command")
    reader.at -= 1
    form = FORMS.get(" ".join(words[:2])) or FORMS.get(words[0] if words else "")
    if form is None or len(words) != len(form.operands) + 1:
        raise reader.bad("not a command with a certificate")
    if form.directed not in (None, reader.graph.directed):
        raise reader.bad("the graph is of the other kind")
    for operand, word in zip(form.operands, words[1:]):
        if operand == "node":
            reader.node(word)
        else:
            reader.number(word, 1, 32)
    if form.make is Flow and words[1] == words[2]:
        raise reader.bad("a flow from a node to itself")
    reader.at += 1
    return words, form


def _fields(reader: _Reader, form: Form) -> dict[str, Any]:
    """The fields of an answer from the lines behind the command, up to the last."""
    value = reader.number(reader.take("value", 1)[0]) if form.valued else None
    lines = []
    while reader.starts(form.item):
        lines.append(form.each(reader, reader.take(form.item)))
    fields = {"value": value, form.object: form.whole(reader, lines)}
    if form.duals:
        kind, sides = _dual(reader, form.duals)
        counts = dict(form.duals)
        if form.kind:
            fields[form.kind] = kind
        if form.sets:
            fields[form.sets] = sides if counts[kind] == ANY else sides[0] if sides else None
    return fields


def _dual(reader: _Reader, duals: tuple[tuple[str, int], ...]) -> tuple[str, tuple[frozenset[Node], ...]]:
    """The dual's kind and its sets, as many as it has to have."""
    kind = reader.take("dual", 1)[0]
    count = dict(duals).get(kind)
    if count is None:
        reader.at -= 1
        raise reader.bad("not a dual of this command")
    sides = []
    while reader.starts("set"):
        sides.append(reader.side())
    if count not in (ANY, len(sides)):
        raise reader.bad(f"{len(sides)} sets, where the dual has {count}")
    return kind, tuple(sides)
