#!/usr/bin/env python3
"""Converts between graph texts and other formats of graphs.

usage: convert.py [--from FORMAT] [--to FORMAT] [--directed] [--rename] [--drop] [--terminals S T] [INPUT [OUTPUT]]

FORMAT is one of these. It is guessed from the file's ending, and a graph text is written where nothing else is said.

  graph    .graph                 a graph text of connect
  graphml  .graphml               by networkx, which has the edges in an order of its own, also in the three next ones
  gml      .gml                   by networkx; nodes are named by their labels where each has one of its own, else by ids
  graph6   .g6                    by networkx, one graph
  sparse6  .s6                    by networkx, one graph
  edges    .edges .edgelist       a line for each edge: two names, and maybe {'cost': 3} or {'fixed': True} as networkx
                                  writes; one name alone is a node; # begins a comment. With --directed these are arcs
  dimacs   .dimacs .col .max      'p edge' or 'p col' with 'e U V', an undirected graph; or 'p max' with 'a U V CAP',
                                  a digraph in which an arc of capacity c becomes c parallel arcs, none for 0, as long as
                                  there are 2,048 at most. Each line 'e' is an edge, so that 'e 1 2' and 'e 2 1' are two
  dot      .dot .gv               plain DOT without subgraphs, ports and HTML

INPUT and OUTPUT are standard input and output where they are left out or '-'. Only the attributes cost and fixed of arcs
and number of nodes are taken over. What no graph text can hold is refused, with its place: loops, other names, more than
128 nodes or 2,048 edges, numbers and costs out of range, costs of undirected edges. And so is what the other format can't
hold, such as parallel edges in graph6.

  --rename       a node whose name no graph text can have gets a name n1, n2 and so on by its place, and a comment
                 '# name n1 "its own"' in the graph text. From a graph text, the names in such comments come back.
                 For graph6, sparse6 and dimacs, which have numbers for names, nodes are numbered in their order.
  --drop         leaves out costs, fixed and numbers where the other format has no place for them
  --terminals    the source and sink of 'p max', which a digraph needs to be written as dimacs. Reading 'p max' leaves them
                 as a comment '# terminals S T'

Ends with 0 where the graph was converted, with 1 where it was refused, and with 2 where the words are wrong.
A refused graph leaves OUTPUT as it was.
"""

import argparse
import ast
import io
import json
import re
import sys
import warnings
from pathlib import Path
from xml.etree import ElementTree

import graphs as plain

ENDINGS = {".graph": "graph", ".graphml": "graphml", ".gml": "gml", ".g6": "graph6", ".s6": "sparse6", ".edges": "edges",
           ".edgelist": "edges", ".dimacs": "dimacs", ".col": "dimacs", ".max": "dimacs", ".dot": "dot", ".gv": "dot"}
NAME = re.compile(r"[A-Za-z0-9_.\-]{1,32}\Z")
DECIMAL = re.compile(r"(0|[1-9][0-9]*)\Z")
NAMED = re.compile(r'# name (\S+) (".*")\Z')


class Refused(Exception):
    """What is wrong, and where: a line, an edge or a node."""

    def __init__(self, place, why):
        super().__init__(f"{place}: {why}" if place else why)


class Node:
    def __init__(self, name, place, number=None):
        self.name, self.place, self.number = name, place, number


class Line:
    """An edge or arc between two nodes by their places in the list; None where no cost is told."""

    def __init__(self, tail, head, place, cost=None, fixed=None):
        self.tail, self.head, self.place, self.cost, self.fixed = tail, head, place, cost, fixed


class Net:
    """A graph of any format, before it is known whether a graph text can hold it."""

    def __init__(self, directed):
        self.directed, self.nodes, self.lines, self.notes = directed, [], [], []
        self.known = {}

    def node(self, key, place, name=None):
        """The place of the node with this key, which is made where it isn't there."""
        if key not in self.known:
            self.known[key] = len(self.nodes)
            self.nodes.append(Node(key if name is None else name, place))
        return self.known[key]

    def line(self, tail, head, place, held):
        self.lines.append(Line(tail, head, place, held.get("cost"), held.get("fixed")))


# ---- what a graph text can hold

def quoted(name):
    """A name on one line and in ASCII, whatever it has."""
    return json.dumps(name)


def shown(value):
    """A name or an attribute in a message, which it may not fill."""
    text = quoted(value) if isinstance(value, str) else repr(value)
    return text if len(text) <= 60 else text[:60] + ".."


def whole(value, most, place, what):
    """A number that a format has as an int or as a word."""
    if isinstance(value, str) and DECIMAL.match(value) and len(value) < 10:
        value = int(value)
    if isinstance(value, bool) or not isinstance(value, int) or not 0 <= value <= most:
        raise Refused(place, f"the {what} is {shown(value)}, and not a whole number from 0 to {most:,}")
    return value


def truth(value, place):
    word = str(value).lower()
    if word not in ("true", "1", "false", "0"):
        raise Refused(place, f"fixed is {shown(value)}, and not true or false")
    return word in ("true", "1")


def fit(net, rename, drop):
    """Makes the graph one that a graph text can hold, or refuses it at its first fault."""
    fit_nodes(net)
    fit_names(net, rename)
    if len(net.lines) > plain.MOST_LINES:
        raise Refused(net.lines[plain.MOST_LINES].place, f"more than {plain.MOST_LINES:,} edges or arcs")
    costs = 0
    for line in net.lines:
        fit_line(net, line, drop)
        costs += line.cost
        if net.directed and costs > plain.MOST_COSTS:
            raise Refused(line.place, f"with this arc the costs add up to more than {plain.MOST_COSTS:,}")


def fit_nodes(net):
    if not net.nodes:
        raise Refused("", "the graph has no node")
    if len(net.nodes) > plain.MOST_NODES:
        raise Refused(net.nodes[plain.MOST_NODES].place, f"more than {plain.MOST_NODES} nodes")
    numbers = 0
    for node in net.nodes:
        node.number = whole(0 if node.number is None else node.number, plain.MOST_NUMBER, node.place, "number of the node")
        numbers += node.number
        if numbers > plain.MOST_NUMBERS:
            raise Refused(node.place, f"with this node the numbers add up to more than {plain.MOST_NUMBERS:,}")


def fit_names(net, rename):
    """Gives names to the nodes that have none that a graph text could have, each its place's where it is free."""
    taken = {}
    for node in net.nodes:
        if NAME.match(node.name) and node.name not in taken:
            taken[node.name] = node
        elif not rename:
            why = "two nodes have this name" if NAME.match(node.name) else "a name is 1 to 32 of A-Z a-z 0-9 _ . -"
            raise Refused(node.place, f"the name {shown(node.name)}: {why} (--rename gives another)")
    for place, node in enumerate(net.nodes, 1):
        if taken.get(node.name) is not node:
            name = f"n{place}"
            while name in taken:
                name += "_"
            net.notes.append(f"name {name} {quoted(node.name)}")
            taken[name], node.name = node, name


def fit_line(net, line, drop):
    if line.tail == line.head:
        raise Refused(line.place, f"a loop at {net.nodes[line.tail].name}, and no graph text has loops")
    if drop and not net.directed:
        line.cost = line.fixed = None
    if not net.directed and (line.cost, line.fixed) != (None, None):
        raise Refused(line.place, "a cost or fixed, which only arcs of a digraph have (--drop leaves it out)")
    line.fixed = line.fixed is not None and truth(line.fixed, line.place)
    line.cost = 1 if line.cost is None else whole(line.cost, plain.MOST_COST, line.place, "cost")
    if line.fixed and line.cost != 1:
        raise Refused(line.place, "a fixed arc has no cost of its own")


# ---- graph texts

def text_of(data):
    """The text of the bytes."""
    try:
        return data.decode("utf-8")
    except UnicodeDecodeError as error:
        raise Refused(f"line {data[:error.start].count(10) + 1}", "not UTF-8") from error


def read_graph(data, options):
    try:
        graph = plain.read_graph_alone(data)
    except plain.Fault as fault:
        raise Refused(f"line {fault.line}", f"no graph text ({fault.why})") from fault
    own = own_names(data) if options.rename else {}
    net = Net(graph.directed)
    for name, number in zip(graph.names, graph.numbers):
        name = name.decode()
        place = net.node(name, f"node {name}", own.get(name, name))
        net.nodes[place].number = number
    names = [node.name for node in net.nodes]
    if len({*names}) < len(names):
        raise Refused("", "the comments of names tell one name of two nodes")
    for j, (tail, head, fixed, cost) in enumerate(graph.lines, 1):
        net.lines.append(Line(tail, head, f"line {j} of the graph", cost, fixed))
    return net


def own_names(data):
    """The names that comments of an earlier --rename tell."""
    found = {}
    for number, line in enumerate(text_of(data).split("\n"), 1):
        match = NAMED.match(line.rstrip("\r"))
        if match:
            try:
                found[match[1]] = json.loads(match[2])
                found[match[1]].encode()
            except ValueError as error:
                raise Refused(f"line {number}", f"no quoted name in the comment: {error.args[0]}") from error
    return found


def write_graph(net, options):
    word, lines = ("arc" if net.directed else "edge"), ["graph directed" if net.directed else "graph undirected"]
    lines += [f"# {note}" for note in net.notes]
    lines += [f"node {node.name}" + (f" {node.number}" if node.number else "") for node in net.nodes]
    for line in net.lines:
        end = " fixed" if line.fixed else f" cost {line.cost}" if line.cost != 1 else ""
        lines.append(f"{word} {net.nodes[line.tail].name} {net.nodes[line.head].name}{end}")
    return "".join(line + "\n" for line in [*lines, "end"]).encode()


# ---- edge lists

def read_edges(data, options):
    net = Net(options.directed)
    for number, text in enumerate(text_of(data).split("\n"), 1):
        place, words = f"line {number}", text.split("#")[0].split(None, 2)
        if not words:
            continue
        ends = [net.node(word, place) for word in words[:2]]
        if len(words) > 1:
            net.line(*ends, place, attributes(words[2:], place))
    return net


def attributes(rest, place):
    """The dict behind the two names of an edge, as networkx writes it."""
    if not rest:
        return {}
    try:
        with warnings.catch_warnings():
            warnings.simplefilter("ignore")
            held = ast.literal_eval(rest[0].strip())
    except (ValueError, TypeError, SyntaxError, MemoryError, RecursionError):
        held = None
    if not isinstance(held, dict):
        raise Refused(place, f"{shown(rest[0].strip())} behind the names is no dict such as {{'cost': 3}}")
    return held


def write_edges(net, options):
    for node in net.nodes:
        if not node.name or re.search(r"[\s#]", node.name):
            raise Refused(node.place, f"an edge list can't hold the name {shown(node.name)}")
    # Nodes stand in front where their edges alone would leave some out, or have them in another order.
    order = list(dict.fromkeys(end for line in net.lines for end in (line.tail, line.head)))
    lines = [] if order == list(range(len(net.nodes))) else [node.name for node in net.nodes]
    for line in net.lines:
        held = {"fixed": True} if line.fixed else {"cost": line.cost} if line.cost != 1 else None
        lines.append(f"{net.nodes[line.tail].name} {net.nodes[line.head].name}" + (f" {held}" if held else ""))
    return "".join(line + "\n" for line in lines).encode()


# ---- DIMACS

def read_dimacs(data, options):
    net, told, held = None, None, 0
    terminals = {}
    for number, text in enumerate(text_of(data).split("\n"), 1):
        place, words = f"line {number}", text.split()
        if not words or words[0] == "c":
            continue
        if words[0] == "p":
            if net is not None:
                raise Refused(place, "a second problem line")
            net, told = problem(words, place), place
            count = int(words[3])
        elif net is None:
            raise Refused(place, "no problem line 'p edge', 'p col' or 'p max' before it")
        elif words[0] == ("a" if net.directed else "e"):
            held += 1
            dimacs_line(net, words, place)
        elif words[0] == "n" and net.directed:
            terminal(net, terminals, words, place)
        else:
            raise Refused(place, f"a line {shown(words[0])}, which 'p {'max' if net.directed else 'edge'}' has not")
    if net is None:
        raise Refused("", "no problem line 'p edge', 'p col' or 'p max'")
    if held != count:
        raise Refused(told, f"{count} lines of edges are told, and {held} stand there")
    if len(terminals) == 2:
        net.notes.append(f"terminals {terminals['s']} {terminals['t']}")
    return net


def problem(words, place):
    """The nodes of a problem line."""
    if len(words) != 4 or words[1] not in ("edge", "col", "max"):
        raise Refused(place, "the problem line isn't 'p edge N M', 'p col N M' or 'p max N M'")
    if not all(DECIMAL.match(word) and len(word) < 10 for word in words[2:]):
        raise Refused(place, "the problem line has other words than two numbers")
    if int(words[2]) > plain.MOST_NODES:
        raise Refused(place, f"more than {plain.MOST_NODES} nodes")
    net = Net(words[1] == "max")
    for number in range(1, int(words[2]) + 1):
        net.node(str(number), f"{place}, node {number}")
    return net


def dimacs_line(net, words, place):
    """An edge, or as many arcs as the capacity says."""
    if len(words) != (4 if net.directed else 3):
        raise Refused(place, "not 'a U V CAPACITY'" if net.directed else "not 'e U V'")
    for word in words[1:3]:
        if word not in net.known:
            raise Refused(place, f"there is no node {shown(word)}")
    room = plain.MOST_LINES - len(net.lines)
    if net.directed and (not DECIMAL.match(words[3]) or len(words[3]) > 9):
        raise Refused(place, f"the capacity {shown(words[3])} is no whole number below 10^9")
    copies = int(words[3]) if net.directed else 1
    if copies > room:
        each = ", one for each unit of capacity" if net.directed else ""
        raise Refused(place, f"more than {plain.MOST_LINES:,} edges or arcs{each}")
    for _ in range(copies):
        net.line(net.known[words[1]], net.known[words[2]], place, {})


def terminal(net, terminals, words, place):
    if len(words) != 3 or words[1] not in net.known or words[2] not in ("s", "t") or words[2] in terminals:
        raise Refused(place, "not 'n NODE s' or 'n NODE t', one of each")
    terminals[words[2]] = words[1]


def write_dimacs(net, options):
    names = [node.name for node in net.nodes]
    lines = [f"c name {place} {quoted(name)}" for place, name in enumerate(names, 1) if name != str(place)]
    lines.append(f"p {'max' if net.directed else 'edge'} {len(names)} {len(net.lines)}")
    if net.directed:
        if not options.terminals:
            raise Refused("", "dimacs has digraphs with a source and a sink alone: --terminals S T tells them")
        for name, letter in zip(options.terminals, "st"):
            if name not in names:
                raise Refused("--terminals", f"there is no node {shown(name)}")
            lines.append(f"n {names.index(name) + 1} {letter}")
    for line in net.lines:
        lines.append(f"a {line.tail + 1} {line.head + 1} 1" if net.directed else f"e {line.tail + 1} {line.head + 1}")
    return "".join(line + "\n" for line in lines).encode()


# ---- DOT

TOKEN = re.compile(r'''\s+|//[^\n]*|/\*.*?\*/|(?P<op>--|->)|(?P<mark>[{}\[\];,=:+])|"(?P<quoted>(?:[^"\\]|\\.)*)"
                   |(?P<word>[A-Za-z_\x80-\U0010ffff][A-Za-z_0-9\x80-\U0010ffff]*|-?(?:\.[0-9]+|[0-9]+(?:\.[0-9]*)?))''',
                   re.DOTALL | re.VERBOSE)
KEYWORDS = ("strict", "graph", "digraph", "node", "edge", "subgraph")
LEFT_OUT = {"+": "joined strings", ":": "ports", "{": "subgraphs", "subgraph": "subgraphs"}


class Dot:
    """A reader of plain DOT. A token is its kind (mark, op, key or id), its text, and its line."""

    def __init__(self, text):
        self.tokens, self.at = list(self.split(text)), 0
        self.net, self.defaults, self.pairs = None, {"graph": {}, "node": {}, "edge": {}}, None

    @staticmethod
    def split(text):
        at, line = 0, 1
        while at < len(text):
            if text[at] == "#" and text[max(at - 1, 0):at] in ("", "\n"):
                end = text.find("\n", at)
                at = len(text) if end < 0 else end
                continue
            match = TOKEN.match(text, at)
            if not match:
                why = "HTML isn't read" if text[at] == "<" else f"{quoted(text[at])} begins nothing that DOT has"
                raise Refused(f"line {line}", why)
            kind, found = match.lastgroup, match[match.lastgroup or 0]
            if kind == "word":
                kind, found = ("key", found.lower()) if found.lower() in KEYWORDS else ("id", found)
            elif kind == "quoted":
                kind, found = "id", re.sub(r'\\(\n|")', lambda m: m[1].strip(), found)
            if kind:
                yield kind, found, line
            at, line = match.end(), line + match[0].count("\n")
        yield "mark", "", line

    def refuse(self, wanted):
        kind, found, line = self.tokens[self.at]
        if kind != "id" and found in LEFT_OUT:
            raise Refused(f"line {line}", f"{LEFT_OUT[found]} aren't read")
        raise Refused(f"line {line}", f"{shown(found) if found or kind == 'id' else 'the end'} where {wanted} should stand")

    def taken(self, kind, *texts):
        """The next token's text, and the step behind it, where it is of the kind and one of the texts; else None."""
        now = self.tokens[self.at]
        if now[0] != kind or texts and now[1] not in texts:
            return None
        self.at += 1
        return now[1]

    def need(self, wanted, kind, *texts):
        found = self.taken(kind, *texts)
        return self.refuse(wanted) if found is None else found

    def place(self):
        return f"line {self.tokens[self.at][2]}"

    def read(self):
        self.pairs = set() if self.taken("key", "strict") else None
        self.net = Net(self.need("'graph' or 'digraph'", "key", "graph", "digraph") == "digraph")
        self.taken("id")
        self.need("'{'", "mark", "{")
        while self.taken("mark", "}") is None:
            self.statement()
            self.taken("mark", ";")
        self.need("the end", "mark", "")
        return self.net

    def statement(self):
        place, kind = self.place(), self.taken("key", "graph", "node", "edge")
        if kind:
            self.defaults[kind].update(self.attributes(True))
            return
        name = self.need("a statement", "id")
        if self.taken("mark", "=") is not None:
            self.need("a value", "id")
            return
        nodes, places = [self.node(name, place)], []
        while self.taken("op", "->" if self.net.directed else "--"):
            places.append(self.place())
            nodes.append(self.node(self.need("a node", "id"), places[-1]))
        held = self.attributes(False)
        if not places and "number" in held:
            self.net.nodes[nodes[0]].number = held["number"]
        for tail, head, place in zip(nodes, nodes[1:], places):
            self.edge(tail, head, place, {**self.defaults["edge"], **held})

    def node(self, name, place):
        new = name not in self.net.known
        node = self.net.node(name, place)
        if new:
            self.net.nodes[node].number = self.defaults["node"].get("number")
        return node

    def edge(self, tail, head, place, held):
        pair = (tail, head) if self.net.directed else (min(tail, head), max(tail, head))
        if self.pairs is not None and pair in self.pairs:
            raise Refused(place, "an edge of a strict graph that stands there already")
        if self.pairs is not None:
            self.pairs.add(pair)
        self.net.line(tail, head, place, held)

    def attributes(self, needed):
        """The attributes of some lists in brackets."""
        held = {}
        if needed and self.tokens[self.at][:2] != ("mark", "["):
            self.refuse("'['")
        while self.taken("mark", "[") is not None:
            while self.taken("mark", "]") is None:
                name = self.need("an attribute", "id")
                held[name] = self.need("a value", "id") if self.taken("mark", "=") is not None else "true"
                self.taken("mark", ",", ";")
        if self.tokens[self.at][:2] in (("mark", ":"), ("mark", "+")):
            self.refuse("a statement")
        return held


def read_dot(data, options):
    return Dot(text_of(data)).read()


def dot_name(node):
    if re.search(r"\\(\\\\)*\Z|\\[\n\"]", node.name):
        raise Refused(node.place, f"DOT can't hold the name {shown(node.name)}")
    return '"' + node.name.replace('"', '\\"') + '"'


def write_dot(net, options):
    names, op = [dot_name(node) for node in net.nodes], "->" if net.directed else "--"
    lines = [f"    {name}" + (f" [number={node.number}]" if node.number else "") for name, node in zip(names, net.nodes)]
    for line in net.lines:
        held = " [fixed=true]" if line.fixed else f" [cost={line.cost}]" if line.cost != 1 else ""
        lines.append(f"    {names[line.tail]} {op} {names[line.head]}{held}")
    return "".join(line + "\n" for line in ["digraph {" if net.directed else "graph {", *lines, "}"]).encode()


# ---- formats that networkx reads and writes

def networkx_for(form):
    try:
        import networkx
    except ImportError as error:
        why = f"{form} takes networkx, which {sys.executable} has not (Debian's package is python3-networkx)"
        raise Refused("", why) from error
    return networkx


def read_networkx(form):
    def read(data, options):
        nx = networkx_for(form)
        lines = [number for number, line in enumerate(data.split(b"\n"), 1) if line.strip()]
        if form in ("graph6", "sparse6") and len(lines) != 1:
            raise Refused(f"line {lines[1]}" if lines else "", "a second graph" if lines else "no graph")
        readers = {"graphml": lambda: nx.read_graphml(io.BytesIO(data)),
                   "gml": lambda: nx.read_gml(io.BytesIO(data), label=None),
                   "graph6": lambda: nx.from_graph6_bytes(data.strip()),
                   "sparse6": lambda: nx.from_sparse6_bytes(data.strip())}
        try:
            found = readers[form]()
        except Exception as error:  # The readers of networkx raise errors of many kinds, and each is one of the input.
            raise Refused("", f"networkx can't read it as {form}: {type(error).__name__}: {str(error)[:200]}") from error
        if form == "graphml":
            whole_graphml(data, found)
        return net_of(found, form)
    return read


def whole_graphml(data, found):
    """Refuses a file of which networkx takes a part, as of two graphs, nested ones, and edges of the same id."""
    tags = [element.tag.split("}")[-1] for element in ElementTree.fromstring(data).iter()]
    for tag, taken in (("node", found.number_of_nodes()), ("edge", found.number_of_edges())):
        if tags.count(tag) != taken:
            raise Refused("", f"networkx takes {taken} of {tags.count(tag)} {tag}s")


def net_of(found, form):
    net, labels = Net(found.is_directed()), [held.get("label") for _, held in found.nodes(data=True)]
    labelled = form == "gml" and None not in labels and len({*map(str, labels)}) == len(labels)
    for (key, held), label in zip(found.nodes(data=True), labels):
        name = str(label if labelled else key)
        net.nodes[net.node(key, f"node {shown(name)}", name)].number = held.get("number")
    for u, v, held in found.edges(data=True):
        tail, head = net.known[u], net.known[v]
        net.line(tail, head, f"edge {shown(net.nodes[tail].name)} {shown(net.nodes[head].name)}", held)
    return net


def write_networkx(form):
    def write(net, options):
        nx = networkx_for(form)
        made = found_of(nx, net, form)
        if form == "graph6":
            return nx.to_graph6_bytes(made, header=False)
        if form == "sparse6":
            return nx.to_sparse6_bytes(made, header=False)
        lines = nx.generate_graphml(made) if form == "graphml" else nx.generate_gml(made)
        return "".join(line + "\n" for line in lines).encode()
    return write


def found_of(nx, net, form):
    """The graph of networkx, in which numbers are the names for the formats that have no others."""
    parallel = doubled(net) is not None
    kind = (nx.MultiDiGraph if net.directed else nx.MultiGraph) if parallel else nx.DiGraph if net.directed else nx.Graph
    names = [node.name for node in net.nodes] if form in ("graphml", "gml") else list(range(len(net.nodes)))
    made = kind()
    for name, node in zip(names, net.nodes):
        if form == "graphml" and re.search(r"[\x00-\x08\x0b\x0c\x0e-\x1f\ud800-\udfff\ufffe\uffff]", node.name):
            raise Refused(node.place, f"XML can't hold the name {shown(node.name)}")
        made.add_node(name, **({"number": node.number} if node.number else {}))
    for line in net.lines:
        # (GML has no truth values.)
        held = {"fixed": True if form == "graphml" else 1} if line.fixed else {"cost": line.cost} if line.cost != 1 else {}
        made.add_edge(names[line.tail], names[line.head], **held)
    return made


def doubled(net):
    """The first line that has a parallel one before it, or None."""
    seen = set()
    for line in net.lines:
        pair = (line.tail, line.head) if net.directed else (min(line.tail, line.head), max(line.tail, line.head))
        if pair in seen:
            return line
        seen.add(pair)
    return None


# ---- the formats, and what each has no place for

READERS = {"graph": read_graph, "edges": read_edges, "dimacs": read_dimacs, "dot": read_dot,
           **{form: read_networkx(form) for form in ("graphml", "gml", "graph6", "sparse6")}}
WRITERS = {"graph": write_graph, "edges": write_edges, "dimacs": write_dimacs, "dot": write_dot,
           **{form: write_networkx(form) for form in ("graphml", "gml", "graph6", "sparse6")}}
NO_ARCS, NO_PARALLELS, NO_COSTS = {"graph6", "sparse6"}, {"graph6"}, {"graph6", "sparse6", "dimacs"}
NO_NUMBERS, FIRST_NAME = NO_COSTS | {"edges"}, {"graph6": 0, "sparse6": 0, "dimacs": 1}


def suit(net, form, options):
    """Refuses what the format has no place for, or drops it where that is asked for."""
    double = doubled(net)
    if form in NO_ARCS and net.directed:
        raise Refused("", f"{form} has no digraphs")
    if form in NO_PARALLELS and double:
        raise Refused(double.place, f"{form} has no parallel edges")
    for place, node in enumerate(net.nodes):
        first = FIRST_NAME.get(form)
        if first is not None and node.name != str(place + first) and not options.rename:
            raise Refused(node.place, f"{form} names this node {place + first} (--rename allows it)")
        if form in NO_NUMBERS and node.number and not options.drop:
            raise Refused(node.place, f"{form} has no numbers of nodes (--drop leaves them out)")
    for line in net.lines:
        if form in NO_COSTS and (line.fixed or line.cost != 1) and not options.drop:
            raise Refused(line.place, f"{form} has no costs and nothing fixed (--drop leaves them out)")
        if form in NO_COSTS:
            line.fixed, line.cost = False, 1
    if form in NO_NUMBERS:
        for node in net.nodes:
            node.number = 0


def convert(data, source, target, options):
    """The bytes in the other format, or Refused."""
    if len(data) > plain.MOST_BYTES:
        raise Refused("", f"more than {plain.MOST_BYTES:,} bytes")
    net = READERS[source](data, options)
    if source != "graph":
        fit(net, options.rename, options.drop)
    suit(net, target, options)
    return WRITERS[target](net, options)


def options_of(words):
    parser = argparse.ArgumentParser(usage=argparse.SUPPRESS)
    parser.format_help = lambda: __doc__
    forms = sorted(READERS)
    parser.add_argument("--from", dest="source", choices=forms)
    parser.add_argument("--to", dest="target", choices=forms)
    for name in ("--directed", "--rename", "--drop"):
        parser.add_argument(name, action="store_true")
    parser.add_argument("--terminals", nargs=2)
    parser.add_argument("input", nargs="?", default="-")
    parser.add_argument("output", nargs="?", default="-")
    options = parser.parse_args(words)
    options.source = options.source or ENDINGS.get(Path(options.input).suffix.lower())
    if not options.source:
        parser.error("the ending of the input tells no format: --from FORMAT does")
    guessed = "graph" if options.output == "-" and options.source != "graph" else None
    options.target = options.target or ENDINGS.get(Path(options.output).suffix.lower(), guessed)
    if not options.target:
        parser.error("the ending of the output tells no format: --to FORMAT does")
    if options.source == options.target == "graph":
        parser.error("from a graph text to a graph text there is nothing to convert")
    if options.directed and options.source != "edges":
        parser.error("--directed is for edge lists, the other formats tell it themselves")
    if options.terminals and options.target != "dimacs":
        parser.error("--terminals is for dimacs")
    return options


def main(words):
    options = options_of(words)
    try:
        data = sys.stdin.buffer.read() if options.input == "-" else Path(options.input).read_bytes()
        made = convert(data, options.source, options.target, options)
        if options.output == "-":
            sys.stdout.buffer.write(made)
            sys.stdout.buffer.flush()
        else:
            Path(options.output).write_bytes(made)
    except Refused as refused:
        print(f"convert: {options.input}: {refused}", file=sys.stderr)
        return 1
    except OSError as error:
        print(f"convert: {error}", file=sys.stderr)
        return 1
    return 0


if __name__ == "__main__":
    sys.exit(main(sys.argv[1:]))
