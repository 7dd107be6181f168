#!/usr/bin/env python3
"""Prints what networkx, or plain ways with its calls, answer to the questions of docs/GUIDE.md, beside the program's values.

usage: compare_networkx.py [-h] [--program PROGRAM] [augment | parallel | trees | forests | arborescences | orient | dijoin |
                           cuttree]...

All of them, where none is named. PROGRAM is the one that ./connect builds, where it is left out. What a random choice
decides is tried from the numbers 0 to 19, and the least and the most are told where they differ. Where networkx isn't there,
or the program fails, it says so and ends with 1.
"""

import random
import subprocess
import sys
from pathlib import Path

import graphs as plain

try:
    import networkx as nx
except ImportError:
    nx = None

ROOT = Path(__file__).resolve().parent.parent
SEEDS = range(20)


class Failed(Exception):
    """Why a figure can't be had."""


def graph_of(name):
    return plain.read_graph_alone((ROOT / "examples" / f"{name}.graph").read_bytes())


def of_networkx(graph, several=False):
    """The graph as one of networkx, which takes parallel lines for one unless it is asked for several."""
    plain_kind, several_kind = (nx.DiGraph, nx.MultiDiGraph) if graph.directed else (nx.Graph, nx.MultiGraph)
    made = several_kind() if several else plain_kind()
    names = [name.decode() for name in graph.names]
    made.add_nodes_from(names)
    made.add_edges_from((names[t], names[h], {"cost": cost, "fixed": fixed}) for t, h, fixed, cost in graph.lines)
    return made


def answer(program, words, name):
    """The program's certificate for the command on an example, without its first two lines."""
    data = (ROOT / "examples" / f"{name}.graph").read_bytes()
    try:
        done = subprocess.run([program, *words], input=data, capture_output=True, timeout=120, check=False)
    except OSError as why:
        raise Failed(f"{program}: {why.strerror}") from None
    if done.returncode not in (0, 1):
        raise Failed(f"{' '.join(words)} on {name}: {done.stdout.decode().strip()}")
    return done.stdout.decode().split("\n")[2:]


def value(program, words, name):
    return int(answer(program, words, name)[0].split()[1])


def spread(numbers):
    low, high = min(numbers), max(numbers)
    return str(low) if low == high else f"{low} to {high}"


# ---- one function a question

def augment(program):
    """New edges by k_edge_augmentation, which for K of 3 and more adds edges one by one and drops those not needed.

    It never adds an edge beside another one, which the program may: how many of its edges do is told, since only an answer
    without any is one to the same question.
    """
    for name, k in [("abilene", 2), ("abilene", 3), ("abilene", 4), ("nsfnet", 3), ("nsfnet", 4), ("backbone", 3),
                    ("backbone", 4), ("florentine", 3), ("karate", 3)]:
        graph, counts = of_networkx(graph_of(name)), []
        for seed in SEEDS:
            random.seed(seed)
            counts.append(len(list(nx.k_edge_augmentation(graph, k))))
        rows = answer(program, ["augment", str(k)], name)
        new = [frozenset(row.split()[1:]) for row in rows if row.startswith("edge ")]
        beside = sum(pair in new[:at] or graph.has_edge(*pair) for at, pair in enumerate(new))
        yield f"augment {k} on {name}: connect {len(new)}, {beside} of them beside another edge; networkx {spread(counts)}"


def tried(call):
    """What a call answers, or the name of what it raises."""
    try:
        return str(call())
    except nx.NetworkXException as why:
        return type(why).__name__


def parallel(program):
    """Parallel lines: refused, or taken for one."""
    once, several = (of_networkx(graph_of("konigsberg"), wide) for wide in (False, True))
    least = min(int(line.split()[3]) for line in answer(program, ["cuttree"], "konigsberg") if line.startswith("tree"))
    yield (f"edges of a least cut of konigsberg: connect {least}, networkx {tried(lambda: nx.edge_connectivity(once))} on a "
           f"Graph, {tried(lambda: nx.edge_connectivity(several))} on a MultiGraph")
    added = [len(list(nx.k_edge_augmentation(once, 3))) for _ in SEEDS]
    refused = tried(lambda: list(nx.k_edge_augmentation(several, 3)))
    best = value(program, ["augment", "3"], "konigsberg")
    yield f"augment 3 on konigsberg: connect {best}, networkx {spread(added)} on a Graph, {refused} on a MultiGraph"
    once, several = (of_networkx(graph_of("two-routes"), wide) for wide in (False, True))
    words = ["south", "harbour"]
    found = [tried(lambda made=made: len(list(nx.edge_disjoint_paths(made, *words)))) for made in (once, several)]
    best = value(program, ["flow", *words], "two-routes")
    yield (f"flow south harbour on two-routes: connect {best}, networkx {found[0]} on a DiGraph, {found[1]} on a "
           "MultiDiGraph")


def peeled(graph, tree):
    """How many spanning trees are found if each is taken out before the next one is looked for."""
    left, count = graph.copy(), 0
    while True:
        found = list(tree(left))
        if len(found) < len(graph) - 1:
            return count
        left.remove_edges_from(found)
        count += 1


def kruskal(graph):
    return [(u, v) for u, v, *_ in nx.minimum_spanning_edges(graph, data=False)]


def trees(program):
    """Spanning trees one after the other, by breadth-first search from the first node and by minimum_spanning_edges."""
    for name in ("k4", "fabric"):
        graph = of_networkx(graph_of(name))
        first = next(iter(graph))
        wide = peeled(graph, lambda g, first=first: nx.bfs_edges(g, first))
        yield (f"trees on {name}: connect {value(program, ['trees'], name)}, bfs_edges {wide}, minimum_spanning_edges "
               f"{peeled(graph, kruskal)}")


def forests(program):
    """Forests one after the other, each a largest one of what is left."""
    for name in ("florentine", "nsfnet", "karate", "les-miserables"):
        left, count = of_networkx(graph_of(name)), 0
        while left.size():
            left.remove_edges_from(kruskal(left))
            count += 1
        yield f"forests on {name}: connect {value(program, ['forests'], name)}, minimum_spanning_edges {count}"


def arborescences(program):
    """Arborescences one after the other, by breadth-first and by depth-first search."""
    for name, root in (("nsfnet-arcs", "1"), ("nsfnet-arcs", "9")):
        graph = of_networkx(graph_of(name))
        wide, deep = (peeled(graph, lambda g, way=way: way(g, root)) for way in (nx.bfs_edges, nx.dfs_edges))
        yield (f"arborescences {root} on {name}: connect {value(program, ['arborescences', root], name)}, bfs_edges {wide}, "
               f"dfs_edges {deep}")


def orient(program):
    """Directions by chance."""
    graph, good = of_networkx(graph_of("town")), 0
    random.seed(0)
    for _ in range(10_000):
        good += nx.is_strongly_connected(nx.DiGraph(random.choice([(u, v), (v, u)]) for u, v in graph.edges))
    found = len([line for line in answer(program, ["orient", "1"], "town") if line.startswith("arc")])
    yield (f"orient 1 on town: connect directs all {found} edges; of 10,000 directions by chance {good} are strongly "
           "connected")


def opened(graph, arcs):
    both = nx.DiGraph(graph)
    both.add_edges_from((v, u) for u, v in arcs)
    return nx.is_strongly_connected(both)


def dijoin(program):
    """Arcs to open: all between strong components, and those of them that are left when the dearest ones go that can."""
    for name in ("one-way", "curl"):
        graph = of_networkx(graph_of(name))
        part = {v: j for j, nodes in enumerate(nx.strongly_connected_components(graph)) for v in nodes}
        cost = {(u, v): said["cost"] for u, v, said in graph.edges(data=True) if part[u] != part[v] and not said["fixed"]}
        kept = set(cost)
        for arc in sorted(cost, key=cost.get, reverse=True):
            if opened(graph, kept - {arc}):
                kept.remove(arc)
        yield (f"dijoin on {name}: connect {value(program, ['dijoin'], name)}, all arcs between strong components "
               f"{sum(cost.values())}, without those that can be spared {sum(map(cost.get, kept))}")


def cuttree(program):
    """Values of all pairs by gomory_hu_tree; where no capacities stand, it takes each edge's for infinite."""
    for name in ("abilene", "florentine", "karate"):
        graph = of_networkx(graph_of(name))
        bare = tried(lambda graph=graph: nx.gomory_hu_tree(graph))
        nx.set_edge_attributes(graph, 1, "capacity")
        theirs = nx.gomory_hu_tree(graph)
        ours = nx.Graph()
        rows = [line.split() for line in answer(program, ["cuttree"], name) if line.startswith("tree")]
        ours.add_weighted_edges_from((u, v, int(w)) for _, u, v, w in rows)
        pairs = [(u, v) for u in graph for v in graph if u < v]
        same = sum(least_on_way(ours, u, v) == least_on_way(theirs, u, v) for u, v in pairs)
        yield (f"cuttree on {name}: the same value for {same} of {len(pairs)} pairs; without capacities networkx answers "
               f"{bare}")


def least_on_way(tree, u, v):
    way = nx.shortest_path(tree, u, v)
    return min(tree[a][b]["weight"] for a, b in zip(way, way[1:]))


PARTS = {part.__name__: part for part in (augment, parallel, trees, forests, arborescences, orient, dijoin, cuttree)}


def main(words):
    if {"-h", "--help"} & {*words}:
        print(__doc__)
        return 0
    program = str(ROOT / "crates/connect/out/connect")
    if words[:1] == ["--program"] and len(words) > 1:
        program, words = words[1], words[2:]
    if not set(words) <= set(PARTS):
        print(__doc__, file=sys.stderr)
        return 2
    try:
        if nx is None:
            raise Failed("networkx isn't here: it is Debian's package python3-networkx")
        for part in words or PARTS:
            for row in PARTS[part](program):
                print(row)
    except Failed as why:
        print(why, file=sys.stderr)
        return 1
    return 0


if __name__ == "__main__":
    sys.exit(main(sys.argv[1:]))
