#!/usr/bin/env python3
"""Writes those graph texts of this folder that are too long to be written by hand, and the places of the town's crossings.

usage: make.py [-h] [FOLDER]

FOLDER is the one that this script stands in, where it is left out. karate, florentine and les-miserables are copied out of
networkx, and curl out of the list of Debian's installed packages; where one of the two is missing, it says so, leaves that
text as it is, and ends with 1. What curl depends on is told by the system that the script runs on, so that it can differ.
"""

import re
import subprocess
import sys
import textwrap
from pathlib import Path

ROWS, COLUMNS = "abcdef", range(1, 8)
# The river runs between columns 4 and 5, and these rows have a bridge; the park leaves these streets out.
BRIDGES = {"a", "c", "f"}
PARK = {("b2", "b3"), ("d6", "e6"), ("d3", "d4")}
# Which way the streets of a row and of a column lead, and those that lead both ways.
EAST, SOUTH = {"a", "c", "d", "f"}, {1, 3, 5, 7}
BOTH_WAYS = {"b", 4}


def text_of(note, kind, nodes, lines):
    word = "arc" if kind == "directed" else "edge"
    out = [f"# {row}" for row in textwrap.wrap(note, 110)] + [f"graph {kind}"]
    out += [f"node {node}" for node in nodes] + [" ".join([word, *map(str, line)]) for line in lines]
    return "\n".join([*out, "end"]) + "\n"


def streets():
    """The streets between two neighbouring crossings, each with the row or column that it is of, to the east or south."""
    for row in ROWS:
        for column in COLUMNS:
            here, east, south = f"{row}{column}", f"{row}{column + 1}", f"{chr(ord(row) + 1)}{column}"
            if column < COLUMNS[-1] and (column != 4 or row in BRIDGES) and (here, east) not in PARK:
                yield row, here, east
            if row != ROWS[-1] and (here, south) not in PARK:
                yield column, here, south


def town():
    crossings = [f"{row}{column}" for row in ROWS for column in COLUMNS]
    note = ("A made-up town: six rows and seven columns of streets, a park, a river with three bridges (in the rows a, c "
            "and f between the columns 4 and 5). Made by make.py.")
    yield "town.graph", text_of(note, "undirected", crossings, [(a, b) for _, a, b in streets()])
    arcs = []
    for way, a, b in streets():
        bridge = way in BRIDGES and a[1] == "4"
        cost = 9 if bridge else 4 if way in BOTH_WAYS else 2 + (ord(a[0]) + int(a[1]) + 1) % 3
        last = ["fixed"] if bridge and way == "c" else ["cost", cost]
        if way in BOTH_WAYS:
            arcs += [(a, b, *last), (b, a, *last)]
        else:
            arcs.append((a, b, *last) if way in EAST or way in SOUTH else (b, a, *last))
    note = ("The streets of town.graph, most of them one-way; row b and column 4 lead both ways. A cost is what it takes to "
            "open the street the other way too; the bridge of row c is too narrow for that. Made by make.py.")
    yield "one-way.graph", text_of(note, "directed", crossings, arcs)
    yield "town.places", "".join(f"{c} {int(c[1]) + (0.6 if c[1] > '4' else 0):g} {-ROWS.index(c[0])}\n" for c in crossings)


def fabric():
    spines, leaves = [f"spine{j}" for j in range(1, 5)], [f"leaf{j}" for j in range(1, 9)]
    note = "The network inside a data centre: each of eight leaves has a cable to each of four spines. Made by make.py."
    yield "fabric.graph", text_of(note, "undirected", spines + leaves, [(s, l) for s in spines for l in leaves])
    rows = [f"{name} {2 * j + 1} 3" for j, name in enumerate(spines)] + [f"{name} {j} 0" for j, name in enumerate(leaves)]
    yield "fabric.places", "".join(row + "\n" for row in rows)


def both_ways(folder):
    text = (folder / "nsfnet.graph").read_text(encoding="ascii")
    nodes = re.findall(r"^node (\S+)", text, re.M)
    links = re.findall(r"^edge (\S+) (\S+)", text, re.M)
    arcs = [arc for a, b in links for arc in ((a, b), (b, a))]
    note = "nsfnet.graph with each link as two arcs, one for each way. Made by make.py."
    yield "nsfnet-arcs.graph", text_of(note, "directed", nodes, arcs)


def social():
    import networkx as nx
    copied = " Copied by make.py from networkx."
    note = "Who met whom outside a karate club (Zachary, 1977), with Zachary's numbers." + copied
    club = nx.karate_club_graph()
    yield "karate.graph", text_of(note, "undirected", [v + 1 for v in club], [(u + 1, v + 1) for u, v in club.edges])
    note = "Marriages between families of Florence in the 15th century (Breiger and Pattison, 1986, after Padgett)." + copied
    families = nx.florentine_families_graph()
    yield "florentine.graph", text_of(note, "undirected", families.nodes, families.edges)
    note = "Who appears with whom in a chapter of Hugo's Les Miserables (Knuth, The Stanford GraphBase, 1993)." + copied
    novel = nx.les_miserables_graph()
    yield "les-miserables.graph", text_of(note, "undirected", novel.nodes, novel.edges)


def packages(root="curl"):
    """The packages that one package depends on, and theirs: of each choice the first."""
    fields = "${Package}\t${Version}\t${Provides}\t${Pre-Depends}, ${Depends}\n"
    listed = subprocess.run(["dpkg-query", "-W", "-f", fields], capture_output=True, text=True, check=True).stdout
    needs, gives, versions = {}, {}, {}
    for name, version, provides, depends in (row.split("\t") for row in listed.splitlines()):
        versions[name] = version
        gives.update({word.split()[0]: name for word in provides.split(",") if word.strip()})
        needs[name] = [re.split(r"[ :(|]", word.strip())[0] for word in depends.split(",") if word.strip()]
    found, arcs = [root], []
    for name in found:
        for need in dict.fromkeys(gives.get(word, word) if word not in needs else word for word in needs[name]):
            if need in needs and need != name:
                arcs.append((name, need))
                found += [] if need in found else [need]
    note = (f"What Debian's package {root} {versions[root]} depends on, and what that depends on: an arc from each package "
            "to one that it needs, of each choice the first. Made by make.py from the list of installed packages.")
    yield f"{root}.graph", text_of(note, "directed", found, arcs)


def main(words):
    if {"-h", "--help"} & {*words}:
        print(__doc__)
        return 0
    if len(words) > 1:
        print(__doc__, file=sys.stderr)
        return 2
    folder = Path(words[0] if words else Path(__file__).resolve().parent)
    missing = 0
    for make in (town, fabric, lambda: both_ways(folder), social, packages):
        try:
            for name, text in make():
                (folder / name).write_text(text, encoding="ascii")
        except (ImportError, OSError, subprocess.CalledProcessError, KeyError) as why:
            print(f"left as it is: {why}", file=sys.stderr)
            missing = 1
    return missing


if __name__ == "__main__":
    sys.exit(main(sys.argv[1:]))
