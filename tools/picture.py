#!/usr/bin/env python3
"""Draws a graph, and a certificate on it where one is given, by Graphviz.

usage: picture.py [-h] [-o FILE] [--places PLACES] GRAPH [ANSWER]

GRAPH is a graph text and ANSWER a certificate for it, or - for standard input. Without -o the picture is written as text in
Graphviz's language DOT to standard output. FILE ends in .svg, .png or .dot; for the first two the command neato of Graphviz
(the system's package graphviz) is asked. Where it isn't there, the DOT text is written to a file beside FILE that ends in
.dot, which is said on standard error. PLACES has a line NAME X Y for each node, which puts it there; lines that begin with #
are skipped.

Only a certificate that proves its answer is drawn: it is read as strictly as the program reads it, and judged by graphs.py.

Ends with 0 where the picture was made, 1 where a text was refused or a file couldn't be read or written, 2 for other words
than these, and 3 where Graphviz is missing.
"""

import math
import re
import shutil
import subprocess
import sys
from pathlib import Path

import graphs as plain
import strokes

ENDINGS = (".svg", ".png", ".dot")
COORDINATE = re.compile(r"-?[0-9]{1,6}(\.[0-9]{1,6})?\Z")
# Inches: a letter, a row of letters, and what is kept free between two nodes' boxes, without and with a label.
LETTER, ROW, GAP, WIDE_GAP = 0.095, 0.19, 0.32, 0.45


class Refused(Exception):
    """Why no picture is made, with the place."""


def bytes_of(path):
    try:
        data = sys.stdin.buffer.read() if path == "-" else Path(path).read_bytes()
    except OSError as why:
        raise Refused(f"{path}: {why.strerror}") from None
    if len(data) > plain.MOST_BYTES:
        raise Refused(f"{path}: large bytes")
    return data


def graph_of(path):
    try:
        return plain.read_graph_alone(bytes_of(path))
    except plain.Fault as fault:
        large = fault.why in ("nodes", "lines", "numbers", "costs")
        why = f"large {fault.why}, line {fault.line}" if large else f"graph {fault.line} {fault.why}"
        raise Refused(f"{path}: {why}") from None


def certificate_of(path, graph):
    """The command's words and the lines after it, of a certificate that proves its answer."""
    data = bytes_of(path)
    try:
        words, seen, lines, size = plain.read_certificate(graph, data)
    except plain.Bad as bad:
        raise Refused(f"{path}: rejected malformed {bad.line}") from None
    if size < len(data):
        raise Refused(f"{path}: rejected malformed {lines + 1}")
    why = plain.judge(graph, words, seen)
    if why:
        raise Refused(f"{path}: rejected {why}")
    return words, seen


def places_of(path, graph):
    """A pair of coordinates for each node."""
    try:
        rows = bytes_of(path).decode("ascii").split("\n")
    except UnicodeDecodeError:
        raise Refused(f"{path}: a byte that isn't ASCII") from None
    found = {}
    for number, row in enumerate(rows, 1):
        words = row.split()
        if not words or words[0].startswith("#"):
            continue
        if len(words) != 3 or not all(COORDINATE.match(word) for word in words[1:]):
            raise Refused(f"{path}: line {number} isn't NAME X Y")
        node = graph.number(words[0].encode())
        if node is None or node in found:
            raise Refused(f"{path}: line {number}: {words[0]} is " + ("no node" if node is None else "placed twice"))
        found[node] = float(words[1]), float(words[2])
    for node, name in enumerate(graph.names):
        if node not in found:
            raise Refused(f"{path}: no place for {name.decode()}")
    return [found[node] for node in range(len(graph.names))]


def spread(places, boxes, gap):
    """The places in inches, as close together as no two boxes come nearer than the gap."""
    scale = 0.0
    for j, (x, y) in enumerate(places):
        for i, (u, v) in enumerate(places[:j]):
            wide, high = ((boxes[i][at] + boxes[j][at]) / 2 + gap for at in (0, 1))
            if (x, y) == (u, v):
                raise Refused("two nodes have the same place")
            scale = max(scale, min(wide / abs(x - u) if x != u else math.inf, high / abs(y - v) if y != v else math.inf))
    return [(x * scale, y * scale) for x, y in places]


# ---- the text in DOT

def quoted(text):
    return '"' + str(text).replace('"', '\\"') + '"'


def attributes(said):
    return " [" + ", ".join(f"{key}={quoted(value)}" for key, value in said.items()) + "]" if said else ""


def on_white(said):
    """A line's attributes, with the line kept off its label."""
    if "label" not in said:
        return attributes(said)
    table = 'border="0" cellborder="0" cellspacing="3" cellpadding="0"'
    label = f'label=<<table {table}><tr><td bgcolor="white">{said["label"]}</td></tr></table>>'
    rest = attributes({key: value for key, value in said.items() if key != "label"})
    return rest[:-1] + f", {label}]" if rest else f" [{label}]"


def boxes_of(drawing):
    """About how wide and high each node's box becomes, in inches."""
    rows = [said["label"].split("\\n") for said in drawing.nodes]
    return [(max(map(len, row)) * LETTER + 0.12, len(row) * ROW + 0.06) for row in rows]


def placed(drawing, places):
    """For each node what fixes its place, or nothing."""
    if not places:
        return [{} for _ in drawing.nodes]
    gap = WIDE_GAP if drawing.labelled() else GAP
    return [{"pos": f"{x:.3f},{y:.3f}!"} for x, y in spread(places, boxes_of(drawing), gap)]


def dot_text(drawing, places=None):
    """The whole drawing; a cut tree is a second component, which neato lays out by itself and puts beside the graph."""
    kind, joint = ("digraph", "->") if drawing.graph.directed else ("graph", "--")
    names = [name.decode() for name in drawing.graph.names]
    besides = strokes.PACKED if drawing.tree else strokes.ROOMY if places or drawing.labelled() else {}
    looks = {**strokes.LOOKS, **besides, "label": "\\l".join(["", *drawing.caption, ""])}
    out = [f"{kind} {{", f"  graph{attributes(looks)};"]
    out += [f"  node{attributes(strokes.NODE)};", f"  edge{attributes(strokes.LINE)};"]
    for name, said, place in zip(names, drawing.nodes, placed(drawing, places)):
        out.append(f"  {quoted(name)}{attributes({**said, **place})};")
    # The last line lies on top of the others.
    lines = sorted(drawing.lines, key=lambda line: "penwidth" in line[2])
    out += [f"  {quoted(names[u])} {joint} {quoted(names[v])}{on_white(said)};" for u, v, said in lines]
    if drawing.tree:
        # No node of a graph has a name with this sign.
        twins = [quoted("tree/" + name) for name in names]
        out += [f"  {twin}{attributes({**said, **strokes.TWIN})};" for twin, said in zip(twins, drawing.nodes)]
        out += [f"  {twins[u]} -- {twins[v]}{attributes(said)};" for u, v, said in drawing.tree]
    return "\n".join([*out, "}"]) + "\n"


# ---- files

def as_rect(path):
    """A node's box as one element: Graphviz writes it as a curve of eight pieces."""
    said, curve = path.groups()
    numbers = [float(word) for word in re.findall(r"-?[0-9.]+", curve)]
    west, east, north, south = min(numbers[::2]), max(numbers[::2]), min(numbers[1::2]), max(numbers[1::2])
    return f'<rect {said} x="{west:g}" y="{north:g}" width="{east - west:.1f}" height="{south - north:.1f}" rx="6"/>'


def slim(svg):
    """An SVG at less than half its size: what texts share stands once, coordinates have one decimal, groups are gone."""
    head, graph, svg = re.sub(r"<!--.*?-->\n?", "", svg, flags=re.DOTALL).partition('<g id="graph0" class="graph"')
    svg = re.sub(r'<g id="(?:node|edge)\d+" class="\w+">\n<title>[^<]*</title>\n(.*?)</g>\n', r"\1", svg, flags=re.DOTALL)
    svg = re.sub(r"<title>[^<]*</title>\n", "", svg)
    svg = re.sub(r"(\d+\.\d)\d+", r"\1", svg).replace(".0,", ",").replace(".0 ", " ").replace('.0"', '"')
    svg = re.sub(r'<path (fill="(?!none)[^"]*"[^>]*?) d="([^"]*)"/>', as_rect, svg)
    svg = re.sub(r'points="(\S+) ([^"]*) \1"', r'points="\1 \2"', svg)
    for shared in ('text-anchor="middle"', 'font-family="Helvetica,sans-Serif"', 'font-size="11"', 'stroke="transparent"'):
        svg = svg.replace(f" {shared}", "")
    shared = 'text-anchor="middle" font-family="Helvetica,Arial,sans-serif" font-size="11"'
    # Graphviz's dashes and dots are hard to tell apart where a line is wide.
    svg = svg.replace('dasharray="5,2"', 'dasharray="7,5"')
    svg = svg.replace('dasharray="1,5"', 'dasharray="0.1,6" stroke-linecap="round"')
    return head + (f"<g {shared}" if graph else "") + svg


def drawn(neato, dot, path):
    """Asks Graphviz for the picture."""
    done = subprocess.run([neato, "-T" + path.suffix[1:]], input=dot.encode(), capture_output=True, timeout=300, check=False)
    if done.returncode or not done.stdout:
        raise Refused(f"neato: {done.stderr.decode(errors='replace').strip()}")
    return slim(done.stdout.decode()).encode() if path.suffix == ".svg" else done.stdout


def written(dot, file):
    """Writes the drawing to the file, or as text to standard output; the exit status."""
    if file is None:
        sys.stdout.write(dot)
        return 0
    path, neato = Path(file), shutil.which("neato")
    try:
        if path.suffix == ".dot":
            path.write_text(dot, encoding="ascii")
        elif neato:
            path.write_bytes(drawn(neato, dot, path))
        else:
            path.with_suffix(".dot").write_text(dot, encoding="ascii")
            print(f"Graphviz's neato isn't here: the DOT text is in {path.with_suffix('.dot')}", file=sys.stderr)
            return 3
    except OSError as why:
        raise Refused(f"{why.filename}: {why.strerror}") from None
    return 0


def options(words):
    """The words as texts and options, or None where they are others than these."""
    texts, said = [], {"-o": None, "--places": None}
    left = list(words)
    while left:
        word = left.pop(0)
        if word in said:
            if said[word] is not None or not left:
                return None
            said[word] = left.pop(0)
        elif word.startswith("-") and word != "-":
            return None
        else:
            texts.append(word)
    if len(texts) not in (1, 2) or [*texts, said["--places"]].count("-") > 1:
        return None
    if said["-o"] is not None and Path(said["-o"]).suffix not in ENDINGS:
        return None
    return texts, said["-o"], said["--places"]


def main(words):
    if {"-h", "--help"} & {*words}:
        print(__doc__)
        return 0
    asked = options(words)
    if asked is None:
        print(__doc__, file=sys.stderr)
        return 2
    texts, file, places = asked
    try:
        graph = graph_of(texts[0])
        drawing = strokes.Drawing(graph)
        if len(texts) == 2:
            strokes.draw(drawing, *certificate_of(texts[1], graph))
        return written(dot_text(drawing, places_of(places, graph) if places else None), file)
    except Refused as why:
        print(why, file=sys.stderr)
        return 1


if __name__ == "__main__":
    sys.exit(main(sys.argv[1:]))
