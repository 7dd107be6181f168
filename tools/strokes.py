"""How an answer looks: which colour, line and shade picture.py gives to each node and line of a graph.

Whatever a colour tells is told by a kind of line, a width or a word, too, so that a picture can be read in grey.
"""

from collections import Counter

import graphs as plain

# Of the whole picture, and of a node and a line about which nothing is said.
LOOKS = {"overlap": "false", "splines": "true", "sep": "+14", "esep": "+5", "outputorder": "edgesfirst", "pad": "0.15",
         "fontname": "Helvetica", "fontsize": "11", "labelloc": "b", "labeljust": "l", "bgcolor": "white"}
# Of a picture with a tree beside the graph, and of the tree's nodes: the graph has the first place.
PACKED, TWIN = {"pack": "24", "packmode": "array_u2"}, {"sortv": "2"}
# Graphviz moves nodes closer together, even from fixed places, unless it is told not to; but lines' labels want room.
ROOMY = {"overlap_shrink": "false"}
NODE = {"shape": "box", "style": "rounded,filled", "fillcolor": "white", "color": "#666666", "fontname": "Helvetica",
        "fontsize": "11", "margin": "0.06,0.03", "width": "0.25", "height": "0.22", "sortv": "1"}
LINE = {"color": "#999999", "penwidth": "1", "arrowsize": "0.7", "fontname": "Helvetica", "fontsize": "11", "len": "1.3"}
# Colours that are told apart by the colour-blind, too (Okabe and Ito), and kinds of line; five by four make twenty pairs.
COLOURS = [("blue", "#0072B2"), ("orange", "#D55E00"), ("green", "#009E73"), ("pink", "#CC79A7"), ("black", "#000000")]
KINDS = ["solid", "dashed", "dotted", "double"]
SHADES = ["#CFE3F5", "#FFDDB0", "#C8EBC4", "#F6CDE0", "#E4E49C", "#D8CCF2", "#CCCCCC", "#B4E3E3"]
# From one set to the most sets that a node is in.
DEPTHS = ["#EAF2FA", "#CFE3F5", "#AECFEC", "#8CB9E0", "#6BA3D2"]
SHADE, NEW, STRONG = SHADES[0], "#009E73", "#D55E00"
# More parts than these aren't named one by one below the picture.
MOST_NAMED, WIDE = 8, 105


class Drawing:
    """A graph with what is said of its nodes and of its lines, further lines, a tree and rows below the picture."""

    def __init__(self, graph):
        self.graph = graph
        self.nodes = [{"label": name.decode()} for name in graph.names]
        self.lines = [(t, h, self.plain_line(fixed, cost)) for t, h, fixed, cost in graph.lines]
        self.tree, self.caption = [], []

    @staticmethod
    def plain_line(fixed, cost):
        label = "fixed" if fixed else str(cost) if cost != 1 else ""
        return {**({"label": label} if label else {}), **({"style": "dotted"} if fixed else {})}

    def say(self, text):
        """Adds a row below the picture, broken where it is long."""
        row = ""
        for word in text.split(" "):
            if row and len(row) + len(word) >= WIDE:
                self.caption.append(row)
                row = "   "
            row += (" " if row.strip() else "") + word
        self.caption.append(row)

    def shade(self, nodes, colour=SHADE, note=""):
        for v in nodes:
            self.nodes[v].update(fillcolor=colour, penwidth="2", color="#000000")
            if note:
                self.nodes[v]["label"] += "\\n" + note

    def ring(self, *nodes):
        for v in nodes:
            self.nodes[v]["peripheries"] = "2"

    def uncosted(self):
        """Takes costs away, at which only dijoins look."""
        for *_, said in self.lines:
            for key in ("label", "style"):
                said.pop(key, None)

    def labelled(self):
        return any("label" in said for *_, said in self.lines)

    def strengthen(self, numbers):
        for j in numbers:
            self.lines[j][2].update(color=STRONG, penwidth="3.5", style="dashed")

    def crossing(self, side):
        """The numbers of the lines that a side's cut is made of: those that leave it, or of a digraph that enter it."""
        directed = self.graph.directed
        return [j for j, line in enumerate(self.graph.lines)
                if (plain.enters(line, side) if directed else (line[0] in side) != (line[1] in side))]


def amount(number, word):
    return f"{number} {word}{'' if number == 1 else 's'}"


def look(number):
    """The words for a part's colour and kind of line, and what they are in DOT; parts count from 0, the fifth is wide."""
    (word, colour), kind = COLOURS[number % len(COLOURS)], KINDS[number % len(KINDS)]
    wide = number // len(KINDS) % 2
    width = {"dotted": 3, "double": 1.4}.get(kind, 2) + 1.6 * wide
    double = kind == "double"
    style, colour = ("solid", f"{colour}:{colour}") if double else (kind, colour)
    return f"{word} {'wide ' if wide else ''}{kind}", {"color": colour, "penwidth": f"{width:g}", "style": style}


def parts(drawing, kind, lists):
    """Lines by the part that they are in."""
    for number, lines in enumerate(lists):
        for j in lines:
            drawing.lines[j][2].update(look(number)[1])
    if 0 < len(lists) <= MOST_NAMED:
        drawing.say(", ".join(f"{kind} {number + 1}: {look(number)[0]}" for number in range(len(lists))) + ".")
    unused = len(drawing.lines) - sum(map(len, lists))
    if unused and lists:
        drawing.say(f"Thin and grey: {amount(unused, 'line')} in no {kind}.")


def family(drawing, sets, word, note=lambda _: ""):
    """Disjoint sets in shades, each with its number where it has more than one node."""
    for number, side in enumerate(sets):
        name = f"{word} {number + 1}" if len(side) > 1 else ""
        drawing.shade(side, SHADES[number % len(SHADES)], ": ".join(filter(None, [name, note(side)])))


# ---- one function a command; words are the command's, held what stands in the certificate

def flow(drawing, words, held):
    drawing.ring(*(drawing.graph.number(word.encode()) for word in words[1:]))
    parts(drawing, "walk", held["path"])
    drawing.shade(held["set"][0])
    drawing.say(f"Shaded: a set that is left by {amount(held['value'][0], 'line')}.")


def cuttree(drawing, _, held):
    """The graph and the tree side by side; the weakest pair's cut is marked in both."""
    pairs = held["tree"]
    often = Counter(v for pair in pairs for v in pair[:2])
    for u, v, w in pairs:
        # The number stands at the end with fewer pairs, since many may meet at the other.
        end = "taillabel" if often[u] < often[v] else "headlabel"
        said = {end: str(w), "labeldistance": "1.8", "labelangle": "20", "penwidth": "1.6", "color": "#000000"}
        drawing.tree.append((u, v, said))
    if not pairs:
        return
    weakest = min(range(len(pairs)), key=lambda j: pairs[j][2])
    u, _, least = pairs[weakest]
    side = plain.reached(u, pairs[:weakest] + pairs[weakest + 1:])
    small = side if 2 * len(side) <= len(drawing.nodes) else {*range(len(drawing.nodes))} - side
    drawing.shade(small)
    drawing.strengthen(drawing.crossing(small))
    drawing.tree[weakest][2].update(color=STRONG, penwidth="3.5", style="dashed")
    drawing.say("Grey: the graph. Black, with numbers: its cut tree. The least number on the way between two nodes of the "
                "tree is how many lines have to fail to part them.")
    drawing.say(f"Orange dashed: a weakest pair of the tree, and its cut of {amount(least, 'line')}; shaded: the cut's "
                "smaller side.")


def augment(drawing, words, held):
    k, graph = int(words[1]), drawing.graph
    for u, v in held["arc" if graph.directed else "edge"]:
        drawing.lines.append((u, v, {"color": NEW, "penwidth": "3", "style": "dashed"}))
    drawing.say("Green dashed: new lines.")
    if "dual components" in held:
        family(drawing, held["set"], "class")
        drawing.say("Shaded: the classes, between which no line leads.")
        return
    way, count = next((w, c) for w, c in (("in", plain.entering), ("out", plain.leaving), ("subpartition", plain.degree))
                      if f"dual {w}" in held)
    after = "" if way == "subpartition" else f" {way}"
    family(drawing, held["set"], "set", lambda side: f"lacks {k - count(graph.lines, set(side))}{after}")
    drawing.say(f"Shaded: disjoint sets, and how many lines each lacks that {'leave' if way != 'in' else 'enter'} it.")


def arborescences(drawing, words, held):
    drawing.ring(drawing.graph.number(words[1].encode()))
    parts(drawing, "arborescence", held["part"])
    drawing.shade(held["set"][0])
    drawing.say(f"Shaded: a set that is entered by {amount(held['value'][0], 'arc')}.")


def trees(drawing, _, held):
    parts(drawing, "tree", held["part"])
    if all(len(side) == 1 for side in held["set"]):
        drawing.say("In the partition each node is a class of its own.")
        return
    family(drawing, held["set"], "class")
    drawing.say("Shaded: the partition's classes.")


def forests(drawing, _, held):
    parts(drawing, "forest", held["part"])
    for side in held["set"]:
        inside, every = plain.induced(drawing.graph.lines, set(side)), len(side) == len(drawing.nodes)
        if not every:
            drawing.shade(side)
        which = f"{'All' if every else 'Shaded:'} {len(side)} nodes"
        drawing.say(f"{which} have {inside} lines inside, of which a forest has at most {len(side) - 1}.")


def orient(drawing, words, held):
    if "impossible" in held:
        never(drawing, held["set"][0], f"fewer than {2 * int(words[1])} edges leave")
        return
    drawing.say(f"Each edge as an arc: {words[1]} or more enter each set of nodes that is neither empty nor all.")
    for j, (tail, head) in enumerate(held["arc"]):
        drawing.lines[j] = (tail, head, {"dir": "forward", "color": "#0072B2", "penwidth": "1.6"})


def never(drawing, side, why):
    """A set that forbids every object."""
    drawing.shade(side)
    drawing.strengthen(drawing.crossing(set(side)))
    drawing.say(f"No answer exists: shaded is a set that {why}.")


def dijoin(drawing, _, held):
    if "impossible" in held:
        never(drawing, held["set"][0], "no arc leaves and only fixed arcs enter")
        return
    for j in held["join"][0]:
        drawing.lines[j][2].update(color=STRONG, penwidth="4")
    drawing.say("Orange and wide: the dijoin. A number at an arc is its cost, where it isn't 1.")
    different = list(dict.fromkeys(tuple(side) for side in held["set"]))
    if not different:
        return
    deepest = max(2, max(sum(v in side for side in different) for v in range(len(drawing.nodes))))
    for v in range(len(drawing.nodes)):
        of = [number for number, side in enumerate(different, 1) if v in side]
        if of:
            drawing.shade([v], DEPTHS[(len(of) - 1) * (len(DEPTHS) - 1) // (deepest - 1)], runs(of))
    often = [(number, held["set"].count(list(side))) for number, side in enumerate(different, 1)]
    several = ", ".join(f"{number}: {times}" for number, times in often if times > 1)
    told = f"How often a set is in the dual, where not once: {several}." if several else "Each is in the dual once."
    drawing.say("Below a name: the closed sets that hold the node, darker in more of them. " + told)


def runs(numbers):
    """Rising numbers, such as 1-3 5."""
    out, first = [], None
    for at, number in enumerate(numbers):
        first = number if first is None else first
        if numbers[at + 1:at + 2] != [number + 1]:
            out.append(str(number) if first == number else f"{first}-{number}")
            first = None
    return " ".join(out)


COMMANDS = {"flow": flow, "cuttree": cuttree, "augment": augment, "augment-arcs": augment, "arborescences": arborescences,
            "trees": trees, "forests": forests, "orient": orient, "dijoin": dijoin}


def draw(drawing, words, seen):
    """Puts a certificate on the drawing of its graph."""
    held = {form: [] for form in ("path", "edge", "arc", "part", "set", "tree")}
    for form, content in seen:
        held.setdefault(form, []).append(content)
    if words[0] != "dijoin":
        drawing.uncosted()
    value = f": value {held['value'][0]}" if "value" in held else ""
    drawing.say(" ".join(words) + value)
    COMMANDS[words[0]](drawing, words, held)
