"""Random graphs of the forms at which one algorithm or another may fail: parallel lines, bridges, isolated nodes, thin cuts,
tight sets that cross, chains of closed sides, and costs that are equal, none or as large as may be."""

import random

import graphs as plain

# Few K lie in the middle: 33 is refused.
COUNTS = [1, 2, 3, 4, 5, 8, 31, 32, 33]


# ---- lines as pairs of node numbers, for two nodes or more; each goes up but where a form says otherwise

def pair(nodes):
    return tuple(sorted(random.sample(nodes, 2)))


def whole(nodes):
    """Each pair of the nodes once."""
    return [(u, v) for at, v in enumerate(nodes) for u in nodes[:at]]


def parallel(n):
    return [line for _ in range(random.randint(1, 3)) for line in [pair(range(n))] * random.randint(1, 9)]


def bridges(n):
    """Nodes, and whole graphs of two or three, in a row, with a line from each to the next."""
    lines, start = [], 0
    while start < n:
        block = range(start, min(n, start + random.randint(1, 3)))
        lines += random.choice([1, 2]) * whole(block)
        lines += [(start - 1, start)] if start else []
        start = block.stop
    return lines


def isolated(n):
    nodes = sorted(random.sample(range(n), max(2, n // 2)))
    return [pair(nodes) for _ in range(random.randint(0, 3 * n))]


def thin_cut(n):
    """Two halves, each of them whole, with few lines from one to the other."""
    half = n // 2
    return [*whole(range(half)), *whole(range(half, n)),
            *((random.randrange(half), random.randrange(half, n)) for _ in range(random.randint(0, 3)))]


def crossing(n):
    """A ring, each line as often: where two lines of each node are tight, so is each interval. Or one line less."""
    lines = random.randint(1, 4) * [(v, (v + 1) % n) for v in range(n)]
    return lines[random.randint(0, 1):]


def chain(n):
    """A path with parallel lines, beside which some go further: as arcs its closed sides are a chain, or nearly."""
    lines = [(v - 1, v) for v in range(1, n) for _ in range(random.randint(1, 3))]
    return lines + [pair(range(n)) for _ in range(random.randint(0, 2))]


def two_levels(n):
    """Lines from one half to the other: as arcs they have the most closed sides."""
    half = n // 2
    return [(random.randrange(half), random.randrange(half, n)) for _ in range(random.randint(n - 1, 3 * n))]


FORMS = [parallel, bridges, isolated, thin_cut, crossing, chain, two_levels]


# ---- their arcs and costs

def turned(lines):
    """The lines as arcs: some or all of them may be turned round, and all or most of them there the other way, too."""
    often = random.choice([0, 0, 0, 0.1, 0.5, 1])
    lines = [line[::-1] if random.random() < often else line for line in lines]
    back = random.choice([0, 0, 0, len(lines) * 3 // 4, len(lines)])
    return lines + [line[::-1] for line in random.sample(lines, back)]


def ends(count):
    """What stands behind so many arcs: nothing, equal costs, none and the most, small ones, or `fixed` here and there."""
    most = min(plain.MOST_COST, plain.MOST_COSTS // max(count, 1))
    style, cost, often = random.randrange(5), random.choice([0, 1, 2, 3, most]), random.choice([0.1, 0.5, 0.9])
    if style == 0:
        return [b""] * count
    if style == 1:
        return [b" cost %d" % cost] * count
    if style == 2:
        return [b" cost %d" % random.choice([0, most]) for _ in range(count)]
    if style == 3:
        return [b" cost %d" % random.randint(0, min(3, most)) for _ in range(count)]
    return [b" fixed" if random.random() < often else b" cost %d" % random.randint(0, min(2, most)) for _ in range(count)]


def formed(directed, n):
    """The names and the lines of the text of a graph with so many nodes, of one of the forms."""
    names = [f"v{j}" for j in random.sample(range(n), n)]
    lines = random.choice(FORMS)(n) if n > 1 else []
    lines = turned(lines) if directed else lines
    random.shuffle(lines)
    word, after = (b"arc", ends(len(lines))) if directed else (b"edge", [b""] * len(lines))
    items = [b"%s %s %s" % (word, names[u].encode(), names[v].encode()) + end for (u, v), end in zip(lines, after)]
    head = b"graph directed" if directed else b"graph undirected"
    return names, [head, *(b"node " + name.encode() for name in names), *items, b"end"]
