"""A plain reader of graph texts and of certificates, and plain answers by the definitions: what the program is compared with."""

import re

NAME = re.compile(rb"[A-Za-z0-9_.\-]{1,32}\Z")
DECIMAL = re.compile(rb"(0|[1-9][0-9]*)\Z")
MOST_BYTES, MOST_NODES, MOST_LINES = 33_554_432, 128, 2_048
# Of one node and of all, and of one arc and of all.
MOST_NUMBER, MOST_NUMBERS, MOST_COST, MOST_COSTS = 8_192, 65_536, 100, 4_000
COMMANDS = {"flow": 2, "cuttree": 0, "augment": 1, "augment-arcs": 1, "arborescences": 1,
            "trees": 0, "forests": 0, "orient": 1, "dijoin": 0, "check": 0, "trial": 3}
KINDS = ["flow", "augment", "augment-arcs", "arborescences", "trees", "forests", "orient", "dijoin"]


class Fault(Exception):
    """A graph text's first fault: its line, counted from 1, and the word of its cause."""

    def __init__(self, line, why):
        super().__init__(line, why)
        self.line, self.why = line, why


class Graph:
    """A line is its tail, its head, whether it is fixed, and its cost."""

    def __init__(self, directed):
        self.directed, self.names, self.numbers, self.lines = directed, [], [], []

    def number(self, name):
        return self.names.index(name) if name in self.names else None


def lines_of(data):
    """The lines of a text, each with its line feed."""
    return re.findall(rb"[^\n]*\n|[^\n]+\Z", data)


def words_of(line):
    line = line[:-1] if line.endswith(b"\n") else line
    line = line[:-1] if line.endswith(b"\r") else line
    return [w for w in re.split(rb"[ \t]+", line) if w]


def fits(words):
    """Whether the words fit a row of the table of items."""
    first, count = words[0], len(words)
    return (first == b"node" and count in (2, 3) or first == b"edge" and count == 3
            or first == b"arc" and (count == 3 or count == 4 and words[3] == b"fixed" or count == 5 and words[3] == b"cost")
            or first == b"end" and count == 1)


def worth(words):
    """The word for a node's number or a line's cost, and the most that it may be."""
    if words[0] == b"node":
        return words[2] if len(words) == 3 else b"0", MOST_NUMBER
    return words[4] if len(words) == 5 else b"1", MOST_COST


def cause(graph, words):
    if graph is None:
        return None if words in ([b"graph", b"undirected"], [b"graph", b"directed"]) else "header"
    if not fits(words):
        return "line"
    item = words[0]
    if item == b"edge" and graph.directed or item == b"arc" and not graph.directed:
        return "kind"
    if item == b"end":
        return None if graph.names else "nonode"
    names = words[1:2] if item == b"node" else words[1:3]
    if not all(NAME.match(name) for name in names):
        return "name"
    word, most = worth(words)
    if not DECIMAL.match(word) or len(word) > 4 or int(word) > most:
        return "number"
    if item == b"node":
        if names[0] in graph.names:
            return "twice"
        return "nodes" if len(graph.names) >= MOST_NODES else "numbers" if sum(graph.numbers) + int(word) > MOST_NUMBERS else None
    if not all(name in graph.names for name in names):
        return "unknown"
    if names[0] == names[1]:
        return "loop"
    if len(graph.lines) >= MOST_LINES:
        return "lines"
    return "costs" if graph.directed and sum(cost for *_, cost in graph.lines) + int(word) > MOST_COSTS else None


def read_graph(data):
    """The graph at the front of the bytes and how many bytes it takes, or Fault."""
    graph, taken, lines = None, 0, lines_of(data)
    for number, line in enumerate(lines, 1):
        taken += len(line)
        words = words_of(line)
        if not words or words[0].startswith(b"#"):
            continue
        why = cause(graph, words)
        if why:
            raise Fault(number, why)
        if graph is None:
            graph = Graph(words[1] == b"directed")
        elif words[0] == b"node":
            graph.names.append(words[1])
            graph.numbers.append(int(worth(words)[0]))
        elif words[0] == b"end":
            return graph, taken, number
        else:
            graph.lines.append((graph.number(words[1]), graph.number(words[2]), len(words) == 4, int(worth(words)[0])))
    raise Fault(len(lines) + 1, "header" if graph is None else "noend")


def read_graph_alone(data):
    graph, taken, number = read_graph(data)
    for later, line in enumerate(lines_of(data[taken:]), number + 1):
        words = words_of(line)
        if words and not words[0].startswith(b"#"):
            raise Fault(later, "line")
    return graph


def bad_word(words):
    """The place, from 1, of the first word at which no command continues, or None."""
    if not words:
        return 1
    if words[0] not in COMMANDS:
        return 1
    ranges = {"augment": [(1, 32)], "augment-arcs": [(1, 32)], "orient": [(1, 32)],
              "trial": [None, (2, 128), (0, 4294967295)]}.get(words[0])
    for place in range(COMMANDS[words[0]]):
        if len(words) <= place + 1:
            return len(words) + 1
        word = words[place + 1]
        if words[0] == "trial" and place == 0:
            if word not in KINDS:
                return 2
        elif ranges:
            low, high = ranges[place]
            if not DECIMAL.match(word.encode()) or not low <= int(word) <= high:
                return place + 2
    return COMMANDS[words[0]] + 2 if len(words) > COMMANDS[words[0]] + 1 else None


def unfit(graph, words):
    """The first reason for which the command's ask doesn't suit the graph, or None."""
    wants = {"flow": None, "augment-arcs": True, "arborescences": True, "dijoin": True}.get(words[0], False)
    if wants is not None and wants != graph.directed:
        return "kind"
    named = words[1:] if words[0] in ("flow", "arborescences") else []
    nodes = [graph.number(word.encode("utf-8", "surrogateescape")) for word in named]
    if None in nodes:
        return "node"
    if words[0] == "flow" and nodes[0] == nodes[1]:
        return "same"
    return "small" if words[0] in ("arborescences", "trees") and len(graph.names) == 1 else None


# ---- generated graphs

def draws(state):
    """A function that draws below a bound, from a number on."""
    def draw(bound):
        nonlocal state
        state = (state * 6364136223846793005 + 1442695040888963407) % 2 ** 64
        return (state >> 33) % bound
    return draw


def generated(directed, nodes, number):
    """The graph that `trial` makes: a tree, and three further lines a node."""
    graph, draw = Graph(directed), draws(number)
    graph.names = [b"n%d" % (v + 1) for v in range(nodes)]
    graph.numbers = [0 for _ in graph.names]
    graph.lines = [(draw(i), i, False, 1) for i in range(1, nodes)]
    for _ in range(3 * nodes):
        a, b = draw(nodes), draw(nodes - 1)
        b += b >= a
        graph.lines.append((min(a, b), max(a, b), False, 1))
    return graph


def trial(kind, nodes, number):
    """The graph of a trial, and the command's words that it solves there."""
    after = {"flow": ["n1", f"n{nodes}"], "augment": ["8"], "augment-arcs": ["4"], "arborescences": ["n1"], "orient": ["1"]}
    directed = kind in ("augment-arcs", "arborescences", "dijoin")
    return generated(directed, nodes, number), [kind, *after.get(kind, [])]


def plain_text(graph):
    """The text of a graph without the numbers of its nodes."""
    word = b"arc" if graph.directed else b"edge"
    lines = [b"graph directed" if graph.directed else b"graph undirected", *(b"node " + name for name in graph.names)]
    for tail, head, fixed, cost in graph.lines:
        more = b" fixed" if fixed else b" cost %d" % cost if cost != 1 else b""
        lines.append(b"%s %s %s%s" % (word, graph.names[tail], graph.names[head], more))
    return b"".join(line + b"\n" for line in [*lines, b"end"])


# ---- counts, over sides as sets of node numbers

def degree(lines, side):
    return sum((t in side) != (h in side) for t, h, *_ in lines)


def leaving(lines, side):
    return sum(t in side and h not in side for t, h, *_ in lines)


def entering(lines, side):
    return sum(h in side and t not in side for t, h, *_ in lines)


def induced(lines, side):
    return sum(t in side and h in side for t, h, *_ in lines)


def out_of(graph, side):
    return leaving(graph.lines, side) if graph.directed else degree(graph.lines, side)


def most_walks(n, lines, directed, s, t):
    """How many disjoint walks lead from s to t, by one search for each."""
    room = {}
    for u, v, *_ in lines:
        room.setdefault(u, {}).setdefault(v, 0)
        room.setdefault(v, {}).setdefault(u, 0)
        room[u][v] += 1
        room[v][u] += 0 if directed else 1
    found = 0
    while True:
        came, queue = {s: None}, [s]
        for u in queue:
            for v, free in room.get(u, {}).items():
                if free and v not in came:
                    came[v] = u
                    queue.append(v)
            if t in came:
                break
        if t not in came:
            return found
        v = t
        while came[v] is not None:
            u = came[v]
            room[u][v] -= 1
            room[v][u] += 1
            v = u
        found += 1


def connectivity(n, lines, directed):
    """The greatest k for which the graph is k-edge-connected or k-arc-connected; None where it has one node."""
    ways = [(0, t) for t in range(1, n)] + ([(t, 0) for t in range(1, n)] if directed else [])
    return min((most_walks(n, lines, directed, s, t) for s, t in ways), default=None)


def is_connected(n, lines, directed, k):
    return n == 1 or connectivity(n, lines, directed) >= k


def is_walk(graph, s, t, numbers):
    """Whether the lines with these numbers, from 0, are a walk from s to t."""
    at = s
    for j in numbers:
        tail, head, *_ = graph.lines[j]
        if tail == at:
            at = head
        elif head == at and not graph.directed:
            at = tail
        else:
            return False
    return bool(numbers) and at == t


def is_forest(n, pairs):
    parent = list(range(n))

    def root(v):
        while parent[v] != v:
            parent[v] = parent[parent[v]]
            v = parent[v]
        return v

    for u, v in pairs:
        u, v = root(u), root(v)
        if u == v:
            return False
        parent[u] = v
    return True


def is_arborescence(n, arcs, root):
    """Whether the arcs are a spanning arborescence of the root: each other node is one's head, and is reached."""
    heads = sorted(h for _, h, *_ in arcs)
    if heads != [v for v in range(n) if v != root]:
        return False
    came = {h: t for t, h, *_ in arcs}
    for v in range(n):
        steps = 0
        while v != root and steps < n:
            v, steps = came[v], steps + 1
        if v != root:
            return False
    return True


def sides(nodes):
    """Each nonempty set of the nodes."""
    for chosen in range(1, 2 ** len(nodes)):
        yield {v for place, v in enumerate(nodes) if chosen >> place & 1}


def partitions(nodes):
    """Each partition of the nodes, as a list of sets."""
    if not nodes:
        yield []
        return
    for rest in partitions(nodes[1:]):
        yield [{nodes[0]}, *rest]
        for place, part in enumerate(rest):
            yield [*rest[:place], {nodes[0], *part}, *rest[place + 1:]]


def between(lines, classes):
    """How many lines have their ends in two classes."""
    return len(lines) - sum(induced(lines, c) for c in classes)


def most_arborescences(n, lines, root):
    return min(entering(lines, X) for X in sides([v for v in range(n) if v != root]))


def most_trees(n, lines):
    return min(between(lines, P) // (len(P) - 1) for P in partitions(list(range(n))) if len(P) > 1)


def fewest_forests(n, lines):
    return max((-(-induced(lines, X) // (len(X) - 1)) for X in sides(list(range(n))) if len(X) > 1), default=0)


def are_disjoint(n, sets):
    """Whether each set is proper, and no node is in two."""
    return all(0 < len(s) < n for s in sets) and len(set().union(*sets)) == sum(map(len, sets))


def is_partition(n, sets):
    return all(sets) and sorted(v for s in sets for v in s) == list(range(n))


def disjoint_families(n):
    """Each list of disjoint proper sides: a partition of the nodes and one more, without the class of that one."""
    for classes in partitions(list(range(n + 1))):
        family = [c for c in classes if n not in c]
        if are_disjoint(n, family):
            yield family


def lacking(lines, k, sets, count):
    """How many lines the sets lack in all, where each wants k; count is degree, entering or leaving."""
    return max(0, sum(k - count(lines, s) for s in sets))


def least_edges(n, lines, k):
    """The fewest edges that make an undirected graph k-edge-connected."""
    if k == 1:
        return next(len(p) for p in sorted(partitions(list(range(n))), key=len, reverse=True) if between(lines, p) == 0) - 1
    return max((lacking(lines, k, family, degree) + 1) // 2 for family in disjoint_families(n))


def least_arcs(n, lines, k):
    """The fewest arcs that make a digraph k-arc-connected."""
    return max(lacking(lines, k, family, count) for family in disjoint_families(n) for count in (entering, leaving))


def has_orientation(n, lines, k):
    """Whether some orientation is k-arc-connected: each proper side has 2k edges."""
    return all(degree(lines, side) >= 2 * k for side in sides(list(range(n))) if len(side) < n)


def closed_sides(n, lines):
    """Each proper side that no arc leaves."""
    return [side for side in sides(list(range(n))) if len(side) < n and leaving(lines, side) == 0]


def enters(line, side):
    return line[1] in side and line[0] not in side


def least_dijoin(n, lines):
    """The least cost of arcs that aren't fixed, one of which enters each closed side; None where there are none."""
    wanted = [[(lines[j][3], j) for j in range(len(lines)) if not lines[j][2] and enters(lines[j], side)] for side in closed_sides(n, lines)]
    wanted.sort(key=len)
    best = None

    def search(taken, cost, at):
        nonlocal best
        if best is not None and cost >= best:
            return
        while at < len(wanted) and any(j in taken for _, j in wanted[at]):
            at += 1
        if at == len(wanted):
            best = cost
            return
        for price, j in wanted[at]:
            search(taken | {j}, cost + price, at + 1)

    search(frozenset(), 0, 0)
    return best


def has_dijoin(n, lines):
    """Whether arcs that aren't fixed enter each closed side: with all of them turned round beside the others, all is reached."""
    return is_connected(n, [*lines, *((h, t) for t, h, fixed, _ in lines if not fixed)], True, 1)


# ---- certificates

class Bad(Exception):
    def __init__(self, line):
        super().__init__(line)
        self.line = line


def rows(words, m):
    """The pieces of each row of the table for the command: (form, least, most)."""
    many, end = 10 ** 9, ("end", 1, 1)

    def valued(form, dual, least=0, most=many, sets=(0, many)):
        return [("value", 1, 1), (form, least, most), ("dual " + dual, 1, 1), ("set", *sets), end]

    never = [("impossible", 1, 1), None, ("set", 1, 1), end]
    command = words[0]
    if command == "flow":
        return [valued("path", "cut", sets=(1, 1))]
    if command == "cuttree":
        return [[("tree", 0, many), end]]
    if command == "augment":
        return [valued("edge", "components" if words[1] == "1" else "subpartition")]
    if command == "augment-arcs":
        return [valued("arc", "in"), valued("arc", "out")]
    if command == "arborescences":
        return [valued("part", "cut", sets=(1, 1))]
    if command == "trees":
        return [valued("part", "partition")]
    if command == "forests":
        return [valued("part", "set", sets=(1, 1)), valued("part", "none", sets=(0, 0))]
    if command == "orient":
        return [[("turned", m, m), end], [never[0], ("dual cut", 1, 1), *never[2:]]]
    return [valued("join", "dicuts", 1, 1), [never[0], ("dual dicut", 1, 1), *never[2:]]]


def says(graph, line):
    """The form of a line and what it holds, or None; the line has no line feed."""
    if not line or line.startswith(b" ") or line.endswith(b" ") or b"  " in line:
        return None
    words = line.split(b" ")
    word, rest = words[0].decode("latin-1"), words[1:]
    number = [int(w) for w in rest if DECIMAL.match(w) and int(w) < 2 ** 64]
    nodes = [graph.number(w) for w in rest]
    if word in ("path", "part", "join"):
        good = len(number) == len(rest) and all(1 <= j <= len(graph.lines) for j in number)
        return (word, [j - 1 for j in number]) if good else None
    if word == "value":
        return (word, number[0]) if len(rest) == 1 and number else None
    if word in ("impossible", "end"):
        return (word, None) if not rest else None
    if word == "set":
        return (word, nodes) if None not in nodes and sorted(set(nodes)) == nodes else None
    if word in ("edge", "arc"):
        return (word, tuple(nodes)) if len(rest) == 2 and None not in nodes else None
    if word == "tree":
        good = len(rest) == 3 and None not in nodes[:2] and DECIMAL.match(rest[2]) and int(rest[2]) < 2 ** 64
        return (word, (nodes[0], nodes[1], int(rest[2]))) if good else None
    if word == "dual" and len(rest) == 1:
        return (b"dual " + rest[0]).decode("latin-1"), None
    return None


def read_certificate(graph, data):
    """The command's words and the forms and contents of the lines after it, and how many lines and bytes, or Bad."""
    whole = re.findall(rb"([^\n]*)\n", data)
    if not whole or whole[0] != b"certificate 1":
        raise Bad(1)
    if len(whole) < 2 or not whole[1].startswith(b"command "):
        raise Bad(2)
    words = [w.decode("latin-1") for w in whole[1].split(b" ")[1:]]
    if bad_word(words) or words[0] in ("check", "trial") or unfit(graph, words):
        raise Bad(2)
    left = [[list(piece) for piece in row] for row in rows(words, len(graph.lines))]
    seen, turned = [], 0
    for number, line in enumerate(whole[2:], 3):
        said, after = says(graph, line), []
        for row in left if said else []:
            while row:
                form, least, most = row[0]
                if matches(graph, form, said, turned) and most > 0:
                    after.append([[form, max(least - 1, 0), most - 1], *row[1:]])
                    break
                if least > 0:
                    break
                row = row[1:]
        if not after:
            raise Bad(number)
        left = after
        seen.append(said)
        turned += said[0] == "arc"
        if said[0] == "end":
            return words, seen, number, sum(len(l) + 1 for l in whole[:number])
    raise Bad(len(whole) + 1)


def matches(graph, form, said, turned):
    if form == "turned":
        return said[0] == "arc" and turned < len(graph.lines) and set(said[1]) == set(graph.lines[turned][:2])
    return form == said[0]


def judge(graph, words, seen):
    """None where the certificate meets the graph, else the first reason for which it doesn't."""
    n, command = len(graph.names), words[0]
    of = lambda form: [content for name, content in seen if name == form]
    value, sets = (of("value") or [None])[0], [set(s) for s in of("set")]
    if command == "flow":
        s, t = (graph.number(w.encode()) for w in words[1:])
        paths = of("path")
        used = [j for path in paths for j in path]
        if not all(is_walk(graph, s, t, p) for p in paths) or len(set(used)) < len(used):
            return "infeasible"
        if s not in sets[0] or t in sets[0]:
            return "dual"
        return None if value == len(paths) == out_of(graph, sets[0]) else "gap"
    if command == "cuttree":
        pairs = of("tree")
        if len(pairs) != n - 1 or any(u == v for u, v, _ in pairs) or not is_forest(n, [p[:2] for p in pairs]):
            return "infeasible"
        for at, (u, v, w) in enumerate(pairs):
            side = reached(u, [p for i, p in enumerate(pairs) if i != at])
            if degree(graph.lines, side) != w or most_walks(n, graph.lines, False, u, v) < w:
                return "dual"
        return None
    if command in ("arborescences", "trees", "forests"):
        return judge_parts(graph, words, of("part"), sets, value)
    if command in ("augment", "augment-arcs"):
        dual = next(name.split()[1] for name, _ in seen if name.startswith("dual "))
        return judge_new_lines(graph, int(words[1]), dual, of("arc" if graph.directed else "edge"), sets, value)
    if command == "orient":
        return judge_orientation(graph, int(words[1]), of("arc"), sets)
    return judge_dijoin(graph, of("join"), sets, value)


def judge_new_lines(graph, k, dual, pairs, sets, value):
    """Edges or arcs that are added, and the sets that need so many."""
    n, lines = len(graph.names), graph.lines
    feasible = all(u != v for u, v in pairs) and is_connected(n, [*lines, *pairs], graph.directed, k)
    if dual == "components":
        right, bound = is_partition(n, sets) and between(lines, sets) == 0, len(sets) - 1
    elif dual == "subpartition":
        right, bound = are_disjoint(n, sets), (lacking(lines, k, sets, degree) + 1) // 2
    else:
        right, bound = are_disjoint(n, sets), lacking(lines, k, sets, {"in": entering, "out": leaving}[dual])
    return "infeasible" if not feasible else "dual" if not right else None if value == len(pairs) == bound else "gap"


def judge_orientation(graph, k, arcs, sets):
    """An orientation, or a side that has too few edges for any."""
    n = len(graph.names)
    if sets:
        return None if 0 < len(sets[0]) < n and degree(graph.lines, sets[0]) < 2 * k else "dual"
    return None if is_connected(n, arcs, True, k) else "infeasible"


def judge_dijoin(graph, joins, sets, value):
    """A dijoin and closed sides, or a side that forbids each dijoin."""
    n, lines = len(graph.names), graph.lines
    closed = all(0 < len(s) < n and leaving(lines, s) == 0 for s in sets)
    if not joins:
        return None if closed and all(line[2] for line in lines if enters(line, sets[0])) else "dual"
    join = joins[0]
    turned = [(h, t) for t, h, *_ in (lines[j] for j in join)]
    feasible = len(set(join)) == len(join) and not any(lines[j][2] for j in join) and is_connected(n, [*lines, *turned], True, 1)
    right = closed and all(fixed or sum(enters(line, s) for s in sets) <= cost for line in lines for *_, fixed, cost in [line])
    return "infeasible" if not feasible else "dual" if not right else None if value == sum(lines[j][3] for j in join) == len(sets) else "gap"


def judge_parts(graph, words, parts, sets, value):
    n, lines = len(graph.names), graph.lines
    used = [j for part in parts for j in part]
    feasible = len(set(used)) == len(used)
    if words[0] == "arborescences":
        root = graph.number(words[1].encode())
        feasible = feasible and all(is_arborescence(n, [lines[j] for j in part], root) for part in parts)
        right, bound = sets[0] and root not in sets[0], entering(lines, sets[0])
    elif words[0] == "trees":
        feasible = feasible and all(len(part) == n - 1 and is_forest(n, [lines[j][:2] for j in part]) for part in parts)
        right = len(sets) > 1 and is_partition(n, sets)
        bound = between(lines, sets) // (len(sets) - 1) if right else 0
    else:
        feasible = sorted(used) == list(range(len(lines))) and all(is_forest(n, [lines[j][:2] for j in part]) for part in parts)
        right = not sets or len(sets[0]) > 1
        bound = -(-induced(lines, sets[0]) // (len(sets[0]) - 1)) if sets and right else 0
    return "infeasible" if not feasible else "dual" if not right else None if value == len(parts) == bound else "gap"


def reached(start, pairs):
    side, grows = {start}, True
    while grows:
        grows = False
        for u, v, *_ in pairs:
            if (u in side) != (v in side):
                side |= {u, v}
                grows = True
    return side
