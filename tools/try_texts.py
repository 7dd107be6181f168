#!/usr/bin/env python3
"""Gives the built program hostile texts: certificates and graphs with each small change, and texts of the greatest length.

usage: try_texts.py [--all] [--jobs N] [--bytes N] [--seconds N] [PROGRAM [certificates | graphs | long]..]

PROGRAM is the one that ./connect builds, where it is left out, and without a word behind it all three parts are run:
  certificates  the program's own certificates, cut at each byte, with each byte changed, deleted, or another put before it,
                and with each line dropped, doubled, or exchanged with the next; each answer of `check` is compared with the
                judges'
  graphs        the same changes of graph texts, and of the ends of graph texts that are as large as may be
  long          texts of 33,554,432 bytes and of one more: the answer, a processor's seconds, and the most memory, which
                counts from some 20 MB on, those of this script. With --bytes they have so many, at least 65,536, and
                none has one more
With --all a byte is changed into each other one, and each is put before it; else into a choice, and each of the choice.
--jobs is how many programs run at a time, by default one a processor; --seconds how many of a processor a long text may
take, by default 20, and none may take more than 671 MB. Ends with 0 where each answer is as wanted, with 1 where one
isn't, and with 2 where the words are wrong. The first input that was answered otherwise is left as failed.graph, where it
is no long one.
"""

import multiprocessing
import os
import resource
import shutil
import signal
import subprocess
import sys
import tempfile
import time
from functools import partial
from pathlib import Path

import graphs as plain
import try_program as trial

HERE = Path(__file__).resolve().parent
PARTS = ["certificates", "graphs", "long"]
# A node's name and numbers of lines are among them, so that a changed text is often one of another certificate.
BYTES = b"13a \t\n\r\0\xff#"
MOST_SECONDS, MOST_TOLD, LEAST_BYTES = 120, 10, 65_536
# Beyond this a long text would take the memory that others want.
MOST_MEMORY = 20 * plain.MOST_BYTES


# ---- changes of a text

def cuts(text):
    return [text[:at] for at in range(len(text))]


def deletions(text):
    return [text[:at] + text[at + 1:] for at in range(len(text))]


def replacements(text, choice):
    """Each byte changed into each of the choice, and a digit into its neighbours, too."""
    for at, byte in enumerate(text):
        near = {48 + (byte - 48 + step) % 10 for step in (1, 9)} if 48 <= byte <= 57 else set()
        for other in sorted({*choice, *near} - {byte}):
            yield text[:at] + bytes([other]) + text[at + 1:]


def insertions(text, choice):
    return [text[:at] + bytes([byte]) + text[at:] for at in range(len(text) + 1) for byte in choice]


def line_changes(text):
    """Each line dropped, doubled, and exchanged with the next."""
    lines = plain.lines_of(text)
    for at in range(len(lines)):
        yield b"".join(lines[:at] + lines[at + 1:])
        yield b"".join(lines[:at + 1] + lines[at:])
        yield b"".join(lines[:at] + lines[at:at + 2][::-1] + lines[at + 2:])


def changed(text, choice):
    """The text, and each text that a change makes of it, once."""
    bytewise = [*cuts(text), *deletions(text), *replacements(text, choice), *insertions(text, choice)]
    return [*dict.fromkeys([text, *bytewise, *line_changes(text)])]


# ---- what is changed

def graph_text(kind, nodes, *lines):
    word = "edge" if kind == "undirected" else "arc"
    items = [f"graph {kind}", *(f"node {name}" for name in nodes.split()), *(f"{word} {line}" for line in lines), "end"]
    return "".join(item + "\n" for item in items).encode()


SQUARE = graph_text("undirected", "a b c d", "a b", "b d", "a c", "c d")
# The words and the graph, of whose certificate each change is made.
CERTIFIED = [
    ("flow a d", SQUARE),
    ("flow a d", graph_text("directed", "a b c d", "a b", "b d", "a c", "c d", "d a")),
    ("cuttree", graph_text("undirected", "a b1 b2", "a b1", "a b1", "b1 b2")),
    ("augment 1", graph_text("undirected", "a b1 b2", "a b1")),
    ("augment 3", graph_text("undirected", "a b c", "a b", "b c")),
    ("augment-arcs 2", graph_text("directed", "a b c", "a b", "a c", "b c")),
    ("arborescences a", graph_text("directed", "a b c", "a b", "a c", "b a", "b c", "c a", "c b")),
    ("trees", graph_text("undirected", "a b c d", "a b", "a c", "a d", "b c", "b d", "c d")),
    ("forests", graph_text("undirected", "a b c", "a b", "a c", "b c")),
    ("orient 1", SQUARE),
    ("orient 2", SQUARE),
    ("dijoin", graph_text("directed", "a b c", "a b cost 2", "c b cost 3")),
    ("dijoin", graph_text("directed", "a b c", "a b fixed", "b c")),
]

NUMBERED = b"".join(b"node %d 8192\n" % j for j in range(8))
# What is told of the graph, the words, the lines that stay, and those that are changed.
REFUSED = [
    ("with blanks, comments and numbers", "forests", b"",
     b"# note\r\ngraph undirected\n\nnode a 7\n\tnode  b 8192 \nnode c\nedge a b\nedge b\tc\nend\n#\n"),
    ("with costs and a fixed arc", "dijoin", b"",
     b"graph directed\nnode a\nnode fixed\nnode cost 10\narc a fixed cost 100\narc fixed cost fixed\narc a cost\nend\n"),
    ("whose nodes the words name", "flow a b", b"", graph_text("directed", "a b", "a b", "b a")),
    ("of 127 nodes, and more", "forests", b"graph undirected\n" + b"".join(b"node n%d\n" % j for j in range(127)),
     b"node x\nnode y z\nend\n"),
    ("of 2,047 edges, and more", "cuttree", b"graph undirected\nnode a\nnode b\n" + 2_047 * b"edge a b\n",
     b"edge b a\nedge a a\nend\n"),
    ("of numbers to the most, and more", "forests", b"graph undirected\n" + NUMBERED, b"node a 0\nnode b 1\nend\n"),
    ("of costs to the most, and more", "dijoin", b"graph directed\nnode a\nnode b\n" + 40 * b"arc a b cost 100\n",
     b"arc a b cost 0\narc b a fixed\nend\n"),
]


# ---- one text

def answer(program, words, data):
    """What is written, on either stream, and the exit number."""
    try:
        done = subprocess.run([program, *words], input=data, capture_output=True, timeout=MOST_SECONDS, check=False)
    except subprocess.TimeoutExpired:
        return b"no answer in %d s" % MOST_SECONDS, None
    return done.stdout + done.stderr, done.returncode


def with_exit(said):
    return said, trial.EXIT.get(said.split()[0].decode(), 0)


def best_answer(words, data, found):
    """The answer that was found where it is a certificate of a best answer by the judges, else what it lacks."""
    graph = plain.read_graph(data)[0]
    try:
        said, seen, _, size = plain.read_certificate(graph, found[0])
    except plain.Bad as bad:
        return f"a certificate, malformed at line {bad.line}"
    if (said, size) != (words, len(found[0])):
        return "one certificate for these words"
    why = plain.judge(graph, said, seen)
    return f"no certificate that is rejected: {why}" if why else (found[0], int(("impossible", None) in seen))


def tried(task):
    """The kind of the answer that the judges give, and what the program answered where it is another one."""
    program, words, data = task
    found = answer(program, words, data)
    refused = trial.refusal(words, data)
    if refused or words == ["check"]:
        said = (refused or trial.verdict(data)).decode().split()
        wanted, kind = with_exit(" ".join(said).encode() + b"\n"), said[1] if said[0] == "rejected" else said[0]
    else:
        wanted, kind = best_answer(words, data, found), "answered"
    return kind, None if found == wanted else (words, data, found, wanted)


def count(pool, program, words, texts, kinds):
    """How many answers are of each kind, and those that aren't as wanted."""
    sums, wrong = dict.fromkeys(kinds, 0), []
    for kind, differs in pool.imap_unordered(tried, [(program, words, data) for data in texts], 8):
        sums[kind] += 1
        wrong += [differs] if differs else []
    return [len(texts), *sums.values(), len(wrong)], wrong


def table(titles):
    print("|", " | ".join(titles), "|\n" + "|---" * len(titles) + "|")


def row(cells):
    print("|", " | ".join(f"{it:,}" if isinstance(it, int) else it for it in cells), "|", flush=True)


def tell(wrong):
    """Prints what isn't as wanted, the first few whole, and leaves the first input."""
    for words, data, found, wanted in wrong[:MOST_TOLD]:
        said = data if isinstance(data, str) else repr(data[-300:])
        print(f"connect {' '.join(words)}\n    on {said}\n    got {found}\n    wanted {wanted}")
    texts = [data for _, data, *_ in wrong if isinstance(data, bytes)]
    if texts:
        Path("failed.graph").write_bytes(texts[0])
    if wrong:
        print(f"{len(wrong)} answers aren't as wanted" + ("; failed.graph is the first input" if texts else ""))


# ---- the parts

def try_certificates(program, pool, choice):
    kinds = ["accepted", "malformed", "infeasible", "dual", "gap"]
    table(["Certificate of", "Bytes", "Texts", *kinds, "Differ"])
    wrong, sums = [], []
    for asked, graph in CERTIFIED:
        text, status = answer(program, asked.split(), graph)
        if (text, status) != best_answer(asked.split(), graph, (text, status)):
            wrong.append((asked.split(), graph, (text, status), "a certificate of a best answer"))
            continue
        found, more = count(pool, program, ["check"], [graph + it for it in changed(text, choice)], kinds)
        kind = "directed" if graph.startswith(b"graph directed") else "undirected"
        row([f"`{asked}`, {kind}" + (", impossible" if status else ""), len(text), *found])
        sums.append([len(text), *found])
        wrong += more
    row(["all", *map(sum, zip(*sums))])
    return wrong


def try_graphs(program, pool, choice):
    kinds = ["answered", "graph", "large", "unsuited"]
    table(["Graph", "Words", "Texts", "answered", "`graph LINE WHY`", "`large ..`", "`unsuited ..`", "Differ"])
    wrong, sums = [], []
    for title, asked, front, text in REFUSED:
        found, more = count(pool, program, asked.split(), [front + it for it in changed(text, choice)], kinds)
        row([title, f"`{asked}`", *found])
        sums.append(found)
        wrong += more
    row(["all", "", *map(sum, zip(*sums))])
    return wrong


# ---- texts of the greatest length: a front, a piece as often as it goes in, and an end

NODES = [bytes([byte]) for byte in range(33, 127) if plain.NAME.match(bytes([byte]))]
NODES += [b"n%d" % j for j in range(plain.MOST_NODES - len(NODES))]
LINKS = [(j, (j + 1) % len(NODES)) for j in range(len(NODES))]


def many(form, pairs):
    return b"".join(form % (NODES[u], NODES[v]) for u, v in pairs)


def listed(word, numbers):
    return b" ".join([word, *(b"%d" % j for j in numbers)]) + b"\n"


def sets(*sides):
    return b"".join(b" ".join([b"set", *side]) + b"\n" for side in sides)


# The answers by the number of pieces: the same for many, another one where there are none, and that of new lines of which so
# many pieces are enough.

def always(answer):
    return lambda _: answer


def beside(answer):
    return lambda count: answer if count else "accepted"


def enough(wanted):
    return lambda count: "accepted" if count == wanted else "rejected gap" if count > wanted else "rejected infeasible"


HEAD = {kind: b"graph %s\n" % kind + b"".join(b"node %s\n" % name for name in NODES)
        for kind in (b"undirected", b"directed")}
EDGELESS, ARCLESS = HEAD[b"undirected"] + b"end\n", HEAD[b"directed"] + b"end\n"
# A ring of 128 nodes, each edge 16 times: 16 spanning trees, and a forest of the edge that each of them leaves over.
RING = HEAD[b"undirected"] + 16 * many(b"edge %s %s\n", LINKS) + b"end\n"
TREES = b"".join(listed(b"part", (128 * copy + j + 1 for j in range(128) if j != copy)) for copy in range(16))
LEFT = listed(b"part", (129 * copy + 1 for copy in range(16)))
# A directed path, each arc 16 times but for the last one. An arc of each link is an arborescence and a dijoin, and all nodes
# from one on are a closed side.
PATH = HEAD[b"directed"] + 16 * many(b"arc %s %s\n", LINKS[:-2]) + many(b"arc %s %s\n", LINKS[-2:-1]) + b"end\n"
FIRST_ARCS = [*range(1, 127), 16 * 126 + 1]
CLOSED = sets(*(NODES[j:] for j in range(1, len(NODES))))
SINGLE, WHOLE = sets(*([name] for name in NODES)), sets(NODES)

# Of a graph text: what is told of it, the words, the front, the piece, the end and the answer, by how many whole pieces
# there are; None stands for the answer to the text without any.
LONG_GRAPHS = [
    ("one word", "trees", b"", b"g", b"", always("graph 1 header")),
    ("zero bytes", "trees", b"", b"\0", b"", always("graph 1 header")),
    ("carriage returns", "trees", b"", b"\r", b"", always("graph 1 header")),
    ("blanks", "trees", b"", b" ", b"", always("graph 2 header")),
    ("words of one byte on one line", "trees", b"", b"g ", b"", always("graph 1 header")),
    ("one comment", "trees", b"", b"#", b"", always("graph 2 header")),
    ("comments", "trees", b"", b"#\n", b"", lambda k: f"graph {k + 1} header"),
    ("empty lines", "trees", b"", b"\n", b"", lambda k: f"graph {k + 1} header"),
    ("CR LF", "trees", b"", b"\r\n", b"", lambda k: f"graph {k + 1} header"),
    ("headers", "trees", b"", b"graph undirected\n", b"", always("graph 2 line")),
    ("`node` lines of one name", "trees", b"graph undirected\n", b"node a\n", b"", always("graph 3 twice")),
    ("`node` lines behind 128 nodes", "trees", HEAD[b"undirected"], b"node z0\n", b"", always("large nodes")),
    ("edges", "trees", HEAD[b"undirected"], b"edge a b\n", b"", always("large lines")),
    ("arcs of cost 100", "dijoin", HEAD[b"directed"], b"arc a b cost 100\n", b"", always("large costs")),
    ("a long name", "trees", b"graph undirected\nnode ", b"a", b"", always("graph 2 name")),
    ("a long number", "trees", b"graph undirected\nnode a ", b"1", b"", always("graph 2 number")),
    ("a long cost of zeros", "dijoin", HEAD[b"directed"] + b"arc a b cost ", b"0", b"", always("graph 130 number")),
    ("words behind an edge", "trees", HEAD[b"undirected"] + b"edge a b", b" a", b"", always("graph 130 line")),
    ("blanks between two words", "trees", b"graph undirected\nnode a\nnode b\nedge a", b" \t", b" b\nend\n", None),
    ("blanks before the header", "trees", b"", b" ", SQUARE, None),
    ("empty lines before `end`", "trees", SQUARE[:-4], b"\n", b"end\n", None),
    ("empty lines, and no `end`", "trees", SQUARE[:-4], b"\n", b"", lambda k: f"graph {k + 10} noend"),
    ("comments behind a graph, and a word", "trees", SQUARE, b"#\n", b"\nx", lambda k: f"graph {k + 12} line"),
    *(("a comment behind as large a graph as may be", asked, graph, b"#", b"", None) for asked, graph in [
        ("flow a n0", RING), ("cuttree", RING), ("augment 32", RING), ("trees", RING), ("forests", RING),
        ("orient 16", RING), ("augment-arcs 1", PATH), ("arborescences -", PATH), ("dijoin", PATH)]),
]


def behind(graph, lines):
    """A certificate's first lines behind a graph; in them / stands for a line feed."""
    return graph + b"certificate 1\ncommand " + b"".join(line + b"\n" for line in lines.encode().split(b" / ") if line)


FLOW = "flow a d / value 2 / path 3 4 / path 1 2 / dual cut / set a / end"
TWO_LINES, FLOWS = b"certificate 1\ncommand ", "flow a d / value 2 / path 3 4"
RING_OF = {"forests": behind(RING, "forests / value 17") + TREES + LEFT, "trees": behind(RING, "trees / value 16") + TREES,
           "cuttree": behind(RING, "cuttree") + many(b"tree %s %s 32\n", LINKS[:-1]),
           "orient": behind(RING, "orient 16") + 16 * many(b"arc %s %s\n", LINKS)}
DIJOIN, PACKED = behind(PATH, "dijoin / value 127"), behind(PATH, "arborescences - / value 1") + listed(b"part", FIRST_ARCS)
AUGMENT, AUGMENT_ARCS = behind(RING, "augment 32 / value 0"), behind(PATH, "augment-arcs 1 / value 1")
SUBPARTITION, COMPONENTS, PARTITION = b"dual subpartition\n", b"dual components\n", b"dual partition\n"

# The same of a graph and a certificate, which `check` reads.
LONG_CERTIFICATES = [
    ("comments in the graph", SQUARE[:-4], b"#\n", behind(b"end\n", FLOW), always("accepted")),
    ("comments in the graph, and no certificate", SQUARE[:-4], b"#\n", b"end\n", always("rejected malformed 1")),
    ("a comment in the graph, and no `end`", SQUARE[:-4], b"#", b"", always("graph 11 noend")),
    ("empty lines", SQUARE, b"\n", b"", always("rejected malformed 1")),
    ("blanks", SQUARE, b" ", b"", always("rejected malformed 1")),
    ("one word", SQUARE, b"c", b"", always("rejected malformed 1")),
    ("first lines", SQUARE, b"certificate 1\n", b"", always("rejected malformed 2")),
    ("a long command", SQUARE + TWO_LINES, b"t", b"\nend\n", always("rejected malformed 2")),
    ("a long K", SQUARE + TWO_LINES + b"augment 1", b"0", b"\nend\n", always("rejected malformed 2")),
    ("a long value", behind(SQUARE, "flow a d") + b"value 1", b"0", b"\nend\n", always("rejected malformed 3")),
    ("`path` with a long number", behind(SQUARE, "flow a d / value 2") + b"path 1", b"1", b"\nend\n",
     always("rejected malformed 4")),
    ("`path` with many numbers", behind(SQUARE, FLOWS) + b"path 1 2", b" 2 1", b"\ndual cut\nset a\nend\n",
     always("rejected infeasible")),
    ("`path` lines", behind(SQUARE, FLOWS), b"path 1 2\n", b"dual cut\nset a\nend\n", always("rejected infeasible")),
    ("`path` lines without a number", behind(SQUARE, FLOWS), b"path\n", b"dual cut\nset a\nend\n",
     always("rejected infeasible")),
    ("`path` lines, and no `end`", behind(SQUARE, FLOWS), b"path 1 2\n", b"", lambda k: f"rejected malformed {k + 5}"),
    ("`set` with many names", behind(SQUARE, FLOWS + " / path 1 2 / dual cut") + b"set a", b" a", b"\nend\n",
     always("rejected malformed 7")),
    ("a certificate, and `end` lines", behind(SQUARE, FLOW), b"end\n", b"", always("rejected malformed 9")),
    ("a certificate, and one word", behind(SQUARE, FLOW), b"x", b"", always("rejected malformed 9")),
    ("a tree's pairs", RING_OF["cuttree"], b"tree a b 32\n", b"end\n", beside("rejected infeasible")),
    ("forests, and empty ones", RING_OF["forests"], b"part\n", b"dual set\n" + WHOLE + b"end\n", beside("rejected gap")),
    ("trees, and empty parts", RING_OF["trees"], b"part\n", PARTITION + SINGLE + b"end\n", beside("rejected infeasible")),
    ("trees, and a part with many numbers", RING_OF["trees"] + b"part 1", b" 1", b"\n" + PARTITION + SINGLE + b"end\n",
     always("rejected infeasible")),
    ("trees, and empty classes", RING_OF["trees"] + PARTITION + SINGLE, b"set\n", b"end\n", beside("rejected dual")),
    ("trees, and classes of one node", RING_OF["trees"] + PARTITION + SINGLE, b"set a\n", b"end\n", beside("rejected dual")),
    ("trees, and classes of the last node", RING_OF["trees"] + PARTITION + SINGLE, sets(NODES[-1:]), b"end\n",
     beside("rejected dual")),
    ("arborescences, and empty parts", PACKED, b"part\n", b"dual cut\n" + sets(NODES[-1:]) + b"end\n",
     beside("rejected infeasible")),
    ("an arborescence, and a part with many numbers", PACKED + b"part 1", b" 1",
     b"\ndual cut\n" + sets(NODES[-1:]) + b"end\n", always("rejected infeasible")),
    ("`augment 1`, and empty classes", behind(RING, "augment 1 / value 0") + COMPONENTS + WHOLE, b"set\n", b"end\n",
     beside("rejected dual")),
    ("`augment 32`, new edges of one pair", AUGMENT, b"edge a b\n", SUBPARTITION + b"end\n", beside("rejected gap")),
    ("`augment 32`, new edges of the last two nodes", AUGMENT, many(b"edge %s %s\n", LINKS[-2:-1]), SUBPARTITION + b"end\n",
     beside("rejected gap")),
    ("`augment 32`, new edges of a ring", behind(EDGELESS, "augment 32 / value 2048"), many(b"edge %s %s\n", LINKS),
     SUBPARTITION + SINGLE + b"end\n", enough(16)),
    ("`augment 32`, empty sets", AUGMENT + SUBPARTITION, b"set\n", b"end\n", beside("rejected dual")),
    ("`augment 32`, sets of one node", AUGMENT + SUBPARTITION, b"set a\n", b"end\n", always("rejected dual")),
    ("`augment-arcs 1`, new arcs of one pair", AUGMENT_ARCS, many(b"arc %s %s\n", [(-1, 0)]),
     b"dual in\n" + sets(NODES[:1]) + b"end\n", enough(1)),
    ("`augment-arcs 32`, new arcs of a ring", behind(ARCLESS, "augment-arcs 32 / value 4096"), many(b"arc %s %s\n", LINKS),
     b"dual in\n" + SINGLE + b"end\n", enough(32)),
    ("an orientation, and further arcs", RING_OF["orient"], b"arc a b\n", b"end\n", beside("rejected malformed 2051")),
    ("`impossible` lines", behind(RING, "orient 17"), b"impossible\n", b"dual cut\n" + sets(NODES[:1]) + b"end\n",
     always("rejected malformed 4")),
    ("`join` with many numbers", DIJOIN + listed(b"join", FIRST_ARCS)[:-1], b" 1", b"\ndual dicuts\n" + CLOSED + b"end\n",
     beside("rejected infeasible")),
    ("a dijoin, and closed sets of one node", DIJOIN + listed(b"join", FIRST_ARCS) + b"dual dicuts\n" + CLOSED,
     sets(NODES[-1:]), b"end\n", beside("rejected dual")),
    ("a dijoin, and empty sets", DIJOIN + listed(b"join", FIRST_ARCS) + b"dual dicuts\n" + CLOSED, b"set\n", b"end\n",
     beside("rejected dual")),
]
LONG = LONG_GRAPHS + [(title, "check", *shape) for title, *shape in LONG_CERTIFICATES]


def pieces(shape, length):
    """How many whole pieces go into a text of that length, and how many bytes are left over."""
    _, _, front, piece, end, _ = shape
    return divmod(length - len(front) - len(end), len(piece))


def blocks(shape, length):
    """The text of that length, by blocks, so that it is never held whole; blanks before it are what is left over."""
    _, _, front, piece, end, _ = shape
    times, left = pieces(shape, length)
    yield left * b" " + front
    size = max(1, 2 ** 16 // len(piece))
    for done in range(0, times, size):
        yield min(size, times - done) * piece
    yield end


def wanted_of(shape, length, found):
    """The line that has to be answered, or what was found where it answers the text without a piece, which is as good."""
    _, asked, front, _, end, answer_of = shape
    if length > plain.MOST_BYTES:
        return with_exit(b"large bytes\n")
    if answer_of is None:
        return best_answer(asked.split(), front + end, found)
    return with_exit(answer_of(pieces(shape, length)[0]).encode() + b"\n")


def resident(process):
    """How many bytes of memory a process takes that hasn't ended."""
    return int(Path(f"/proc/{process}/statm").read_text(encoding="ascii").split()[1]) * resource.getpagesize()


def measured(program, words, text, seconds):
    """What is written and the exit number, the seconds of a processor, and the most memory in MB."""
    limit = partial(resource.setrlimit, resource.RLIMIT_CPU, (seconds, seconds + 1))
    with open(text, "rb") as data, tempfile.TemporaryFile() as out:
        child, large = subprocess.Popen([program, *words], stdin=data, stdout=out, stderr=out, preexec_fn=limit), False
        while not (ended := os.wait4(child.pid, os.WNOHANG))[0]:
            # A limit set on the process would count what it maps and never uses.
            if resident(child.pid) > MOST_MEMORY:
                large = True
                child.kill()
            time.sleep(0.02)
        _, status, used = ended
        child.returncode = os.waitstatus_to_exitcode(status)
        out.seek(0)
        late = child.returncode == -signal.SIGXCPU
        found = b"none in %d s" % seconds if late else b"none in %d MB" % (MOST_MEMORY // 10 ** 6) if large else out.read()
        return (found, child.returncode), used.ru_utime + used.ru_stime, used.ru_maxrss * 1024 / 1e6


def tried_long(task):
    """A row of the table, the seconds and the memory of its runs, and what isn't as wanted."""
    program, place, length, seconds = task
    title, asked, *_, answer_of = shape = LONG[place]
    cells, runs, wrong = [], [], []
    with tempfile.TemporaryDirectory() as room:
        text = Path(room) / "text"
        with open(text, "wb") as file:
            file.writelines(blocks(shape, length))
        while True:
            long = text.stat().st_size
            found, *used = measured(program, asked.split(), text, seconds)
            wanted = wanted_of(shape, long, found)
            wrong += [] if found == wanted else [(asked.split(), f"{title}, {long:,} bytes", found, wanted)]
            said = found[0].decode("latin-1").split("\n")[0]
            cells.append("a certificate" if answer_of is None and found == wanted else said[:40])
            cells += [f"{used[0]:.1f}", f"{used[1]:.0f}"]
            runs.append(used)
            if long != plain.MOST_BYTES:
                return [title, f"`{asked}`", *cells[:3], *cells[4:]], runs, wrong
            with open(text, "ab") as file:
                file.write(b"#")


def try_long(program, pool, length, seconds):
    more = ["Seconds of one byte more", "MB"] if length == plain.MOST_BYTES else []
    table(["Text", "Words", "Answer", "Seconds", "MB", *more])
    wrong, sums = [], []
    for cells, runs, differ in pool.imap(tried_long, [(program, place, length, seconds) for place in range(len(LONG))]):
        row(cells)
        sums += runs
        wrong += differ
    longest, most = (max(it) for it in zip(*sums))
    told = f"{len(sums)} runs, {len(wrong)} not as wanted; at most {longest:.1f} s and {most:.0f} MB"
    print(f"\n{told}; ten times the text are {10 * length / 1e6:.0f} MB")
    return wrong


def options(words):
    """The numbers behind the options, whether each byte is tried, and the other words; or None where a number is wrong."""
    least = {"--jobs": 1, "--bytes": LEAST_BYTES, "--seconds": 1}
    numbers, left, words = {"--jobs": os.cpu_count() or 1, "--bytes": plain.MOST_BYTES, "--seconds": 20}, [], iter(words)
    for word in words:
        if word in numbers:
            number = next(words, "")
            if not number.isdecimal() or int(number) < least[word] or word == "--bytes" and int(number) > plain.MOST_BYTES:
                return None
            numbers[word] = int(number)
        else:
            left.append(word)
    return numbers, "--all" in left, [word for word in left if word != "--all"]


def main(words):
    if {"-h", "--help"} & {*words}:
        print(__doc__)
        return 0
    found = options(words)
    if found is None or any(word.startswith("--") for word in found[2]) or not {*found[2][1:]} <= {*PARTS}:
        print(__doc__, file=sys.stderr)
        return 2
    numbers, every, words = found
    program = words[0] if words else str(HERE.parent / "crates/connect/out/connect")
    if not shutil.which(program):
        print(f"{program}: no such program", file=sys.stderr)
        return 2
    choice, wrong = range(256) if every else BYTES, []
    for part in [part for part in PARTS if part in (words[1:] or PARTS)]:
        print(f"## {part}\n")
        # Else a process would begin with the memory of the one before it.
        with multiprocessing.Pool(numbers["--jobs"], maxtasksperchild=1 if part == "long" else None) as pool:
            if part == "long":
                wrong += try_long(program, pool, numbers["--bytes"], numbers["--seconds"])
            else:
                wrong += (try_graphs if part == "graphs" else try_certificates)(program, pool, choice)
        print()
    tell(wrong)
    return 1 if wrong else 0


if __name__ == "__main__":
    sys.exit(main(sys.argv[1:]))
