#!/usr/bin/env python3
"""Times the built program on graphs of growing size, beside a plain program, and prints a table.

usage: bench.py [PROGRAM [RUNS [COMMAND..]]]

`large` among the commands stands for the table of single graphs, most of them as large as may be, for augmentations,
orientations and dijoins. Without a command all tables are printed.

Each time is the least of RUNS (5), in milliseconds of a processor, from the start of the process to its end: of the
answer, of `check` on that answer, and of the yardstick, tools/yardstick.cpp, which is built where a C++ compiler is and
whose values are compared with the program's. Growth is how often the time of an answer goes into that of the next size.
MB is the most memory of the answer's process. Ends with 1 where a run has another answer than it has to have.
"""

import random
import resource
import shutil
import subprocess
import sys
import tempfile
from pathlib import Path

HERE = Path(__file__).resolve().parent
SIZES = [16, 32, 64, 128]
MOST_LINES = 2_048
# The command, its words where the nodes are n1 to nN, and the kinds of its graphs.
COMMANDS = [
    ("flow", lambda n: ["n1", f"n{n}"], (False, True)),
    ("cuttree", lambda n: [], (False,)),
    ("arborescences", lambda n: ["n1"], (True,)),
    ("trees", lambda n: [], (False,)),
    ("forests", lambda n: [], (False,)),
    ("augment", lambda n: ["8"], (False,)),
    ("augment-arcs", lambda n: ["4"], (True,)),
    ("orient", lambda n: ["1"], (False,)),
    ("dijoin", lambda n: [], (True,)),
]


# ---- graphs, as lists of pairs of node numbers from 1; from node 1 arcs lead to every node

def ring(n):
    return [(v, v % n + 1) for v in range(1, n + 1)]


def some(n, m):
    rng = random.Random(n * m)
    return ring(n) + [tuple(rng.sample(range(1, n + 1), 2)) for _ in range(m - n)]


def loose(n, m):
    rng = random.Random(n * m)
    return [tuple(rng.sample(range(1, n + 1), 2)) for _ in range(m)]


def priced(pairs, most, least=0):
    """The pairs with random costs, which add up to 4,000 at most."""
    rng = random.Random(len(pairs) * most)
    costs = [rng.randint(least, most) for _ in pairs]
    while sum(costs) > 4_000:
        costs[costs.index(max(costs))] -= 1
    return [(*pair, cost) for pair, cost in zip(pairs, costs)]


def upward(pairs):
    """Each pair from its smaller number to its larger one, so that there is no circuit of arcs."""
    return [tuple(sorted(pair)) for pair in pairs]


def tree_and_more(n, more=None):
    """A tree and more random lines (3n), each from its smaller number to its larger one."""
    rng = random.Random(n)
    more = 3 * n if more is None else more
    return [(rng.randrange(1, v), v) for v in range(2, n + 1)] + upward(rng.sample(range(1, n + 1), 2) for _ in range(more))


def layers(n, m, count):
    """Arcs from each of so many layers to the next."""
    rng, size = random.Random(n * m * count), n // count
    starts = [rng.randrange(n - size) for _ in range(m)]
    return [(v + 1, (v // size + 1) * size + rng.randrange(size) + 1) for v in starts]


def grid(n):
    width = max(w for w in range(1, n + 1) if n % w == 0 and w * w <= n)
    right = [(v, v + 1) for v in range(1, n + 1) if v % width]
    return right + [(v, v + width) for v in range(1, n - width + 1)]


def complete(n):
    return [(u, v) for u in range(1, n + 1) for v in range(u + 1, n + 1)]


FORMS = [
    ("ring", ring),
    ("grid", grid),
    ("random, m = 4n", lambda n: some(n, 4 * n)),
    ("random, m = 16n", lambda n: some(n, 16 * n)),
    ("complete", complete),
    ("path, each line 16 times", lambda n: [(v, v + 1) for v in range(1, n) for _ in range(16)]),
]


# Words, how many nodes, what the lines are, and whether they are arcs.
LARGE = [
    ("augment 32", 128, "no edge", [], False),
    ("augment 32", 128, "ring", ring(128), False),
    ("augment 32", 128, "2,048 random edges", loose(128, 2048), False),
    ("augment 8", 64, "tree and 192 random edges", tree_and_more(64), False),
    ("augment-arcs 32", 128, "no arc", [], True),
    ("augment-arcs 32", 128, "directed ring", ring(128), True),
    ("augment-arcs 32", 128, "2,048 random arcs", loose(128, 2048), True),
    ("augment-arcs 32", 128, "2,048 random arcs, no circuit", upward(loose(128, 2048)), True),
    ("augment-arcs 4", 128, "tree and 384 random arcs, no circuit", tree_and_more(128), True),
    ("orient 1", 128, "ring and 1,920 random edges", some(128, 2048), False),
    ("orient 8", 128, "ring and 1,920 random edges", some(128, 2048), False),
    ("orient 16", 64, "ring and 1,984 random edges", some(64, 2048), False),
    ("dijoin", 40, "tree and 120 random arcs, no circuit", tree_and_more(40), True),
    ("dijoin", 128, "tree and 129 random arcs, no circuit", tree_and_more(128, 129), True),
    ("dijoin", 128, "tree and 385 random arcs, no circuit", tree_and_more(128, 385), True),
    ("dijoin", 128, "tree and 1,921 random arcs, no circuit", tree_and_more(128, 1921), True),
    ("dijoin", 128, "the first with costs to 31", priced(tree_and_more(128, 129), 31), True),
    ("dijoin", 128, "the second with costs to 15", priced(tree_and_more(128, 385), 15), True),
    ("dijoin", 128, "the third with costs to 3", priced(tree_and_more(128, 1921), 3), True),
    ("dijoin", 128, "tree with costs to 62", priced(tree_and_more(128, 0), 62), True),
    ("dijoin", 41, "tree, each arc of cost 100", priced(tree_and_more(41, 0), 100, 100), True),
    ("dijoin", 128, "tree", tree_and_more(128, 0), True),
    ("dijoin", 128, "four layers, 1,024 arcs", layers(128, 1024, 4), True),
    ("dijoin", 128, "sources and sinks, 2,048 arcs", layers(128, 2048, 2), True),
]


def text_of(n, pairs, directed):
    word = "arc" if directed else "edge"
    lines = [f"graph {'directed' if directed else 'undirected'}", *(f"node n{v}" for v in range(1, n + 1))]
    ends = [f"{word} n{u} n{v}" + "".join(f" cost {c}" for c in cost) for u, v, *cost in pairs]
    return "\n".join([*lines, *ends, "end\n"]).encode()


# ---- times

def timed(words, data, runs):
    """What the program writes, its exit number, and its least time in milliseconds of a processor."""
    best = float("inf")
    for _ in range(runs):
        start = spent()
        done = subprocess.run(words, input=data, capture_output=True, timeout=600)
        best = min(best, spent() - start)
        if best > 5_000:
            break
    return done.stdout, done.returncode, best


def spent():
    """The processor time of all processes that have ended, in milliseconds."""
    used = resource.getrusage(resource.RUSAGE_CHILDREN)
    return (used.ru_utime + used.ru_stime) * 1000


def most_memory(words, data):
    """The most memory that the process took, in MB: its last high-water mark that was read before it ended."""
    last = 0
    with tempfile.TemporaryFile() as text:
        text.write(data)
        text.seek(0)
        child = subprocess.Popen(words, stdin=text, stdout=subprocess.DEVNULL)
        while child.poll() is None:
            status = Path(f"/proc/{child.pid}/status").read_text(encoding="ascii", errors="replace")
            last = next((int(line.split()[1]) for line in status.split("\n") if line.startswith("VmHWM")), last)
    return last * 1024 / 1e6


def yardstick(room):
    """The plain program, or None."""
    compiler = shutil.which("g++") or shutil.which("clang++")
    if not compiler:
        print("no C++ compiler is here, so there is no yardstick\n")
        return None
    built = str(Path(room) / "yardstick")
    subprocess.run([compiler, "-O2", "-std=c++17", "-o", built, str(HERE / "yardstick.cpp")], check=True)
    return built


def value_of(command, text):
    """The certificate's value; of a cut tree the sum of the weights, and whether there is an orientation; 0 where there is no
    dijoin."""
    lines = [line.split() for line in text.decode().split("\n")]
    if command == "orient" or ["impossible"] in lines:
        return int(["impossible"] not in lines)
    if command == "cuttree":
        return sum(int(words[3]) for words in lines if words[:1] == ["tree"])
    return next(int(words[1]) for words in lines if words[:1] == ["value"])


def want(words, got, wanted):
    if got != wanted:
        sys.exit(f"{' '.join(words)}: {got} in the place of {wanted}")


def times(program, plain, runs, words, data):
    """The value, and the times of the answer, its check and the yardstick."""
    text, status, own = timed([program, *words], data, runs)
    want(words, status, 1 if b"\nimpossible\n" in text else 0)
    said, accepted, check = timed([program, "check"], data + text, runs)
    want([*words, "and check"], (said, accepted), (b"accepted\n", 0))
    found, least = value_of(words[0], text), None
    if plain:
        value, _, least = timed([plain, *words], data, runs)
        want([*words, "and the yardstick's value"], found, int(value))
    return found, (own, check, least)


def shown(found):
    return ["-" if it is None else f"{it:.1f}" for it in found]


def row(program, plain, runs, command, words_for, directed, make):
    """A row of the table: the times for each size, and how the answer's grow."""
    cells, own = [], []
    for n in SIZES:
        pairs = make(n)
        if len(pairs) > MOST_LINES:
            cells.append("")
            continue
        _, found = times(program, plain, runs, [command, *words_for(n)], text_of(n, pairs, directed))
        cells.append(" / ".join(shown(found)))
        own.append(found[0])
    return [*cells, ", ".join(f"{after / before:.1f}" for before, after in zip(own, own[1:]))]


def print_large(program, plain, runs):
    print("## Single graphs, most of them as large as may be\n")
    print("| Words | Nodes | Lines | Value | Answer | `check` | Yardstick | MB |\n|---|---|---|---|---|---|---|---|")
    for asked, n, lines, pairs, directed in LARGE:
        data = text_of(n, pairs, directed)
        value, found = times(program, plain, runs, asked.split(), data)
        if asked.startswith("orient"):
            value = "done" if value else "impossible"
        memory = most_memory([program, *asked.split()], data)
        print("|", " | ".join([f"`{asked}`", str(n), lines, str(value), *shown((*found, memory))]), "|", flush=True)
    print()


def main(words):
    if {"-h", "--help"} & {*words}:
        print(__doc__)
        return
    if words[1:] and not words[1].isdigit() or not {*words[2:]} <= {"large", *(name for name, *_ in COMMANDS)}:
        sys.exit(__doc__)
    program = words[0] if words else str(HERE.parent / "crates/connect/out/connect")
    runs = int(words[1]) if len(words) > 1 else 5
    with tempfile.TemporaryDirectory() as room:
        plain = yardstick(room)
        for command, words_for, kinds in COMMANDS:
            if words[2:] and command not in words[2:]:
                continue
            for directed in kinds:
                print(f"## `{command}`, {'directed' if directed else 'undirected'} graphs\n")
                print("| Graph |", " | ".join(f"n = {n}" for n in SIZES), "| Growth |\n|---|" + "---|" * len(SIZES) + "---|")
                for form, make in FORMS:
                    print("|", " | ".join([form, *row(program, plain, runs, command, words_for, directed, make)]), "|", flush=True)
                print()
        if not words[2:] or "large" in words[2:]:
            print_large(program, plain, runs)


if __name__ == "__main__":
    main(sys.argv[1:])
