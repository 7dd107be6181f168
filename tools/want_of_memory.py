#!/usr/bin/env python3
"""Refuses each allocation of the built program in turn, for each command, and looks at what it answers.

usage: want_of_memory.py [PROGRAM]

With the N-th allocation refused, for N = 1, 2, .. until none is, the program has to end with 9 and to write nothing, or to
answer as it does with ample memory. A C file of a few lines, which the script compiles, stands before the C library's
malloc and counts the allocations of the process from the start of `main` on. Ends with 0 where each run ended so, or where
there is no C compiler, and else with 1.
"""

import os
import shutil
import subprocess
import sys
import tempfile
from itertools import combinations
from pathlib import Path

HERE = Path(__file__).resolve().parent
EXAMPLES = HERE.parent / "examples"

DIGRAPH = b"""graph directed
node r
node a
node b
node c
arc r a
arc r b
arc a b
arc b a
arc b c
arc a c
arc c a
end
"""

# The complete digraph on three nodes, and the complete graph on five.
COMPLETE = b"graph directed\nnode a\nnode b\nnode c\narc a b\narc b a\narc a c\narc c a\narc b c\narc c b\nend\n"
WHOLE = b"graph undirected\nnode a\nnode b\nnode c\nnode d\nnode e\n" + b"".join(
    b"edge %c %c\n" % ends for ends in combinations(b"abcde", 2)) + b"end\n"

# The words and the graph. Each answer is checked as well, where it is a certificate.
COMMANDS = [
    ("flow a d", "square.graph"),
    ("flow depot harbour", "two-routes.graph"),
    ("flow s1 s4", "backbone.graph"),
    ("flow r c", DIGRAPH),
    ("cuttree", "square.graph"),
    ("cuttree", "backbone.graph"),
    ("arborescences r", DIGRAPH),
    ("arborescences a", COMPLETE),
    ("trees", "square.graph"),
    ("trees", "k4.graph"),
    ("trees", "backbone.graph"),
    ("forests", "square.graph"),
    ("forests", "backbone.graph"),
    ("augment 2", b"graph undirected\nnode a\nnode b\nnode c\nedge a b\nedge b c\nend\n"),
    ("augment 3", "backbone.graph"),
    ("augment-arcs 1", b"graph directed\nnode a\nnode b\nnode c\narc a b\narc a c\nend\n"),
    ("augment-arcs 2", DIGRAPH),
    ("orient 1", "backbone.graph"),
    ("orient 2", WHOLE),
    ("dijoin", b"graph directed\nnode x\nnode y\nnode z\narc x y\narc z y\nend\n"),
    ("dijoin", b"graph directed\nnode x\nnode y 3\nnode z\narc x y cost 2\narc z y\nend\n"),
    ("trial trees 2 0", b""),
    # Refusals, which take memory, too.
    ("flow a", "square.graph"),
    ("flow a a", "square.graph"),
    ("flow a b", b"graph undirected\nnode a\nedge a a\nend\n"),
    ("cuttree", DIGRAPH),
    ("check", b"graph undirected\nnode a\nend\n"),
]

SHIM = r"""
#define _GNU_SOURCE
#include <dlfcn.h>
#include <errno.h>
#include <stdlib.h>
#include <unistd.h>

static long left = -1;
static int told = -1;

__attribute__((constructor)) static void begin(void) {
    const char *number = getenv("REFUSED"), *file = getenv("TOLD");
    told = file ? atoi(file) : -1;
    left = number ? atol(number) : -1;
}

static int refused(void) {
    if (left <= 0 || --left > 0) return 0;
    if (write(told, "!", 1) < 0) _exit(99);
    errno = ENOMEM;
    return 1;
}

void *malloc(size_t size) {
    static void *(*real)(size_t);
    if (!real) real = dlsym(RTLD_NEXT, "malloc");
    return refused() ? NULL : real(size);
}

void *realloc(void *was, size_t size) {
    static void *(*real)(void *, size_t);
    if (!real) real = dlsym(RTLD_NEXT, "realloc");
    return refused() ? NULL : real(was, size);
}

void *aligned_alloc(size_t align, size_t size) {
    static void *(*real)(size_t, size_t);
    if (!real) real = dlsym(RTLD_NEXT, "aligned_alloc");
    return refused() ? NULL : real(align, size);
}

int posix_memalign(void **into, size_t align, size_t size) {
    static int (*real)(void **, size_t, size_t);
    if (!real) real = dlsym(RTLD_NEXT, "posix_memalign");
    return refused() ? ENOMEM : real(into, align, size);
}

void *calloc(size_t count, size_t size) {
    static void *(*real)(size_t, size_t);
    if (!real) real = dlsym(RTLD_NEXT, "calloc");
    return refused() ? NULL : real(count, size);
}
"""


def build(room):
    compiler = shutil.which("gcc") or shutil.which("clang")
    if not compiler:
        print("no C compiler is here: nothing was tried")
        sys.exit(0)
    source, built = Path(room) / "shim.c", Path(room) / "shim.so"
    source.write_text(SHIM)
    subprocess.run([compiler, "-O1", "-shared", "-fPIC", "-o", str(built), str(source), "-ldl"], check=True)
    return built


def run(program, words, data, shim=None, number=0):
    """What is written, the exit number, and whether an allocation was refused."""
    out, into = os.pipe()
    env = {**os.environ, "LD_PRELOAD": str(shim), "REFUSED": str(number), "TOLD": str(into)} if shim else None
    done = subprocess.run([program, *words], input=data, capture_output=True, timeout=120, env=env, pass_fds=[into])
    os.close(into)
    refused = os.read(out, 9) != b""
    os.close(out)
    return (done.stdout, done.stderr, done.returncode), refused


def try_command(program, shim, words, data):
    """How many allocations were refused, and how many of the answers were as with ample memory; or it ends the script."""
    wanted, _ = run(program, words, data)
    number, same = 1, 0
    while True:
        found, refused = run(program, words, data, shim, number)
        if not refused:
            if found != wanted:
                sys.exit(f"{words}: nothing was refused, and yet {found} in the place of {wanted}")
            return number - 1, same, wanted
        if found == wanted:
            same += 1
        elif found != (b"", b"", 9):
            sys.exit(f"{words} with allocation {number} refused: {found}")
        number += 1


def main(words):
    if {"-h", "--help"} & {*words}:
        print(__doc__)
        return
    if len(words) > 1:
        sys.exit(__doc__)
    program = words[0] if words else str(HERE.parent / "crates/connect/out/connect")
    print("| Command | Graph | Refused, one at a time | Exit 9, nothing written | Answered all the same |\n|---|---|---|---|---|")
    with tempfile.TemporaryDirectory() as room:
        shim = build(room)
        for text, graph in COMMANDS:
            data = graph if isinstance(graph, bytes) else (EXAMPLES / graph).read_bytes()
            name = "of the script" if isinstance(graph, bytes) else graph
            runs = [(text, text.split(), data)]
            while runs:
                said, words, given = runs.pop()
                tried, same, (written, _, status) = try_command(program, shim, words, given)
                print(f"| `{said}` | {name} | {tried} | {tried - same} | {same} |", flush=True)
                if status == 0 and words[0] not in ("check", "trial"):
                    runs.append((f"check of `{said}`".replace("`", ""), ["check"], given + written))


if __name__ == "__main__":
    main(sys.argv[1:])
