#!/usr/bin/env python3
"""Runs the command lines of the guide, of README.md and of python/README.md, and compares what they write with the page.

usage: try_guide.py [-h] [PROGRAM]

PROGRAM stands in for ./connect; where it is left out, it is the one that ./connect builds. In a block of a page a line that
begins with "$ " is a command, and what stands below it, up to the next one or the end of the block, is what it writes. Where
a block is one line that begins with "./connect", the next block that begins with "certificate 1" is its answer. The commands
of a page run in its order, in one folder with the repository's examples and tools. Examples in Python are left to the
package's own tests.

Left out are commands that install something, pictures where Graphviz is missing, and comparisons where no networkx of the
version that the guide names is there; how many is said. Besides, the program reads each graph of examples/, and each picture
that a page shows is there, is made by a command of the page, and is small.

Ends with 0 where all agrees, else with 1, after the differences.
"""

import os
import re
import shlex
import shutil
import subprocess
import sys
import tempfile
from pathlib import Path

ROOT = Path(__file__).resolve().parent.parent
PAGES = ["docs/GUIDE.md", "README.md", "python/README.md"]
BLOCK = re.compile(r"^```[^\n]*\n(.*?)^```$", re.MULTILINE | re.DOTALL)
INSTALLS = re.compile(r"(sudo |pip |pipx |apt|python3 -m (pip|venv)|git )")
VERSION, MOST_BYTES = "2.8.8", 40_000


def commands_of(text):
    """Each command of a page with what it is to write."""
    waiting = None
    for block in BLOCK.findall(text):
        lines = block.split("\n")[:-1]
        if lines and lines[0].startswith("$ "):
            at = [number for number, line in enumerate(lines) if line.startswith("$ ")]
            for first, behind in zip(at, [*at[1:], len(lines)]):
                yield lines[first][2:], "".join(line + "\n" for line in lines[first + 1:behind])
        elif len(lines) == 1 and lines[0].startswith("./connect "):
            waiting = lines[0]
        elif waiting and lines and lines[0] == "certificate 1":
            yield waiting, block
            waiting = None
    if waiting:
        yield waiting, None


def python_with_networkx():
    """An interpreter that has the networkx of which the guide tells figures, or None."""
    asked = "import networkx; print(networkx.__version__)"
    for python in dict.fromkeys([sys.executable, shutil.which("python3"), "/usr/bin/python3"]):
        if python and Path(python).exists():
            done = subprocess.run([python, "-c", asked], capture_output=True, text=True, check=False)
            if done.stdout.strip() == VERSION:
                return python
    return None


def script(path, words):
    path.write_text(f"#!/bin/sh\nexec {words} \"$@\"\n", encoding="utf-8")
    path.chmod(0o755)


class Folder:
    """A folder that looks like the repository, with the program in the place of ./connect."""

    def __init__(self, path, program, python):
        self.path = Path(path)
        for name in ("examples", "tools", "python"):
            if (ROOT / name).exists():
                (self.path / name).symlink_to(ROOT / name)
        (self.path / "docs/pictures").mkdir(parents=True)
        (self.path / "bin").mkdir()
        script(self.path / "connect", shlex.quote(program))
        script(self.path / "bin/python3", shlex.quote(python or sys.executable))
        self.env = dict(os.environ, CONNECT=program, PYTHONDONTWRITEBYTECODE="1",
                        PATH=f"{self.path / 'bin'}{os.pathsep}{os.environ['PATH']}")

    def written(self, command):
        done = subprocess.run(["/bin/sh", "-c", command], stdout=subprocess.PIPE, stderr=subprocess.STDOUT, cwd=self.path,
                              env=self.env, timeout=300, check=False)
        return done.stdout.decode(errors="replace")


def why_left(command, python):
    """Why a command isn't run, or None."""
    if INSTALLS.match(command):
        return "that installs"
    if "tools/picture.py" in command and not shutil.which("neato"):
        return "without Graphviz"
    if "tools/compare_networkx.py" in command and not python:
        return f"without networkx {VERSION}"
    return None


def pictures(page, text, made):
    """What is wrong with the pictures that a page shows."""
    for name in sorted(set(re.findall(r"pictures/[\w-]+\.svg", text))):
        path = ROOT / "docs" / name
        if not path.exists():
            yield f"{page}: docs/{name} isn't there"
        elif path.stat().st_size > MOST_BYTES:
            yield f"{page}: docs/{name} has more than {MOST_BYTES} bytes"
        elif made is not None and page == PAGES[0] and not made(name):
            yield f"{page}: no command makes docs/{name}"


def try_page(page, program, python):
    """The differences of a page, how many commands ran, and why others didn't."""
    text, wrong, ran, left = (ROOT / page).read_text(encoding="utf-8"), [], 0, []
    with tempfile.TemporaryDirectory() as path:
        folder = Folder(path, program, python)
        for command, wanted in commands_of(text):
            why = why_left(command, python)
            if why:
                left.append(why)
                continue
            got = folder.written(command)
            ran += 1
            if got != wanted:
                wrong.append(f"{page}: $ {command}\n--- on the page\n{wanted}--- written\n{got}")

        def made(name):
            drawn = folder.path / "docs" / name
            return drawn.exists() and b"</svg>" in drawn.read_bytes()

        wrong += pictures(page, text, made if shutil.which("neato") else None)
    return wrong, ran, left


def unread_examples(program):
    for path in sorted((ROOT / "examples").glob("*.graph")):
        done = subprocess.run([program, "check"], input=path.read_bytes(), capture_output=True, timeout=60, check=False)
        if done.stdout != b"rejected malformed 1\n":
            yield f"{path.name}: check without a certificate answers {done.stdout!r}"


def main(words):
    if {"-h", "--help"} & {*words}:
        print(__doc__)
        return 0
    if len(words) > 1 or words and words[0].startswith("-"):
        print(__doc__, file=sys.stderr)
        return 2
    program = str(Path(words[0] if words else ROOT / "crates/connect/out/connect").absolute())
    if not os.access(program, os.X_OK):
        print(f"{program}: no program", file=sys.stderr)
        return 1
    python, wrong = python_with_networkx(), list(unread_examples(program))
    for page in PAGES:
        if (ROOT / page).exists():
            differences, ran, left = try_page(page, program, python)
            wrong += differences
            unrun = "".join(f", {left.count(why)} left out {why}" for why in dict.fromkeys(left))
            print(f"{page}: {ran} commands ran{unrun}")
    for difference in wrong:
        print(difference)
    print(f"{len(wrong)} differences")
    return 1 if wrong else 0


if __name__ == "__main__":
    sys.exit(main(sys.argv[1:]))
