#!/usr/bin/env python3
"""Runs the gate and prints what each crate cost it: its proof, the proof of its tests, and its must-fail edits.

usage: gate_times.py [WORD..], with what `rt ci` is to be given

Processor seconds are read off /proc once a second, so a step shorter than that may be missed. Ends as the gate does.
"""

import os
import subprocess
import sys
import threading
import time
from collections import defaultdict
from pathlib import Path

TICKS = os.sysconf("SC_CLK_TCK")
STEPS = ["proof", "tests", "edits"]


def working(parent):
    """The checks that the gate has running: process, crate, step and processor seconds so far."""
    for entry in Path("/proc").iterdir():
        if not entry.name.isdigit():
            continue
        try:
            stat = (entry / "stat").read_text().rsplit(")", 1)[1].split()
            if int(stat[1]) != parent:
                continue
            words = (entry / "cmdline").read_bytes().split(b"\0")
            place = os.readlink(entry / "cwd")
        except (OSError, IndexError, ValueError):
            continue
        if b"--crate-name" not in words:
            continue
        crate = words[words.index(b"--crate-name") + 1].decode()
        step = "edits" if "/rt-edit" in place else "tests" if b"--test" in words else "proof"
        yield entry.name, crate, step, (int(stat[11]) + int(stat[12])) / TICKS


def listen(gate, began, said):
    """Keeps what the gate says, and prints the lines that tell how far it is, with the seconds since it began."""
    for line in gate.stdout:
        said.append(line.rstrip("\n"))
        if line.startswith("rt:") or "refused" in line or "passed," in line or "error" in line:
            print(f"{time.time() - began:6.0f} s  {said[-1]}", flush=True)


def main(words):
    if {"-h", "--help"} & {*words}:
        print(__doc__)
        return 0
    began = time.time()
    gate = subprocess.Popen(["rt", "ci", *words], stdout=subprocess.PIPE, stderr=subprocess.STDOUT, text=True)
    said = []
    reader = threading.Thread(target=listen, args=(gate, began, said))
    reader.start()
    spent = {}
    while gate.poll() is None:
        for process, crate, step, seconds in working(gate.pid):
            spent[process, crate, step] = max(seconds, spent.get((process, crate, step), 0.0))
        time.sleep(1)
    reader.join()
    total = defaultdict(lambda: dict.fromkeys(STEPS, 0.0))
    for (_, crate, step), seconds in spent.items():
        total[crate][step] += seconds
    print("\n| Crate | Its proof | The proof of its tests | Its edits |\n|---|---|---|---|")
    for crate, row in sorted(total.items(), key=lambda item: -sum(item[1].values())):
        print("|", " | ".join([f"`{crate}`", *(f"{row[step]:.0f}" for step in STEPS)]), "|")
    sums = {step: sum(row[step] for row in total.values()) for step in STEPS}
    print("|", " | ".join(["all", *(f"{sums[step]:.0f}" for step in STEPS)]), "|")
    print(f"{(time.time() - began) / 60:.1f} minutes; {said[-1]}")
    return gate.returncode


if __name__ == "__main__":
    sys.exit(main(sys.argv[1:]))
