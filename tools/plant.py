#!/usr/bin/env python3
"""Plants bugs by hand, and says which of them a proof refuses, and which a test.

usage: plant.py [--alone] [--proofs | --tests] [--jobs N] [--log FILE] [--only WORDS] [NAME..]

The bugs of a crate stand in tools/plants/NAME.txt, with blank lines between: a line that says what is wrong, and then
the lines 'file:', 'old:' and 'new:' of a must-fail edit. They are tried in a copy of the repository. The proof of a
function sees of the others only their contracts, so that bugs in different functions are tried by one check; with
--alone each is tried by itself, as a must-fail edit. A bug that no proof refuses, or that is refused only since a proof
names what it took away, is tried by itself with the tests of library_tests, solver_tests and connect_tests that stand on
its crate; a test that runs out of time catches nothing. --only takes the bugs whose title has the words (a regular
expression). With --proofs no tests are asked, and with --tests no proofs, as where the bugs that no proof refused are
known. Ends with 0 where each bug is refused by a proof or caught by a test.
"""

import os
import re
import shutil
import subprocess
import sys
import tempfile
from pathlib import Path

ROOT = Path(__file__).resolve().parent.parent
PLANTS = ROOT / "tools/plants"
SUITES = ["library_tests", "solver_tests", "connect_tests"]
NAMES_ONLY = re.compile(r"has no `|has no field|is not in scope|was not admitted|\(nearest: ")


class Plant:
    def __init__(self, crate, title, lines):
        self.crate, self.title, self.lines = crate, title, lines
        self.kind, self.said, self.caught = None, "", None
        self.function = self.place()

    def applied(self, texts, read):
        """The texts by their path in the crate, with the bug put in; a text that isn't among them is read. And what doesn't
        apply, or nothing."""
        path, old, texts = None, None, dict(texts)
        for line in self.lines:
            if line.startswith("file: "):
                path = line[6:]
                texts.setdefault(path, read(path))
            elif line.startswith("old: "):
                old = line[5:]
            elif line.startswith("new: "):
                if texts[path].count(old) != 1:
                    return texts, f"the old text stands {texts[path].count(old)} times in {path}: {old}"
                texts[path] = texts[path].replace(old, line[5:])
            else:
                return texts, f"no line of a plant: {line}"
        return texts, ""

    def texts(self, folder):
        """The texts of the files that the bug changes, by their path in the crate."""
        texts, wrong = self.applied({}, lambda path: (folder / path).read_text(encoding="utf-8"))
        if wrong:
            sys.exit(f"{self.crate}, {self.title}: {wrong}")
        return texts

    def place(self):
        """The function in which the bug stands, as a check names it, or the file of an item that is no function."""
        path, old = (next(line[n:] for line in self.lines if line.startswith(word)) for word, n in (("file: ", 6), ("old: ", 5)))
        front = (ROOT / "crates" / self.crate / path).read_text(encoding="utf-8").split(old)[0].split("\n")
        within = path.removeprefix("src/").removesuffix(".rt").replace("/", "::")
        owner, found = "", ""
        for line in front:
            if impl := re.match(r"impl(?:<[^>]*>)? (?:(\w+) for )?(\w+)", line):
                owner = f"{impl[2]}{impl[1] or ''}::"
            elif line == "}":
                owner, found = "", ""
            elif name := re.match(r"(?: {4})?(?:pub(?:\(crate\))? )?fn (\w+)", line):
                found = f"{self.crate}::{within}::{owner}{name[1]}"
        return found or path


def plants_of(crate):
    text = (PLANTS / f"{crate}.txt").read_text(encoding="utf-8")
    blocks = [[line for line in block.split("\n") if line and not line.startswith("#")] for block in text.split("\n\n")]
    plants = [Plant(crate, block[0], block[1:]) for block in blocks if block]
    for plant in plants:
        changed = plant.texts(ROOT / "crates" / crate)
        if not changed or all(new == (ROOT / "crates" / crate / path).read_text(encoding="utf-8") for path, new in changed.items()):
            sys.exit(f"{crate}, {plant.title}: nothing is changed")
    return plants


def link_kept(one, other):
    """Links what a check proved, since a check replaces it and changes none of it, and copies the rest."""
    try:
        if one.endswith(".oantt"):
            return os.link(one, other)
    except OSError:
        pass  # (it lies on another disk)
    return shutil.copy2(one, other)


def copy_repository(room):
    """A copy without the must-fail edits, and without the trees in which crates are being proved side by side. Checks in it
    begin with what others here kept."""
    for name in ["crates.txt", "HANDLES"]:
        shutil.copy(ROOT / name, room / name)
    shutil.copytree(ROOT / "crates", room / "crates", ignore=shutil.ignore_patterns("must-fail", "work"), copy_function=link_kept)


def rt(folder, words, jobs):
    done = subprocess.run(["rt", *words], cwd=folder, env={**os.environ, "RT_JOBS": str(jobs)}, stdin=subprocess.DEVNULL,
                          stdout=subprocess.PIPE, stderr=subprocess.STDOUT, encoding="utf-8", errors="replace")
    return done.stdout, done.returncode


def copy_work(one, other):
    shutil.rmtree(other, ignore_errors=True)
    shutil.copytree(one, other, copy_function=link_kept)


class Planted:
    """The crate's sources with some bugs, which are taken out again."""

    def __init__(self, folder, plants):
        self.folder, self.plants, self.was = folder, plants, {}

    def __enter__(self):
        for plant in self.plants:
            for path, text in plant.texts(self.folder).items():
                self.was.setdefault(path, (self.folder / path).read_text(encoding="utf-8"))
                (self.folder / path).write_text(text, encoding="utf-8")

    def __exit__(self, *_):
        for path, text in self.was.items():
            (self.folder / path).write_text(text, encoding="utf-8")


# ---- proofs

def groups(plants, folder):
    """Parts of the bugs, each with at most one in a function, and nothing beside one that is in no function or whose old text
    isn't told from what another one puts in."""
    parts = []
    for plant in plants:
        for part, texts in parts:
            if "::" in plant.function and all("::" in it.function and it.function != plant.function for it in part):
                more, wrong = plant.applied(texts, lambda path: (folder / path).read_text(encoding="utf-8"))
                if not wrong:
                    part.append(plant)
                    texts.update(more)
                    break
        else:
            parts.append(([plant], plant.texts(folder)))
    return [part for part, _ in parts]


def try_proofs(room, crate, plants, jobs, keep):
    folder = room / "crates" / crate
    work, seed = folder / "out/incremental", folder / "out/seed"
    said, status = rt(folder, ["check", "--jobs", str(jobs)], jobs)
    if status:
        sys.exit(f"{crate} isn't proved without a bug:\n{said[-2000:]}")
    copy_work(work, seed)
    for part in groups(plants, folder):
        copy_work(seed, work)
        with Planted(folder, part):
            said, _ = rt(folder, ["check", "--jobs", str(jobs)], jobs)
        keep(said)
        for plant in part:
            plant.kind, plant.said = judged(plant, said)
    copy_work(seed, work)
    alone = [plant for plant in plants if plant.kind == "unread"]
    if alone:
        try_alone(room, crate, alone, jobs, keep)


def judged(plant, said):
    """What a check made of a bug, and the first goal or error that it named."""
    found = re.search(rf"^fn {re.escape(plant.function)}: (.*)", said, re.M)
    if not found:
        return "unread", said[:300]
    if found[1] == "proved":
        return "proved", ""
    if goals := re.search(r"`search` did not prove [^;]*", found[1]):
        return "refused", goals[0]
    folder = "/".join(plant.function.split("::")[1:])
    errors = re.findall(rf"^\./proofs/{re.escape(folder)}/(\w+\.antt:\d+:\d+: error: .*)", said, re.M)
    true = [error for error in errors if not NAMES_ONLY.search(error)]
    if errors:
        return ("refused", true[0]) if true else ("script", errors[0])
    # (it may wait for the proof of a function that it calls)
    return "unread", found[1]


def try_alone(room, crate, plants, jobs, keep):
    """Tries the bugs as must-fail edits, each by itself."""
    folder = room / "crates" / crate / "must-fail"
    folder.mkdir()
    for number, plant in enumerate(plants, 1):
        (folder / f"plant_{number:02}.edit").write_text("\n".join(plant.lines) + "\n", encoding="utf-8")
    said, _ = rt(room, ["must-fail", crate], jobs)
    keep(said)
    for number, plant in enumerate(plants, 1):
        found = re.search(rf"must-fail {crate}/plant_{number:02}\.edit: (.*(?:\n(?!rt: ).*)*)", said)
        plant.kind, plant.said = judged_alone(found[1] if found else said)
    shutil.rmtree(folder)


def judged_alone(said):
    if said.startswith("refused, as it must be (only because a proof file names"):
        return "script", said.split("): ", 1)[-1]
    if said.startswith("refused, as it must be"):
        return "refused", said.split(": ", 1)[-1]
    if said.startswith("NOT REFUSED"):
        return "proved", ""
    return "unread", " ".join(said.split())[:300]


# ---- tests

def stands_on(crate, below):
    """Whether a crate stands on another, by crates.txt, or is it."""
    lines = (line.split("#")[0].partition(":") for line in (ROOT / "crates.txt").read_text(encoding="utf-8").splitlines())
    uses = {name.strip(): words.split() for name, _, words in lines}
    return crate == below or any(stands_on(other, below) for other in uses.get(crate, []))


def failures(said):
    """What the tests that failed said. One that only ran out of time caught nothing: the bug may be that it is slow."""
    blocks = re.findall(r"^test .* FAILED\n(?: .*\n)*", said, re.M)
    return [block for block in blocks if "did not end within the time limit" not in block]


def try_tests(room, plant):
    """The first suite of tests that fails with the bug, or None."""
    with Planted(room / "crates" / plant.crate, [plant]):
        for suite in (name for name in SUITES if stands_on(name, plant.crate)):
            said, status = rt(room / "crates" / suite, ["try", "--test"], 1)
            if status == 2 or "error[" in said:
                plant.kind, plant.said = "unread", said[:300]
                return None
            if failed := failures(said):
                plant.said = failed[0].split("\n")[0]
                return suite
            if status and "FAILED" not in said:
                plant.said = said[-200:]
                return suite
            plant.said += " (tests ran out of time)" if "FAILED" in said else ""
    return None


# ---- what is told

def untold(plant):
    return plant.kind in ("proved", "script", None) and not plant.caught or plant.kind == "unread"


def tell(crate, plants, tested):
    count = lambda kind: sum(plant.kind == kind for plant in plants)
    print(f"\n{crate}: {len(plants)} planted, {count('refused')} refused by a proof, {count('script')} only by a proof's names, "
          f"{count('proved')} still proved, {count('unread')} not compiled")
    for plant in plants:
        caught = f", caught by a test of {plant.caught}" if plant.caught else ""
        if untold(plant) and plant.kind != "unread":
            caught = ", CAUGHT BY NO TEST" if tested else ", not tried by tests"
        print(f"  {plant.kind or 'no proof was asked'}{caught}: {plant.title}\n      {plant.function.split('::', 1)[-1]}: {' '.join(plant.said.split())[:150]}", flush=True)


def main(words):
    if {"-h", "--help"} & {*words}:
        print(__doc__)
        return 0
    jobs, log, alone, only, asked = 2, None, False, "", {"--proofs", "--tests"}
    while words and words[0].startswith("--"):
        flag = words.pop(0)
        if flag == "--alone":
            alone = True
        elif flag in asked and len(asked) == 2:
            asked = {flag}
        elif flag == "--jobs":
            jobs = int(words.pop(0))
        elif flag == "--log":
            log = Path(words.pop(0))
        elif flag == "--only":
            only = words.pop(0)
        else:
            sys.exit(__doc__)
    keep = lambda said: log and log.open("a", encoding="utf-8").write(said + "\n")
    crates = words or sorted(path.stem for path in PLANTS.glob("*.txt"))
    planted = {crate: [plant for plant in plants_of(crate) if re.search(only, plant.title)] for crate in crates}
    with tempfile.TemporaryDirectory(prefix="connect-plants-") as made:
        room = Path(made)
        copy_repository(room)
        for crate, plants in planted.items():
            if "--proofs" in asked:
                (try_alone if alone else try_proofs)(room, crate, plants, jobs, keep)
            for plant in plants if "--tests" in asked else []:
                if plant.kind in ("proved", "script", None):
                    plant.caught = try_tests(room, plant)
            tell(crate, plants, "--tests" in asked)
    every = [plant for plants in planted.values() for plant in plants]
    print(f"\n{len(every)} planted, {sum(map(untold, every))} neither refused nor caught")
    return 1 if any(map(untold, every)) else 0


if __name__ == "__main__":
    sys.exit(main(sys.argv[1:]))
