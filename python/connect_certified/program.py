"""Finds the program and runs it."""

from __future__ import annotations

import os
import re
import subprocess
from pathlib import Path
from typing import Sequence, Union

from .errors import BY_STATUS, BadAnswer, NoProgram

Program = Union[str, "os.PathLike[str]", None]
# The folder of a checkout, where the package stands in one.
CHECKOUT = Path(__file__).resolve().parents[2]


def find(program: Program = None) -> str:
    """The program that is asked: the argument, else the environment's CONNECT, else `connect` of the checkout."""
    if program is not None:
        return os.fspath(program)
    named = os.environ.get("CONNECT")
    if named:
        return named
    if (CHECKOUT / "crates.txt").is_file() and (CHECKOUT / "connect").is_file():
        return str(CHECKOUT / "connect")
    raise NoProgram("no program: pass program=, set CONNECT, or use the package in a checkout of connect")


def run(program: Program, words: Sequence[str], text: str = "") -> tuple[str, int]:
    """What the program writes to the words and the input, and its status, 0 or 1; else its refusal is raised.

    Standard error is left to the caller's, since a first use of `./connect` tells there that it builds.
    """
    path = find(program)
    try:
        # A text that is no UTF-8 is the program's to refuse.
        data = text.encode("utf-8", "surrogatepass")
        done = subprocess.run([path, *words], input=data, stdout=subprocess.PIPE, check=False)
    except OSError as error:
        raise NoProgram(f"the program {path!r} can't be run: {error}") from error
    said = done.stdout.decode("ascii", "backslashreplace")
    if done.returncode in (0, 1):
        return said, done.returncode
    kind = BY_STATUS.get(done.returncode)
    if kind is None:
        raise BadAnswer(f"{path!r} ended with {done.returncode}, which is no status of connect, and wrote {said[:200]!r}")
    if not re.fullmatch(kind.form, said):
        raise BadAnswer(f"{path!r} ended with {done.returncode} and wrote {said[:200]!r}")
    raise kind(said[:-1] if said.endswith("\n") else said, done.returncode)


def accept(program: Program, graph_text: str, certificate: str) -> None:
    """Has the program check a certificate; raises Rejected where it doesn't accept it."""
    said, status = run(program, ["check"], graph_text + certificate)
    if (said, status) != ("accepted\n", 0):
        raise BadAnswer(f"{find(program)!r} checked a certificate, wrote {said[:200]!r} and ended with {status}")
