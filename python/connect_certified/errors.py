"""What can go wrong: each refusal of the program by its exit status, and what is refused before the program is asked."""

from __future__ import annotations

from typing import Any, Optional


class ConnectError(Exception):
    """All errors of this package."""


class NoProgram(ConnectError):
    """No program was named and none stands in the checkout, or what was named can't be run."""


class BadAnswer(ConnectError):
    """The program wrote what its documents don't have: another program, or a mistake here."""


class Differs(ConnectError):
    """The program accepts the certificate, but the answer's fields aren't those that the certificate has."""


class Unwritable(ConnectError, ValueError):
    """A graph text can't hold this. `place` is the edge, or the node, in the caller's own terms."""

    def __init__(self, message: str, place: Any = None) -> None:
        super().__init__(message)
        self.place = place


class SelfLoop(Unwritable):
    """An edge with two equal ends. `place` is the edge: its index in a list, else (u, v) or (u, v, key)."""


class Refusal(ConnectError):
    """The program's refusal: `line` is what it wrote, `status` its exit status."""

    # What the program writes then, as a regular expression.
    form = ""

    def __init__(self, line: str, status: int) -> None:
        super().__init__(f"{line or type(self).__name__} (exit {status})")
        self.line, self.status = line, status

    def __reduce__(self) -> Any:
        # An exception is else made again from its message alone, as where it comes from another process.
        return type(self), (self.line, self.status)


class Rejected(Refusal):
    """`check` doesn't accept the certificate. `reason` is malformed, infeasible, dual or gap; `place` a malformed line."""

    form = r"rejected (malformed [1-9][0-9]*|infeasible|dual|gap)\n"

    @property
    def reason(self) -> str:
        return self.line.split()[1]

    @property
    def place(self) -> Optional[int]:
        return int(self.line.split()[2]) if self.reason == "malformed" else None


class BadWords(Refusal):
    """The words fit no command, as where K isn't from 1 to 32: `words PLACE`."""

    form = r"words [1-9][0-9]*\n"


class BadGraph(Refusal):
    """The graph text is faulty: `graph LINE WHY`. A graph without nodes is `graph 2 nonode`."""

    form = r"graph [1-9][0-9]* [a-z]+\n"


class TooLarge(Refusal):
    """More nodes, edges, numbers or costs than the limits: `large WHAT`."""

    form = r"large [a-z]+\n"


class Unsuited(Refusal):
    """The command can't be asked of this graph: `unsuited kind`, `node`, `same` or `small`."""

    form = r"unsuited [a-z]+\n"


class ReadFault(Refusal):
    """The program couldn't read its input."""


class WriteFault(Refusal):
    """The program couldn't write its answer; `line` is the part that it wrote."""

    form = r"(?s:.*)"


class NoMemory(Refusal):
    """The program was refused memory."""


class WordsNotTaken(Refusal):
    """The system refused the command's words."""


class NotBuilt(Refusal):
    """`./connect` couldn't build the program; what it said is on standard error."""


BY_STATUS = {2: Rejected, 3: BadWords, 4: BadGraph, 5: TooLarge, 6: Unsuited, 7: ReadFault, 8: WriteFault, 9: NoMemory,
             10: WordsNotTaken, 70: NotBuilt}
