"""The clearing program's output, read line by line: T, R, C and F lines, each with its line number.

What is not of the paper's form is a problem, told by its line, and reading goes on behind it."""

import re
from typing import NamedTuple

from .figures import counted


class Report(NamedTuple):
    """An R line."""

    to: int
    code: int
    order: int
    amount: int
    line: int


class Answer(NamedTuple):
    """A T line and the R lines below it."""

    number: int
    refusal: int
    report_count: int
    rows: int
    reports: list[Report]
    line: int


class Parts(NamedTuple):
    """The three parts of a cover: what they are, or how they change."""

    available: int = 0
    reserved: int = 0
    held: int = 0


class Position(NamedTuple):
    """A C line."""

    number: int
    available: int
    reserved: int
    held: int
    line: int

    def parts(self) -> Parts:
        return Parts(self.available, self.reserved, self.held)


class Output(NamedTuple):
    """All that the program printed, and what is not of the paper's form."""

    refusal: int | None
    answers: list[Answer]
    positions: list[Position]
    problems: list[str]


FORMS = {"T": 4, "R": 4, "C": 4, "F": 1}
NUMBER = re.compile(r"0|[1-9][0-9]*", re.ASCII)


def numbers(line: str) -> tuple[str, list[int]] | None:
    """The letter and the numbers of a line of the paper's form, else None."""
    letter, *words = line.split(" ")
    if FORMS.get(letter) != len(words) or not all(NUMBER.fullmatch(word) and len(word) < 40 for word in words):
        return None
    return letter, [int(word) for word in words]


def read(text: str) -> Output:
    out = Output(None, [], [], [])
    refusal = None
    if text and not text.endswith("\n"):
        out.problems.append("the last line of the output has no end: the output was cut off")
    for at, line in enumerate(text.split("\n")[: text.count("\n") + (not text.endswith("\n"))], 1):
        if line == "" and at > text.count("\n"):
            continue
        form = numbers(line)
        if form is None:
            out.problems.append(f"line {at} of the output is none of the program's: {line[:60]!r}")
            continue
        letter, found = form
        if letter == "F":
            refusal = found[0]
            if at > 1 or text.count("\n") > 1:
                out.problems.append(f"line {at}: a refused file prints its F line alone")
        elif out.positions and letter != "C":
            out.problems.append(f"line {at}: {letter} behind the C lines")
        elif letter == "T":
            out.answers.append(Answer(found[0], found[1], found[2], found[3], [], at))
        elif letter == "C":
            out.positions.append(Position(found[0], found[1], found[2], found[3], at))
        elif out.answers:
            out.answers[-1].reports.append(Report(found[0], found[1], found[2], found[3], at))
        else:
            out.problems.append(f"line {at}: a report before the first ticket's line")
    numbered(out)
    return out._replace(refusal=refusal)


def numbered(out: Output) -> None:
    """Lines are numbered from 0 on, and each ticket has as many reports as its line says."""
    lines = [("T", n, a.number, a.line) for n, a in enumerate(out.answers)]
    lines += [("C", n, p.number, p.line) for n, p in enumerate(out.positions)]
    for kind, n, number, line in lines:
        if number != n:
            out.problems.append(f"line {line}: {kind} {number} where {kind} {n} was due")
    for answer in out.answers:
        if answer.report_count != len(answer.reports):
            said, there = counted(answer.report_count, "report"), len(answer.reports)
            out.problems.append(f"line {answer.line}: ticket {answer.number} should have {said}, and has {there}")
