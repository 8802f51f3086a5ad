"""The report of a run, read without holding its answers."""
from __future__ import annotations

import re
from dataclasses import dataclass, field
from enum import Enum
from pathlib import Path
from typing import TYPE_CHECKING, BinaryIO, Iterator

from .errors import UserError
from .journal import Event, parse_event

if TYPE_CHECKING:
    from .arrays import Ints

FIRST = b"octopus report 1\n"
BOX = re.compile(rb"box ([0-9]+) step ([0-9]+) route (probe|walk|scan) count ([0-9]+)\n")
SESSION = re.compile(rb"session ([0-9]+) boxes ([0-9]+)\n")


class Route(Enum):
    """How an answer was found."""

    PROBE = "probe"
    WALK = "walk"
    SCAN = "scan"


@dataclass(frozen=True, slots=True)
class Answer:
    """Where an answer stands in a report; `place` is the byte of its list of
    vertices, which `Report.vertices` reads."""

    session: int
    box: int
    step: int
    route: Route
    count: int
    place: int


@dataclass
class Report:
    """A report: its numbers, where its answers stand, and where its journal begins.

    Takes about a hundred bytes for each box; vertices and events stay in the file.
    """

    path: Path
    steps: int = 0
    answers: list[list[Answer]] = field(default_factory=list)
    events: int = 0
    journal_place: int = 0
    journal_line: int = 0

    def answer(self, session: int, box: int) -> Answer:
        """The answer of a box; raises where there is none."""
        if not 0 <= session < len(self.answers):
            raise UserError(f"the report has {len(self.answers)} sessions, numbered from 0")
        if not 0 <= box < len(self.answers[session]):
            raise UserError(f"session {session} has {len(self.answers[session])} boxes, "
                            "numbered from 0")
        return self.answers[session][box]

    def vertices(self, answer: Answer) -> Ints:
        """The vertices of an answer, ascending (int64)."""
        import numpy as np

        if answer.count == 0:
            return np.empty(0, dtype=np.int64)
        with _open(self.path) as file:
            file.seek(answer.place)
            line = file.readline()
        values = np.fromstring(line.decode("ascii", "replace"), dtype=np.int64, sep=" ")
        if len(values) != answer.count:
            raise UserError(f"{self.path}: box {answer.box} of session {answer.session} says "
                            f"{answer.count} vertices and lists {len(values)}")
        return values

    def journal(self) -> Iterator[tuple[int, Event]]:
        """The events in order, each with its line in the file."""
        with _open(self.path) as file:
            file.seek(self.journal_place)
            for index in range(self.events):
                number = self.journal_line + index
                line = file.readline().decode("ascii", "replace").rstrip("\n")
                try:
                    yield number, parse_event(line)
                except UserError as error:
                    raise UserError(f"{self.path}: line {number}: {error}") from None
            if file.readline() != b"end\n":
                raise UserError(f"{self.path}: the journal has another number of events than "
                                f"{self.events}, or the report has no end")


def _open(path: Path) -> BinaryIO:
    try:
        return path.open("rb")
    except OSError as error:
        raise UserError(f"{path}: {error.strerror}") from error


class _Lines:
    """The lines of a report with their numbers and places."""

    def __init__(self, path: Path, file: BinaryIO) -> None:
        self.path = path
        self.file = file
        self.number = 0
        self.place = 0

    def next(self) -> bytes:
        line = self.file.readline()
        self.number += 1
        self.place += len(line)
        return line

    def wrong(self, what: str) -> UserError:
        return UserError(f"{self.path}: line {self.number}: {what}")

    def number_after(self, word: bytes) -> int:
        match = re.fullmatch(re.escape(word) + rb" ([0-9]+)\n", self.next())
        if match is None:
            raise self.wrong(f"`{word.decode()} NUMBER` has to stand here")
        return int(match[1])


def read_report(path: Path) -> Report:
    """The report in a file; its answers are passed over, and their places kept."""
    with _open(path) as file:
        lines = _Lines(path, file)
        if lines.next() != FIRST:
            raise UserError(f"{path}: no report: line 1 isn't `{FIRST.decode().strip()}`")
        report = Report(path, steps=lines.number_after(b"steps"))
        for session in range(lines.number_after(b"sessions")):
            report.answers.append(_read_session(lines, session, report.steps))
        report.events = lines.number_after(b"journal")
        report.journal_place, report.journal_line = lines.place, lines.number + 1
    return report


def _read_session(lines: _Lines, session: int, steps: int) -> list[Answer]:
    match = SESSION.fullmatch(lines.next())
    if match is None or int(match[1]) != session:
        raise lines.wrong(f"`session {session} boxes NUMBER` has to stand here")
    return [_read_box(lines, session, box, steps) for box in range(int(match[2]))]


def _read_box(lines: _Lines, session: int, box: int, steps: int) -> Answer:
    match = BOX.fullmatch(lines.next())
    if match is None or int(match[1]) != box:
        raise lines.wrong(f"the line of box {box} has to stand here")
    step, count = int(match[2]), int(match[4])
    if step > steps:
        raise lines.wrong(f"step {step} isn't there")
    place = lines.place
    if count and not lines.next().endswith(b"\n"):
        raise lines.wrong("the report ends too early")
    return Answer(session, box, step, Route(match[3].decode()), count, place)
