"""The sessions of a script, from the plain text that `octopus upgrade` prints."""
from __future__ import annotations

from dataclasses import dataclass, field
from pathlib import Path
from typing import BinaryIO

from .program import Program

MOTIONS = frozenset((b"stay", b"shift", b"pull", b"shake", b"relax", b"turn"))


@dataclass(frozen=True, slots=True)
class Box:
    """A box by its low and its high corner; its sides belong to it."""

    low: tuple[int, int, int]
    high: tuple[int, int, int]

    def words(self) -> tuple[str, ...]:
        """The six numbers."""
        return tuple(str(value) for value in self.low + self.high)


@dataclass
class Script:
    """How many steps a script makes, and the boxes of each of its sessions."""

    steps: int = 0
    boxes: list[list[Box]] = field(default_factory=list)


def read_script(program: Program, path: Path) -> Script:
    """The script in a file, read and checked as a text by the program itself."""
    with program.output("upgrade", str(path)) as stream:
        return parse_printed(stream)


def parse_printed(stream: BinaryIO) -> Script:
    """The script of a text that the program printed."""
    script = Script()
    for line in stream:
        words = line.split()
        if words[0] in MOTIONS:
            script.steps += 1
        elif words[0] == b"session":
            script.boxes.append([])
        elif words[0] == b"box":
            x0, y0, z0, x1, y1, z1 = (int(word) for word in words[1:])
            script.boxes[-1].append(Box((x0, y0, z0), (x1, y1, z1)))
    return script
