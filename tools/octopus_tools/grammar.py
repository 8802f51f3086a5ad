"""The lines of a script and the ranges of their values, to point at a wrong one."""
from __future__ import annotations

import re
from dataclasses import dataclass

from .limits import MOST_COORDINATE, MOST_NUMBER, MOST_NUMBER_BYTES, MOST_STEPS

SIGNED = re.compile(rb"[+-]?[0-9]+")
WORD = re.compile(rb"[^ \t]+")
AXES = (b"x", b"y", b"z")


@dataclass(frozen=True)
class Value:
    """A value of a line: its name and its range. An axis has no range."""

    name: str
    least: int = 0
    most: int = 0
    is_axis: bool = False

    def fault(self, text: bytes) -> str | None:
        """The kind of fault of this text for the value, or None."""
        if self.is_axis:
            return None if text in AXES else "Word"
        if len(text) > MOST_NUMBER_BYTES or SIGNED.fullmatch(text) is None:
            return "Number"
        return None if self.least <= int(text) <= self.most else "Range"

    def allowed(self) -> str:
        """What the value may be, in words."""
        if self.is_axis:
            return f"{self.name} is x, y or z"
        return f"{self.name} is a whole number from {self.least} to {self.most}"


def _coordinates(*names: str) -> tuple[Value, ...]:
    return tuple(Value(name, -MOST_COORDINATE, MOST_COORDINATE) for name in names)


def _numbers(*names: str) -> tuple[Value, ...]:
    return tuple(Value(name, 0, MOST_NUMBER) for name in names)


LINES: dict[bytes, tuple[Value, ...]] = {
    b"point": _coordinates("x", "y", "z"),
    b"add": _numbers("a", "b", "c", "d"),
    b"remove": _numbers("i"),
    b"split": _numbers("i") + _coordinates("x", "y", "z"),
    b"stay": (),
    b"shift": _coordinates("dx", "dy", "dz"),
    b"pull": _coordinates("x", "y", "z") + (Value("num", -1024, 1024), Value("den", 1, 1024)),
    b"shake": (Value("seed", 0, 65535), Value("amp", 0, 1000)),
    b"relax": (),
    b"turn": (Value("the axis", is_axis=True),),
    b"session": (),
    b"wait": (Value("k", 0, MOST_STEPS),),
    b"box": _coordinates("x0", "y0", "z0", "x1", "y1", "z1"),
    b"hold": (),
    b"free": (),
    b"end": (),
}


@dataclass(frozen=True)
class Spot:
    """A place on a line, counted from 0, and what may be said of it."""

    column: int
    note: str = ""


def spot(kind: str, line: bytes) -> Spot:
    """Where on its line a fault of this kind stands. The program names the line; this
    finds the word."""
    words = [(match.start(), match.group()) for match in WORD.finditer(line)]
    if not words:
        return Spot(0)
    values = LINES.get(words[0][1])
    if kind == "Truncated":
        return Spot(len(line))
    if kind == "Header" or values is None:
        return Spot(words[0][0])
    if kind == "Word" and len(words) != 1 + len(values):
        return _wrong_length(line, words, values)
    if kind in ("Word", "Number", "Range"):
        return _wrong_value(kind, words, values)
    if kind == "Box":
        return _wrong_box(words)
    if kind == "SameVertex":
        texts = [int(text) for _, text in words[1:]]
        again = next((i for i, text in enumerate(texts) if text in texts[:i]), 0)
        return Spot(words[1 + again][0])
    if kind in ("NoCell", "NoPoint", "NoStep"):
        return Spot(words[1][0])
    return Spot(words[0][0])


def _wrong_length(line: bytes, words: list[tuple[int, bytes]],
                  values: tuple[Value, ...]) -> Spot:
    name = words[0][1].decode("ascii")
    names = " ".join(value.name.removeprefix("the ") for value in values)
    needs = f"`{name}` has {len(values)} values{': ' if names else ''}{names}"
    note = f"{needs}; this line has {len(words) - 1}."
    extra = len(words) - 1 > len(values)
    return Spot(words[1 + len(values)][0] if extra else len(line.rstrip(b" \t")), note)


def _wrong_value(kind: str, words: list[tuple[int, bytes]], values: tuple[Value, ...]) -> Spot:
    for (column, text), value in zip(words[1:], values):
        if value.fault(text) == kind:
            return Spot(column, f"Here {value.allowed()}.")
    return Spot(words[0][0])


def _wrong_box(words: list[tuple[int, bytes]]) -> Spot:
    numbers = [int(text) for _, text in words[1:7]]
    for axis, name in enumerate("xyz"):
        if numbers[axis] > numbers[axis + 3]:
            return Spot(words[1 + axis][0],
                        f"{name}0 is {numbers[axis]}, and {name}1 is {numbers[axis + 3]}.")
    return Spot(words[0][0])
