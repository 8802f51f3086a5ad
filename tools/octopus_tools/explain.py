"""`explain`: runs the program on a file, and shows where and why it refuses. Needs no
package."""
from __future__ import annotations

import mmap
import re
from dataclasses import dataclass
from enum import Enum
from pathlib import Path
from typing import BinaryIO, Iterator

from .errors import UserError
from .grammar import spot
from .limits import MOST_MESH_BYTES, MOST_SCRIPT_BYTES
from .program import Outcome, Program, Refused
from .refusals import MESH_KINDS, SCRIPT_KINDS, Advice, Refusal, What

PIECE = 1 << 20
AROUND = 60   # bytes of a line that are shown on each side of the place
TOKEN = re.compile(rb"[^ \t\n\r\x0b\x0c]+")


class FileKind(Enum):
    """What a file is meant to be."""

    MESH = "mesh"
    SCRIPT = "script"


def kind_of(path: Path) -> FileKind:
    """What a file seems to be, by its front and else by its name."""
    try:
        with path.open("rb") as file:
            front = file.read(64)
    except OSError as error:
        raise UserError(f"{path}: {error.strerror}") from error
    if front.lstrip().lower().startswith(b"octopus"):
        return FileKind.SCRIPT
    if b"vtk" in front.lower() or path.suffix.lower() == ".vtk":
        return FileKind.MESH
    return FileKind.SCRIPT if path.suffix.lower() == ".txt" else FileKind.MESH


@dataclass(frozen=True)
class Explained:
    """What was found: lines to print, and whether the files were accepted."""

    lines: list[str]
    accepted: bool


def explain(program: Program, files: list[tuple[FileKind, Path]]) -> Explained:
    """Explains a mesh, a script, or both (then also whether the script fits the mesh)."""
    paths = dict(files)
    if len(paths) != len(files):
        raise UserError("two files have to be a mesh and a script, and these seem to be of one "
                        "kind")
    outcome = _ask(program, paths)
    names = " and ".join(str(path) for path in paths.values())
    if outcome.status == 0:
        together = " together" if len(paths) == 2 else ""
        return Explained([f"{names}: accepted{together}"], True)
    refusal = outcome.refusal
    if refusal is None or refusal.what in (What.USAGE, What.STEP):
        raise Refused(outcome)
    is_script = refusal.what in (What.SCRIPT, What.LONG_SCRIPT)
    path = paths[FileKind.SCRIPT if is_script else FileKind.MESH]
    return Explained(list(_told(path, refusal)), False)


def _ask(program: Program, paths: dict[FileKind, Path]) -> Outcome:
    mesh, script = paths.get(FileKind.MESH), paths.get(FileKind.SCRIPT)
    if mesh is None:
        return program.ask("upgrade", str(script))
    if script is None:
        return program.ask("scan", str(mesh), *["0"] * 6)
    return program.ask("step", str(mesh), str(script), "0")


def _told(path: Path, refusal: Refusal) -> Iterator[str]:
    if refusal.what in (What.LONG_MESH, What.LONG_SCRIPT):
        yield from _too_long(path, refusal.what)
    elif refusal.what is What.MESH:
        yield from _mesh_fault(path, refusal)
    else:
        yield from _script_fault(path, refusal)


def _too_long(path: Path, what: What) -> Iterator[str]:
    most = MOST_MESH_BYTES if what is What.LONG_MESH else MOST_SCRIPT_BYTES
    yield f"{path}: refused, too long: {path.stat().st_size:,} bytes"
    yield f"The program reads at most {most:,}."
    yield ("What to do: drop attributes and what else isn't needed, or take a part of the mesh."
           if what is What.LONG_MESH else "What to do: split the script into several runs.")


# ---------------------------------------------------------------- a mesh


def _mesh_fault(path: Path, refusal: Refusal) -> Iterator[str]:
    number, start, line = line_at(path, refusal.place)
    column = refusal.place - start
    yield (f"{path}: refused, {refusal.kind} at byte {refusal.place} "
           f"(line {number}, column {column + 1})")
    yield from pointed(number, line, column)
    if refusal.kind in ("CellType", "CellSize", "SameVertex"):
        yield from _which_cell(path, refusal.place)
    yield from _advised(MESH_KINDS.get(refusal.kind))


def _advised(advice: Advice | None) -> Iterator[str]:
    if advice is None:
        yield "This kind of fault isn't known here; the program is newer than these tools."
        return
    yield advice.means
    yield f"What to do: {advice.what_to_do}"


def line_at(path: Path, place: int) -> tuple[int, int, bytes]:
    """The number (from 1), the first byte and the bytes of the line that a byte is on; a
    place at the end of the text is on its last line. A line is read up to some bytes
    past the place alone."""
    with path.open("rb") as file:
        number, start, done = 1, 0, 0
        while done < place:
            piece = file.read(min(PIECE, place - done))
            if not piece:
                break
            ends = piece.count(b"\n")
            if ends:
                number += ends
                start = done + piece.rfind(b"\n") + 1
            done += len(piece)
        if start == place and number > 1 and not file.read(1):
            # the end, behind the LF of the last line: show that line
            start = _line_before(file, place)
            number -= 1
        file.seek(start)
        line = file.readline(place - start + 2 * AROUND)
    return number, start, line.rstrip(b"\r\n")


def _line_before(file: BinaryIO, place: int) -> int:
    """The first byte of the line whose LF is the last byte before the place."""
    end = place - 1
    start = end
    while start > 0:
        low = max(0, start - PIECE)
        file.seek(low)
        found = file.read(start - low).rfind(b"\n")
        if found >= 0:
            return low + found + 1
        start = low
    return 0


def pointed(number: int, line: bytes, column: int) -> Iterator[str]:
    """The line with its number, and a caret under a byte of it; each byte is one
    character, and a long line is cut."""
    low = max(0, column - AROUND)
    text = "".join(chr(byte) if 32 <= byte < 127 else (" " if byte == 9 else ".")
                   for byte in line[low:column + AROUND])
    cut = "..." if low else ""
    rest = "..." if len(line) > column + AROUND else ""
    yield f"{number:>6} | {cut}{text}{rest}"
    yield f"{'':>6} | {' ' * (len(cut) + column - low)}^"


def _which_cell(path: Path, place: int) -> Iterator[str]:
    """Which cell a type belongs to, and its points where the text is of the old form."""
    with path.open("rb") as file, mmap.mmap(file.fileno(), 0, access=mmap.ACCESS_READ) as text:
        types = None
        for types in re.finditer(rb"(?i)\bCELL_TYPES\s+[0-9]+", text):
            if types.end() > place:
                return
            cell = sum(1 for _ in TOKEN.finditer(text, types.end(), place))
        if types is None:
            return
        yield f"This is the type of cell {cell} (all cells of the file, counted from 0)."
        corners = _corners(text, cell, types.start())
        if corners is not None:
            number = text[:corners[0]].count(b"\n") + 1
            yield f"Its points are {' '.join(corners[1])} (line {number})."


def _corners(text: mmap.mmap, cell: int, end: int) -> tuple[int, list[str]] | None:
    """Where a cell stands in the old form, and its point numbers."""
    header = re.search(rb"(?i)\bCELLS\s+[0-9]+\s+[0-9]+", text)
    if header is None:
        return None
    tokens = TOKEN.finditer(text, header.end(), end)
    try:
        for _ in range(cell):
            for _ in range(int(next(tokens).group())):
                next(tokens)
        first = next(tokens)
        count = min(int(first.group()), 20)
        return first.start(), [next(tokens).group().decode("ascii") for _ in range(count)]
    except (StopIteration, ValueError, UnicodeDecodeError):
        return None


# ---------------------------------------------------------------- a script


def _script_fault(path: Path, refusal: Refusal) -> Iterator[str]:
    line = script_line(path, refusal.place)
    found = spot(refusal.kind, line)
    yield f"{path}: refused, {refusal.kind} on line {refusal.place}"
    yield from pointed(refusal.place, line, found.column)
    if found.note:
        yield found.note
    yield from _advised(SCRIPT_KINDS.get(refusal.kind))


def script_line(path: Path, number: int) -> bytes:
    """A line of a script (from 1) without its end; empty where there is none."""
    with path.open("rb") as file:
        for count, line in enumerate(file, start=1):
            if count == number:
                return line.rstrip(b"\n").removesuffix(b"\r")
    return b""
