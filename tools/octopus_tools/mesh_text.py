"""The mesh text as the program writes it: read from a stream and written."""
from __future__ import annotations

from dataclasses import dataclass
from pathlib import Path
from typing import BinaryIO, Iterator

import numpy as np

from .arrays import Flags, Ints
from .errors import UserError
from .progress import Progress

PIECE = 1 << 20
ROWS = 1 << 16  # rows that are handled at a time
TETRAHEDRON = b"10"


@dataclass(frozen=True)
class Mesh:
    """A mesh of tetrahedra in whole coordinates.

    `points` has shape (n, 3), `cells` shape (m, 4) with point numbers below n;
    both are int32, so a cell takes 16 bytes and a point 12.
    """

    points: Ints
    cells: Ints

    def vertices(self) -> Flags:
        """For each point whether some cell has it."""
        has = np.zeros(len(self.points), dtype=bool)
        for part in chunks(self.cells):
            has[part.ravel()] = True
        return has


def chunks(rows: Ints, size: int = ROWS) -> Iterator[Ints]:
    """The rows in order, so many at a time, without a copy."""
    for start in range(0, len(rows), size):
        yield rows[start:start + size]


class _Text:
    """Lines of a stream, one at a time or as blocks of numbers."""

    def __init__(self, stream: BinaryIO) -> None:
        self._stream = stream
        self._kept = b""

    def line(self) -> bytes:
        """The next line without its LF."""
        while (end := self._kept.find(b"\n")) < 0:
            if not self._more():
                raise UserError("the mesh text ends too early")
        line, self._kept = self._kept[:end], self._kept[end + 1:]
        return line

    def blocks(self, lines: int) -> Iterator[tuple[bytes, int]]:
        """So many lines, in pieces of whole lines with the number of each piece."""
        left = lines
        while left:
            piece, count = self._whole_lines(left)
            left -= count
            if count:
                yield piece, count
            elif not self._more():
                raise UserError("the mesh text ends too early")

    def _whole_lines(self, most: int) -> tuple[bytes, int]:
        count = self._kept.count(b"\n")
        if count > most:
            ends = np.flatnonzero(np.frombuffer(self._kept, dtype=np.uint8) == 10)
            cut, count = int(ends[most - 1]) + 1, most
        else:
            cut = self._kept.rfind(b"\n") + 1
        piece, self._kept = self._kept[:cut], self._kept[cut:]
        return piece, count

    def _more(self) -> bool:
        piece = self._stream.read(PIECE)
        self._kept += piece
        return bool(piece)


def _header(text: _Text, word: bytes, numbers: int) -> list[int]:
    words = text.line().split()
    if len(words) < 1 + numbers or words[0] != word:
        raise UserError(f"the mesh text has no line {word.decode()} where it has to come")
    return [int(value) for value in words[1:1 + numbers]]


def _fill(text: _Text, rows: Ints, skip: int, progress: Progress) -> None:
    """Reads lines of numbers into the rows, without the first `skip` of each line."""
    width = rows.shape[1] + skip
    start = 0
    for piece, count in text.blocks(len(rows)):
        values = np.fromstring(piece.decode("ascii"), dtype=np.int64, sep=" ")
        if len(values) != count * width:
            raise UserError("a line of the mesh text has another number of numbers")
        rows[start:start + count] = values.reshape(count, width)[:, skip:]
        start += count
        progress.step(count)


def read_mesh(stream: BinaryIO, label: str = "mesh") -> Mesh:
    """The mesh of a text that the program wrote. It takes the mesh and about ten
    times `PIECE` besides, whatever the length of the text."""
    text = _Text(stream)
    for _ in range(4):
        text.line()
    with Progress(f"reading {label}, lines") as progress:
        (point_count,) = _header(text, b"POINTS", 1)
        points = np.empty((point_count, 3), dtype=np.int32)
        _fill(text, points, 0, progress)
        (cell_count, _) = _header(text, b"CELLS", 2)
        cells = np.empty((cell_count, 4), dtype=np.int32)
        _fill(text, cells, 1, progress)
        _check_types(text, cell_count, progress)
    if cell_count and not 0 <= int(cells.min()) <= int(cells.max()) < point_count:
        raise UserError("the mesh text names a point that isn't there")
    return Mesh(points, cells)


def _check_types(text: _Text, cell_count: int, progress: Progress) -> None:
    (types,) = _header(text, b"CELL_TYPES", 1)
    if types != cell_count:
        raise UserError("the mesh text has another number of types than of cells")
    for piece, count in text.blocks(types):
        if piece.split() != [TETRAHEDRON] * count:
            raise UserError("the mesh text has a cell that is no tetrahedron")
        progress.step(count)


def write_mesh(out: BinaryIO, title: str, mesh: Mesh) -> int:
    """Writes the mesh in a form that the program reads; gives the number of bytes."""
    with Progress("writing, lines", len(mesh.points) + 2 * len(mesh.cells)) as progress:
        written = out.write((f"# vtk DataFile Version 3.0\n{title}\nASCII\n"
                             "DATASET UNSTRUCTURED_GRID\n"
                             f"POINTS {len(mesh.points)} int\n").encode("ascii"))
        written += _put_rows(out, "%d %d %d\n", mesh.points, progress)
        written += out.write(f"CELLS {len(mesh.cells)} {5 * len(mesh.cells)}\n".encode("ascii"))
        written += _put_rows(out, "4 %d %d %d %d\n", mesh.cells, progress)
        written += out.write(f"CELL_TYPES {len(mesh.cells)}\n".encode("ascii"))
        for part in chunks(mesh.cells):
            written += out.write(b"10\n" * len(part))
            progress.step(len(part))
    return written


def _put_rows(out: BinaryIO, form: str, rows: Ints, progress: Progress) -> int:
    written = 0
    for part in chunks(rows):
        text = (form * len(part)) % tuple(part.ravel().tolist())
        written += out.write(text.encode("ascii"))
        progress.step(len(part))
    return written


def read_title(path: Path) -> str:
    """The title of a mesh file, its second line; empty where there is none."""
    try:
        with path.open("rb") as file:
            file.readline(300)
            return file.readline(300).decode("utf-8", "replace").rstrip("\r\n")
    except OSError as error:
        raise UserError(f"{path}: {error.strerror}") from error
