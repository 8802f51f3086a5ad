"""`prepare`: a mesh of another program as a text that octopus accepts."""
from __future__ import annotations

from collections import Counter
from dataclasses import dataclass, field
from pathlib import Path

import numpy as np

from .arrays import Flags, Ints, Numbers, Reals
from .cut import Shape, cut
from .errors import UserError
from .files import replacing
from .limits import MOST_CELLS, MOST_COORDINATE, MOST_MESH_BYTES, MOST_POINTS
from .mesh_text import Mesh, chunks, write_mesh
from .progress import Progress
from .scale import Scale, fitting_unit
from .sources import Reader, Source, read_source
from .volumes import rough_signs, signs


@dataclass(frozen=True)
class Wish:
    """What the user asked for. Neither unit nor fit means: the coordinates are whole."""

    unit: float | None = None
    fit: bool = False
    origin: tuple[float, float, float] = (0.0, 0.0, 0.0)
    centre: bool = False
    cut: bool = False
    drop_points: bool = False
    reader: Reader = Reader.AUTO


@dataclass
class Prepared:
    """A mesh in whole numbers, and what was done to get it."""

    mesh: Mesh
    scale: Scale
    source_points: int
    reader: Reader
    curved: int
    taken: Counter[str] = field(default_factory=Counter)
    dropped: Counter[str] = field(default_factory=Counter)
    dropped_points: int = 0
    error: float = 0.0
    error_point: int = 0
    together: int = 0
    flat: int = 0
    turned: int = 0
    spare: int = 0


def prepare(source: Source, wish: Wish) -> Prepared:
    """The mesh of a source as the wish says. Raises where the program would refuse it."""
    taken: Counter[str] = Counter()
    dropped = Counter(source.dropped)
    cells = _tetrahedra(source, wish, taken, dropped)
    real = source.points
    keep = _used(len(real), cells)
    spare = int(len(real) - keep.sum())
    dropped_points = 0
    if wish.drop_points and spare:
        real, cells = _without(real, cells, keep)
        dropped_points, spare = spare, 0
    _check_counts(len(real), len(cells), spare)
    scale = _scale(real, wish)
    points = _whole_points(real, scale)
    prepared = Prepared(Mesh(points, cells), scale, len(source.points), source.reader,
                        source.curved, taken, dropped, dropped_points, spare=spare)
    _measure(prepared, real)
    return prepared


def _tetrahedra(source: Source, wish: Wish, taken: Counter[str],
                dropped: Counter[str]) -> Ints:
    """The cells that are kept, as int32 of shape (m, 4)."""
    parts: list[Ints] = [np.empty((0, 4), dtype=np.int32)]
    for shape, cells in source.blocks:
        if shape is not Shape.TETRAHEDRON and not wish.cut:
            dropped[f"{shape.plural} (--cut makes them tetrahedra)"] += len(cells)
            continue
        taken[shape.plural] += len(cells)
        parts.append(cut(shape, cells.astype(np.int32)))
    cells = np.concatenate(parts) if len(parts) != 2 else parts[1]
    twice = np.zeros(len(cells), dtype=bool)
    for a in range(4):
        for b in range(a):
            twice |= cells[:, a] == cells[:, b]
    if twice.any():
        dropped["tetrahedra with a point twice"] += int(twice.sum())
        cells = cells[~twice]
    return np.ascontiguousarray(cells)


def _used(points: int, cells: Ints) -> Flags:
    used = np.zeros(points, dtype=bool)
    for part in chunks(cells):
        used[part.ravel()] = True
    return used


def _without(real: Reals, cells: Ints,
             keep: Flags) -> tuple[Reals, Ints]:
    """The same mesh with the kept points alone, numbered anew in their order."""
    number = (np.cumsum(keep) - 1).astype(np.int32)
    return real[keep], number[cells]


def _check_counts(points: int, cells: int, spare: int) -> None:
    if points > MOST_POINTS:
        hint = f" ({points - spare:,} with --drop-points)" if spare else ""
        raise UserError(f"{points:,} points{hint}: the program reads at most {MOST_POINTS:,}. "
                        "Nothing was written; take a part of the mesh or a coarser one")
    if cells > MOST_CELLS:
        raise UserError(f"{cells:,} tetrahedra: the program reads at most {MOST_CELLS:,}. "
                        "Nothing was written; take a part of the mesh or a coarser one")


def _scale(real: Reals, wish: Wish) -> Scale:
    origin = wish.origin
    if wish.centre and len(real):
        middle = (real.min(axis=0) + real.max(axis=0)) / 2
        origin = (float(middle[0]), float(middle[1]), float(middle[2]))
    away = real - np.asarray(origin)
    largest = float(np.abs(away).max()) if len(real) else 0.0
    if wish.fit:
        return Scale(fitting_unit(largest), origin)
    if wish.unit is None and len(real) and (np.rint(away) != away).any():
        raise UserError("the coordinates aren't whole: give --unit U, or --fit, which would "
                        f"take the unit {fitting_unit(largest)!r}. Nothing was written")
    scale = Scale(1.0 if wish.unit is None else wish.unit, origin)
    if largest / scale.unit > MOST_COORDINATE + 0.5:
        raise UserError(f"with the unit {scale.unit!r} a coordinate is {largest / scale.unit:.6g} "
                        f"and the program reads up to {MOST_COORDINATE}: take a unit of at least "
                        f"{fitting_unit(largest)!r}. Nothing was written")
    return scale


def _whole_points(real: Reals, scale: Scale) -> Ints:
    points = np.empty((len(real), 3), dtype=np.int32)
    for start in range(0, len(real), 1 << 16):
        part = scale.whole(real[start:start + (1 << 16)])
        # half a unit past the end is rounded to the end or to one past it
        points[start:start + len(part)] = np.clip(part, -MOST_COORDINATE, MOST_COORDINATE)
    return points


def _measure(prepared: Prepared, real: Reals) -> None:
    """Fills in what rounding did."""
    points, scale = prepared.mesh.points, prepared.scale
    for start in range(0, len(real), 1 << 16):
        part = real[start:start + (1 << 16)]
        off = np.abs(scale.real(points[start:start + len(part)]) - part).max(axis=1)
        at = int(off.argmax())
        if off[at] > prepared.error:
            prepared.error, prepared.error_point = float(off[at]), start + at
    prepared.together = _repeats(points) - _repeats(real)
    with Progress("looking at cells", len(prepared.mesh.cells)) as progress:
        for cells in chunks(prepared.mesh.cells):
            now = signs(points, cells)
            before = rough_signs(real, cells)
            prepared.flat += int((now == 0).sum())
            prepared.turned += int((now * before < 0).sum())
            progress.step(len(cells))


def _repeats(rows: Numbers) -> int:
    """How many rows are equal to another one, the first of each kind not counted."""
    if len(rows) < 2:
        return 0
    order = np.lexsort((rows[:, 2], rows[:, 1], rows[:, 0]))
    same = np.ones(len(rows) - 1, dtype=bool)
    for axis in range(3):
        column = rows[order, axis]
        same &= column[1:] == column[:-1]
    return int(same.sum())


def told(path: Path, out: Path, prepared: Prepared, written: int) -> list[str]:
    """What was done, one line for each thing."""
    mesh, scale = prepared.mesh, prepared.scale
    lines = [f"read      {path} with {prepared.reader.value}: {prepared.source_points:,} points"]
    lines += [f"taken     {count:,} {name}" for name, count in prepared.taken.items()]
    if prepared.curved:
        lines.append(f"corners   {prepared.curved:,} cells are of higher order; "
                     "their corners alone were taken")
    lines += [f"dropped   {count:,} {name}" for name, count in sorted(prepared.dropped.items())]
    if prepared.dropped_points:
        lines.append(f"dropped   {prepared.dropped_points:,} points that no tetrahedron has; "
                     "the others are numbered anew")
    lines.append(f"scale     a place p of {out} is p * {scale.unit!r} + "
                 f"({', '.join(repr(value) for value in scale.origin)}); its title says so")
    if len(mesh.points):
        low, high = mesh.points.min(axis=0), mesh.points.max(axis=0)
        lines.append(f"range     {' '.join(map(str, low))} to {' '.join(map(str, high))}")
        lines.append(f"rounding  at most {prepared.error:.6g} along an axis, in the units of "
                     f"{path.name}"
                     + (f" (point {prepared.error_point})" if prepared.error else ""))
    lines.append(f"together  {prepared.together:,} points fell on another point by rounding")
    lines.append(f"flat      {prepared.flat:,} tetrahedra have no volume, "
                 f"{prepared.turned:,} were turned over by rounding")
    lines.append(f"spare     {prepared.spare:,} points that no tetrahedron has")
    lines.append(f"wrote     {out}: {len(mesh.points):,} points, {len(mesh.cells):,} tetrahedra, "
                 f"{written:,} bytes")
    return lines


def run(path: Path, out: Path, wish: Wish) -> list[str]:
    """Reads, prepares and writes; gives what is to be told."""
    if out.exists() and path.exists() and out.samefile(path):
        raise UserError(f"{out} is the mesh that is read; give another file to write")
    prepared = prepare(read_source(path, wish.reader), wish)
    with replacing(out) as beside, beside.open("wb") as file:
        written = write_mesh(file, prepared.scale.title(), prepared.mesh)
        if written > MOST_MESH_BYTES:
            raise UserError(f"the text has {written:,} bytes, and the program reads "
                            f"{MOST_MESH_BYTES:,}")
    return told(path, out, prepared, written)
