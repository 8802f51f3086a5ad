"""A step as a file for ParaView."""
from __future__ import annotations

from pathlib import Path
from typing import Any

import numpy as np

from .arrays import Ints, Reals
from .errors import UserError
from .picture import EDGES, Scene, corners

# The cell array `part`: what a cell of the file stands for.
SURFACE, BOX, ANSWERED, MISSED, CELLS = range(5)
VTK_VERTEX, VTK_LINE, VTK_TRIANGLE, VTK_TETRA = 1, 3, 5, 10


def write_vtu(path: Path, triangles: Ints, scenes: list[Scene], places: Reals,
              cells: Ints | None = None) -> None:
    """Writes scenes of one step: the surface once, and the box, the answered and the
    missed vertices of each; and the tetrahedra, where they are given. `places` are the
    points (n, 3) as they are to be seen, with the corners of the boxes behind them,
    eight for each scene. The arrays: `part` and `scene` for cells, `vertex` for points
    (-1 for a corner of a box)."""
    from vtkmodules.vtkIOXML import vtkXMLUnstructuredGridWriter

    rows: list[tuple[int, int, int, Ints]] = []
    points = len(places) - 8 * len(scenes)
    if cells is not None:
        rows.append((VTK_TETRA, CELLS, -1, cells))
    rows.append((VTK_TRIANGLE, SURFACE, -1, triangles))
    for number, scene in enumerate(scenes):
        first = points + 8 * number
        rows.append((VTK_LINE, BOX, number, np.array(EDGES) + first))
        rows.append((VTK_VERTEX, ANSWERED, number, scene.answered[:, None]))
        rows.append((VTK_VERTEX, MISSED, number, scene.missed[:, None]))
    vertex = np.concatenate((np.arange(points), np.full(8 * len(scenes), -1)))
    writer = vtkXMLUnstructuredGridWriter()
    writer.SetInputData(_grid(places, vertex, rows))
    writer.SetFileName(str(path))
    if not writer.Write():
        raise UserError(f"{path}: it can't be written")


def with_corners(scenes: list[Scene], points: Ints) -> Reals:
    """The points with the corners of the boxes behind them, as doubles."""
    return np.concatenate([points.astype(np.float64)]
                          + [corners(scene.box).astype(np.float64) for scene in scenes])


def _grid(places: Reals, vertex: Ints,
          rows: list[tuple[int, int, int, Ints]]) -> Any:
    from vtkmodules.util.numpy_support import numpy_to_vtk, numpy_to_vtkIdTypeArray
    from vtkmodules.vtkCommonCore import vtkPoints
    from vtkmodules.vtkCommonDataModel import vtkCellArray, vtkUnstructuredGrid

    kinds = np.concatenate([np.full(len(c), kind, dtype=np.uint8) for kind, _, _, c in rows])
    parts = np.concatenate([np.full(len(c), part, dtype=np.int8) for _, part, _, c in rows])
    scenes = np.concatenate([np.full(len(c), scene, dtype=np.int32) for _, _, scene, c in rows])
    sizes = np.concatenate([np.full(len(c), c.shape[1], dtype=np.int64) for _, _, _, c in rows])
    flat = np.concatenate([c.ravel().astype(np.int64) for _, _, _, c in rows])
    starts = np.concatenate((np.zeros(1, dtype=np.int64), np.cumsum(sizes)))
    points = vtkPoints()
    points.SetData(numpy_to_vtk(np.ascontiguousarray(places), deep=True))
    array = vtkCellArray()
    array.SetData(numpy_to_vtkIdTypeArray(starts, deep=True),
                  numpy_to_vtkIdTypeArray(flat, deep=True))
    grid = vtkUnstructuredGrid()
    grid.SetPoints(points)
    grid.SetCells(numpy_to_vtk(kinds, deep=True), array)
    for name, values, data in (("vertex", vertex.astype(np.int32), grid.GetPointData()),
                               ("part", parts, grid.GetCellData()),
                               ("scene", scenes, grid.GetCellData())):
        made = numpy_to_vtk(np.ascontiguousarray(values), deep=True)
        made.SetName(name)
        data.AddArray(made)
    grid.GetCellData().SetActiveScalars("part")
    return grid


def write_pvd(path: Path, files: list[tuple[int, Path]]) -> None:
    """Writes the list of the steps' files; a step is a time in ParaView."""
    lines = ['<?xml version="1.0"?>',
             '<VTKFile type="Collection" version="0.1" byte_order="LittleEndian">',
             "  <Collection>"]
    lines += [f'    <DataSet timestep="{step}" part="0" file="{file.name}"/>'
              for step, file in files]
    lines += ["  </Collection>", "</VTKFile>", ""]
    try:
        path.write_text("\n".join(lines), encoding="utf-8")
    except OSError as error:
        raise UserError(f"{path}: {error.strerror}") from error
