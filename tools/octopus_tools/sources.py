"""Meshes of other programs, read by meshio or by VTK."""
from __future__ import annotations

from collections import Counter
from dataclasses import dataclass, field
from enum import Enum
from pathlib import Path
from typing import Any

import numpy as np

from .arrays import Ints, Reals
from .cut import Shape
from .errors import UserError
from .packages import is_there, need


class Reader(Enum):
    """The library that reads a file."""

    AUTO = "auto"
    MESHIO = "meshio"
    VTK = "vtk"


VTK_ENDINGS = frozenset((".vtk", ".vtu", ".vts", ".vtr", ".vti", ".vtp"))


@dataclass
class Source:
    """A mesh as it was read: real points (n, 3), and its cells with a volume.

    `curved` counts cells of higher order, of which the corners alone were taken;
    `dropped` counts the cells of other kinds by their names.
    """

    reader: Reader
    points: Reals
    blocks: list[tuple[Shape, Ints]] = field(default_factory=list)
    curved: int = 0
    dropped: Counter[str] = field(default_factory=Counter)


def read_source(path: Path, reader: Reader) -> Source:
    """The mesh of a file. `AUTO` takes VTK for VTK's own formats where it is there,
    and meshio for all others."""
    if not path.is_file():
        raise UserError(f"{path}: no such file")
    if reader is Reader.AUTO:
        with_vtk = path.suffix.lower() in VTK_ENDINGS and is_there("vtkmodules")
        reader = Reader.VTK if with_vtk else Reader.MESHIO
    source = _by_vtk(path) if reader is Reader.VTK else _by_meshio(path)
    _check_numbers(path, source)
    return source


def _check_numbers(path: Path, source: Source) -> None:
    if source.points.ndim != 2 or source.points.shape[1] not in (2, 3):
        raise UserError(f"{path}: the points aren't of two or three coordinates")
    if source.points.shape[1] == 2:
        source.points = np.column_stack((source.points, np.zeros(len(source.points))))
    if not np.isfinite(source.points).all():
        raise UserError(f"{path}: a coordinate is no number (nan or inf)")
    for shape, cells in source.blocks:
        if len(cells) and not 0 <= int(cells.min()) <= int(cells.max()) < len(source.points):
            raise UserError(f"{path}: {shape.plural} name a point that isn't there")


# ---------------------------------------------------------------- meshio

MESHIO_SHAPES: dict[str, Shape] = {
    "tetra": Shape.TETRAHEDRON, "hexahedron": Shape.HEXAHEDRON,
    "wedge": Shape.WEDGE, "pyramid": Shape.PYRAMID,
}


def _meshio_shape(kind: str) -> Shape | None:
    """The shape of one of meshio's names, as `tetra10`; its corners stand first."""
    base = kind.rstrip("0123456789")
    return MESHIO_SHAPES.get(base)


def _by_meshio(path: Path) -> Source:
    need("meshio", "numpy")
    import contextlib
    import io

    import meshio

    said = io.StringIO()
    try:
        with contextlib.redirect_stdout(said), contextlib.redirect_stderr(said):
            mesh = meshio.read(path)
    except SystemExit as error:  # meshio ends the program where it knows no format
        raise UserError(f"{path}: meshio can't read it: {_one_line(said.getvalue())}") from error
    except Exception as error:  # its readers raise whatever they meet
        raise UserError(f"{path}: meshio can't read it: {_one_line(str(error))}") from error
    source = Source(Reader.MESHIO, np.asarray(mesh.points, dtype=np.float64))
    for block in mesh.cells:
        shape = _meshio_shape(block.type)
        if shape is None:
            source.dropped[block.type] += len(block.data)
            continue
        cells = np.asarray(block.data)
        source.curved += len(cells) if cells.shape[1] > shape.corners else 0
        source.blocks.append((shape, cells[:, :shape.corners].astype(np.int64, copy=False)))
    return source


def _one_line(text: str) -> str:
    return " ".join(text.split())[:200] or "it says no more"


# ---------------------------------------------------------------- VTK

# By VTK's number: the shape, the places of its corners, and whether it is of higher order.
VTK_SHAPES: dict[int, tuple[Shape, tuple[int, ...], bool]] = {
    10: (Shape.TETRAHEDRON, (0, 1, 2, 3), False),
    11: (Shape.HEXAHEDRON, (0, 1, 3, 2, 4, 5, 7, 6), False),
    12: (Shape.HEXAHEDRON, (0, 1, 2, 3, 4, 5, 6, 7), False),
    13: (Shape.WEDGE, (0, 1, 2, 3, 4, 5), False),
    14: (Shape.PYRAMID, (0, 1, 2, 3, 4), False),
    24: (Shape.TETRAHEDRON, (0, 1, 2, 3), True),
    25: (Shape.HEXAHEDRON, (0, 1, 2, 3, 4, 5, 6, 7), True),
    26: (Shape.WEDGE, (0, 1, 2, 3, 4, 5), True),
    27: (Shape.PYRAMID, (0, 1, 2, 3, 4), True),
    29: (Shape.HEXAHEDRON, (0, 1, 2, 3, 4, 5, 6, 7), True),
}


def _by_vtk(path: Path) -> Source:
    need("vtkmodules", "numpy")
    from vtkmodules.util.numpy_support import vtk_to_numpy
    from vtkmodules.vtkCommonDataModel import vtkCellTypes

    grid = _vtk_grid(path)
    places = grid.GetPoints()
    if places is None:
        raise UserError(f"{path}: VTK reads no points from it")
    source = Source(Reader.VTK, vtk_to_numpy(places.GetData()).astype(np.float64))
    if not grid.GetNumberOfCells():
        return source
    kinds = vtk_to_numpy(grid.GetCellTypesArray())
    starts = vtk_to_numpy(grid.GetCells().GetOffsetsArray())[:-1]
    flat = vtk_to_numpy(grid.GetCells().GetConnectivityArray())
    for kind in np.unique(kinds):
        found = np.flatnonzero(kinds == kind)
        if int(kind) not in VTK_SHAPES:
            name = vtkCellTypes.GetClassNameFromTypeId(int(kind)).removeprefix("vtk")
            source.dropped[name] += len(found)
            continue
        shape, corners, is_curved = VTK_SHAPES[int(kind)]
        source.curved += len(found) if is_curved else 0
        cells = np.empty((len(found), shape.corners), dtype=np.int64)
        for column, corner in enumerate(corners):
            cells[:, column] = flat[starts[found] + corner]
        source.blocks.append((shape, cells))
    return source


def _vtk_grid(path: Path) -> Any:
    """The dataset of a file as an unstructured grid."""
    from vtkmodules.vtkCommonCore import vtkLogger
    from vtkmodules.vtkFiltersCore import vtkAppendFilter
    from vtkmodules.vtkIOLegacy import vtkDataSetReader
    from vtkmodules.vtkIOXML import vtkXMLGenericDataObjectReader

    vtkLogger.SetStderrVerbosity(vtkLogger.VERBOSITY_OFF)
    is_legacy = path.suffix.lower() == ".vtk"
    reader = vtkDataSetReader() if is_legacy else vtkXMLGenericDataObjectReader()
    faults: list[str] = []

    def note(_caller: object, _event: str, text: str) -> None:
        faults.append(text)

    note.CallDataType = "string0"  # type: ignore[attr-defined]
    reader.AddObserver("ErrorEvent", note)
    reader.SetFileName(str(path))
    reader.Update()
    data = reader.GetOutputDataObject(0)
    if data is None or faults:
        raise UserError(f"{path}: VTK can't read it: {_vtk_words(faults)}")
    if data.IsA("vtkUnstructuredGrid"):
        return data
    if not data.IsA("vtkDataSet"):
        raise UserError(f"{path}: VTK reads a {data.GetClassName()}, which is no single mesh")
    append = vtkAppendFilter()
    append.AddInputData(data)
    append.Update()
    return append.GetOutput()


def _vtk_words(faults: list[str]) -> str:
    """The first fault without the place in VTK's own code."""
    return _one_line(faults[0].partition("): ")[2] or faults[0]) if faults else _one_line("")
