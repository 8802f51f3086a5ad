"""`compare`: each answer of a run beside VTK's own selection by box."""
from __future__ import annotations

import tempfile
from collections import Counter
from dataclasses import dataclass, field
from pathlib import Path
from typing import Any, Iterator

import numpy as np

from .arrays import Ints
from .mesh_text import Mesh
from .program import Program
from .progress import Progress
from .report import Answer, Route
from .script import Box
from .show import Run, load_run


@dataclass(frozen=True)
class Row:
    """A box: how many vertices were answered, how many VTK selects, how many of these
    the answer lacks, and how many it has beyond them (which would be a fault)."""

    answer: Answer
    selected: int
    missed: int
    beyond: int

    def words(self) -> str:
        """One line on the box."""
        a = self.answer
        return (f"session {a.session} box {a.box} step {a.step} route {a.route.value} "
                f"answered {a.count} selected {self.selected} missed {self.missed}"
                + (f" beyond {self.beyond}" if self.beyond else ""))


@dataclass
class Tally:
    """What all boxes of a run come to."""

    boxes: Counter[Route] = field(default_factory=Counter)
    complete: Counter[Route] = field(default_factory=Counter)
    selected: int = 0
    missed: int = 0
    wrong: int = 0
    worst: Row | None = None

    def add(self, row: Row) -> None:
        """Counts a box."""
        route = row.answer.route
        self.boxes[route] += 1
        self.complete[route] += row.missed == 0
        self.selected += row.selected
        self.missed += row.missed
        self.wrong += row.beyond > 0
        if row.missed and (self.worst is None or row.missed > self.worst.missed):
            self.worst = row

    def told(self) -> list[str]:
        """The lines to print."""
        total, complete = self.boxes.total(), self.complete.total()
        part = 100 * self.missed / self.selected if self.selected else 0.0
        lines = [f"boxes     {total:,}: {complete:,} complete, {total - complete:,} not",
                 f"missed    {self.missed:,} of {self.selected:,} vertices ({part:.3g} %)"]
        if self.worst is not None:
            lines.append(f"worst     {self.worst.words()}")
        lines += [f"by route  {route.value}: {self.boxes[route]:,} boxes, "
                  f"{self.complete[route]:,} complete" for route in Route if self.boxes[route]]
        lines.append(f"wrong     {self.wrong:,} answers with a vertex that VTK doesn't select")
        return lines


class Selection:
    """VTK's selection by box among the vertices of a mesh (`vtkExtractPoints` with a
    `vtkBox`). Takes about 32 bytes for each vertex."""

    def __init__(self, mesh: Mesh) -> None:
        from vtkmodules.util.numpy_support import numpy_to_vtk
        from vtkmodules.vtkCommonCore import vtkPoints
        from vtkmodules.vtkCommonDataModel import vtkBox, vtkPolyData
        from vtkmodules.vtkFiltersPoints import vtkExtractPoints

        vertices = np.flatnonzero(mesh.vertices())
        places = vtkPoints()
        places.SetData(numpy_to_vtk(mesh.points[vertices].astype(np.float64), deep=True))
        numbers = numpy_to_vtk(vertices.astype(np.int64), deep=True)
        numbers.SetName("vertex")
        data = vtkPolyData()
        data.SetPoints(places)
        data.GetPointData().AddArray(numbers)
        self._box = vtkBox()
        self._extract: Any = vtkExtractPoints()
        self._extract.SetInputData(data)
        self._extract.SetImplicitFunction(self._box)
        self._is_empty = not len(vertices)

    def select(self, box: Box) -> Ints:
        """The vertices that VTK selects, ascending."""
        from vtkmodules.util.numpy_support import vtk_to_numpy

        if self._is_empty:
            return np.empty(0, dtype=np.int64)
        self._box.SetXMin(*map(float, box.low))
        self._box.SetXMax(*map(float, box.high))
        self._extract.Update()
        array = self._extract.GetOutput().GetPointData().GetArray("vertex")
        return np.sort(vtk_to_numpy(array)) if array is not None else np.empty(0, dtype=np.int64)


def rows(run: Run) -> Iterator[Row]:
    """Each box of a run, step by step: a step's mesh is made once."""
    answers = sorted((answer for session in run.report.answers for answer in session),
                     key=lambda answer: answer.step)
    selection: Selection | None = None
    step = -1
    with Progress("comparing box", len(answers)) as progress:
        for answer in answers:
            if selection is None or answer.step != step:
                step = answer.step
                selection = Selection(run.step(step))
            yield _row(run, answer, selection)
            progress.step()


def _row(run: Run, answer: Answer, selection: Selection) -> Row:
    answered = run.report.vertices(answer)
    selected = selection.select(run.script.boxes[answer.session][answer.box])
    found = len(np.intersect1d(answered, selected, assume_unique=True))
    return Row(answer, len(selected), len(selected) - found, len(answered) - found)


def compare(program: Program, mesh: Path, script: Path, report: Path | None,
            every_box: bool) -> tuple[list[str], bool]:
    """Plays the run, or takes the given report, and compares. Gives the lines to print,
    and whether every answer lies in VTK's selection."""
    with tempfile.TemporaryDirectory(prefix="octopus-tools-") as folder:
        if report is None:
            report = Path(folder) / "report.txt"
            program.save(report, "run", str(mesh), str(script))
        tally = Tally()
        lines: list[str] = []
        for row in rows(load_run(program, mesh, script, report)):
            tally.add(row)
            if every_box:
                lines.append(row.words())
    return lines + tally.told(), tally.wrong == 0
