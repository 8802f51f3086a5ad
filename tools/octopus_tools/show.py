"""`show`: a box of a run with its answer, as a picture or as files for ParaView."""
from __future__ import annotations

from dataclasses import dataclass
from pathlib import Path

import numpy as np

from .arrays import Ints, Reals
from .errors import UserError
from .mesh_text import Mesh, read_mesh, read_title
from .picture import Scene, draw
from .program import Program
from .progress import Progress
from .report import Answer, Report, read_report
from .scale import scale_of_title
from .script import Box, Script, read_script
from .surface import surface


@dataclass(frozen=True)
class Run:
    """A run that was played: its files, and what they say of boxes and answers."""

    program: Program
    mesh: Path
    script_path: Path
    script: Script
    report: Report

    def step(self, step: int) -> Mesh:
        """The mesh of a step, made by the program."""
        with self.program.output("step", str(self.mesh), str(self.script_path),
                                 str(step)) as stream:
            return read_mesh(stream, f"step {step}")


def load_run(program: Program, mesh: Path, script_path: Path, report: Path) -> Run:
    """The run of three files; raises where the report can't be one of the script."""
    run = Run(program, mesh, script_path, read_script(program, script_path), read_report(report))
    boxes = [len(session) for session in run.script.boxes]
    answers = [len(session) for session in run.report.answers]
    if run.script.steps != run.report.steps or boxes != answers:
        raise UserError(f"{report} is no report of {script_path}: it has {run.report.steps} steps "
                        f"and {answers} boxes in its sessions, and the script "
                        f"{run.script.steps} and {boxes}")
    return run


def inside(mesh: Mesh, box: Box) -> Ints:
    """The vertices in the box, ascending: all of them, exactly."""
    has = mesh.vertices()
    for axis in range(3):
        column = mesh.points[:, axis]
        has &= (column >= box.low[axis]) & (column <= box.high[axis])
    return np.flatnonzero(has)


def missed(mesh: Mesh, box: Box, answered: Ints) -> Ints:
    """The vertices in the box that the answer lacks; raises where it has another one."""
    within = inside(mesh, box)
    if not np.isin(answered, within).all():
        raise UserError("the answer has a vertex that isn't in the box on that step: this report "
                        "is of another mesh or script")
    return np.setdiff1d(within, answered, assume_unique=True)


def scene_of(run: Run, answer: Answer, mesh: Mesh,
             faces: tuple[Ints, Ints]) -> Scene:
    """What is to be seen of an answer on its step's mesh."""
    box = run.script.boxes[answer.session][answer.box]
    answered = run.report.vertices(answer)
    lacking = missed(mesh, box, answered)
    words = (f"session {answer.session}  box {answer.box}  step {answer.step}  "
             f"route {answer.route.value}  {len(answered):,} answered  {len(lacking):,} missed")
    return Scene(mesh.points, faces[0], faces[1], box, answered, lacking, words)


def show_box(run: Run, session: int, box: int) -> tuple[Scene, Mesh]:
    """The scene of one box, and its step's mesh."""
    answer = run.report.answer(session, box)
    mesh = run.step(answer.step)
    return scene_of(run, answer, mesh, surface(mesh)), mesh


def show_png(run: Run, session: int, box: int, path: Path, size: tuple[int, int]) -> str:
    """Draws a box and its answer; gives one line on it."""
    scene, _ = show_box(run, session, box)
    draw(scene, path, *size)
    return f"{path}: {scene.words}"


def show_vtu(run: Run, session: int, box: int, path: Path, whole: bool, undo: bool) -> str:
    """Writes a box and its answer for ParaView; gives one line on it."""
    from .vtu import with_corners, write_vtu

    scene, mesh = show_box(run, session, box)
    places = _undone(run, with_corners([scene], mesh.points), undo)
    write_vtu(path, scene.triangles, [scene], places, mesh.cells if whole else None)
    return f"{path}: {scene.words}"


def show_series(run: Run, path: Path, every: int, whole: bool, undo: bool) -> list[str]:
    """Writes a file for each step, with all boxes that were answered on it, and the list
    of these files; gives one line on them. Step k is made from step 0, so n steps cost
    about n times the half of the last one."""
    from .vtu import with_corners, write_pvd, write_vtu

    by_step: dict[int, list[Answer]] = {}
    for session in run.report.answers:
        for answer in session:
            by_step.setdefault(answer.step, []).append(answer)
    steps = range(0, run.report.steps + 1, every)
    files: list[tuple[int, Path]] = []
    with Progress("writing step", len(steps)) as progress:
        for step in steps:
            mesh = run.step(step)
            faces = surface(mesh)
            scenes = [scene_of(run, answer, mesh, faces) for answer in by_step.get(step, [])]
            places = _undone(run, with_corners(scenes, mesh.points), undo)
            file = path.with_name(f"{path.stem}_{step:05d}.vtu")
            write_vtu(file, faces[0], scenes, places, mesh.cells if whole else None)
            files.append((step, file))
            progress.step()
    write_pvd(path, files)
    answered = sum(len(by_step.get(step, [])) for step in steps)
    return [f"{path}: {len(files):,} steps, {answered:,} answered boxes"]


def _undone(run: Run, places: Reals, undo: bool) -> Reals:
    """The places, in the units that the mesh had before it was prepared where asked."""
    if not undo:
        return places
    scale = scale_of_title(read_title(run.mesh))
    if scale is None:
        raise UserError(f"{run.mesh}: its title keeps no scale, as `prepare` writes it, so "
                        "--undo has nothing to undo")
    return scale.real(places)
