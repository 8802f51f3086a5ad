"""Pictures and files of a known run: a tetrahedron that is split twice."""
from __future__ import annotations

import unittest
from pathlib import Path
from typing import Any

from helpers import (SPLIT_MESH, SPLIT_REPORT, SPLIT_SCRIPT, TETRA, FolderTest, left_out, needs,
                     without_program)

needs(left_out("numpy"))

import numpy as np  # noqa: E402

from octopus_tools.mesh_text import Mesh, read_mesh  # noqa: E402
from octopus_tools.picture import (ANSWERED, BOX, EDGES, MISSED, Scene, corners,  # noqa: E402
                                   creases, draw, outward, seen)
from octopus_tools.script import Box  # noqa: E402
from octopus_tools.show import inside  # noqa: E402
from octopus_tools.surface import surface  # noqa: E402

SIZE = (640, 480)
AREA = Box((2, 0, 0), (16, 6, 3))


def rgb(color: str) -> tuple[int, ...]:
    """The three bytes of a color."""
    return tuple(int(color[at:at + 2], 16) for at in (1, 3, 5))


class Pictures(FolderTest):
    @classmethod
    def setUpClass(cls) -> None:
        needs(left_out("matplotlib"))

    def scene(self) -> tuple[Scene, Mesh]:
        with self.file("step.vtk", SPLIT_MESH).open("rb") as file:
            mesh = read_mesh(file)
        triangles, fourth = surface(mesh)
        return Scene(mesh.points, triangles, fourth, AREA, np.array([1]), np.array([5]), ""), mesh

    def check(self, path: object, scene: Scene) -> None:
        """That the box, the answer and what is missed are where they have to be."""
        from matplotlib.image import imread

        pixels = (imread(path)[:, :, :3] * 255).round().astype(int)
        self.assertEqual(pixels.shape, (SIZE[1], SIZE[0], 3))
        view = seen(scene, *SIZE)

        def at(place: np.ndarray) -> tuple[int, ...]:
            x, y = view.pixels(np.asarray(place, dtype=float)[None, :])[0]
            return tuple(pixels[int(y), int(x)])

        self.assertEqual(at(scene.points[1]), rgb(ANSWERED))
        self.assertEqual(at(scene.points[5]), rgb(MISSED))
        for vertex in (0, 2, 3, 4):
            self.assertNotIn(at(scene.points[vertex]), (rgb(ANSWERED), rgb(MISSED)))
        ends = corners(AREA).astype(float)
        for a, b in EDGES:
            for part in (0.25, 0.4, 0.6):
                x, y = view.pixels((ends[a] * (1 - part) + ends[b] * part)[None, :])[0].astype(int)
                around = pixels[y - 1:y + 2, x - 1:x + 2].reshape(-1, 3)  # lines snap to pixels
                self.assertLess(np.abs(around - rgb(BOX)).max(axis=1).min(), 30, (a, b, part))
        # besides the letters at the top nothing else has these colors
        body = pixels[40:]
        found = {name: int((body == rgb(color)).all(axis=2).sum())
                 for name, color in (("answered", ANSWERED), ("missed", MISSED))}
        self.assertTrue(all(10 < count < 400 for count in found.values()), found)

    def test_pixels(self) -> None:
        scene, _ = self.scene()
        path = self.folder / "a.png"
        draw(scene, path, *SIZE)
        self.check(path, scene)

    def test_directions(self) -> None:
        """x goes right, z goes up, y goes right and up and away; near is right of far."""
        scene, _ = self.scene()
        view = seen(scene, *SIZE)
        (x0, y0), (x1, y1), (x2, y2), (x3, y3) = view.pixels(
            np.array([[0, 0, 0], [9, 0, 0], [0, 9, 0], [0, 0, 9]])).tolist()
        self.assertTrue(x1 > x0 and y1 > y0 and x2 > x0 and y2 < y0)
        self.assertAlmostEqual(x3, x0)
        self.assertLess(y3, y0)
        near, middle, far = view.depth(np.array([[0, -9, 9], [0, 0, 0], [0, 9, -9]])).tolist()
        self.assertTrue(near < middle < far)
        every = view.pixels(np.concatenate((scene.points, corners(AREA))))
        self.assertTrue((every > 0).all() and (every < SIZE).all())

    def test_the_command(self) -> None:
        needs(without_program("step"))
        mesh, script = self.file("m.vtk", TETRA), self.file("s.txt", SPLIT_SCRIPT)
        report, path = self.file("r.txt", SPLIT_REPORT), self.folder / "a.png"
        out = self.good("show", mesh, script, report, "--box", "1", "--png", path,
                        "--size", "640x480")
        self.assertIn("route probe  1 answered  1 missed", out)
        self.check(path, self.scene()[0])

    def test_a_mesh_without_cells(self) -> None:
        none = np.zeros((0, 3), dtype=np.int32)
        scene = Scene(none, none, np.zeros(0, dtype=np.int32), AREA, np.zeros(0, dtype=int),
                      np.zeros(0, dtype=int), "")
        draw(scene, self.folder / "a.png", *SIZE)


class Shapes(FolderTest):
    def test_inside_and_normals(self) -> None:
        with self.file("step.vtk", SPLIT_MESH).open("rb") as file:
            mesh = read_mesh(file)
        self.assertEqual(inside(mesh, AREA).tolist(), [1, 5])
        self.assertEqual(inside(mesh, Box((0, 0, 0), (16, 0, 0))).tolist(), [0, 1])
        triangles, fourth = surface(mesh)
        self.assertEqual(triangles.tolist(), [[0, 1, 2], [0, 1, 3], [0, 2, 3], [1, 2, 3]])
        normals = outward(mesh.points, triangles, fourth)
        self.assertEqual(np.round(normals, 3).tolist(),
                         [[0, 0, -1], [0, -1, 0], [-1, 0, 0], [0.577, 0.577, 0.577]])
        self.assertEqual(len(creases(triangles, normals)), 6)


class Files(FolderTest):
    """Files for ParaView, and runs that don't fit."""

    @classmethod
    def setUpClass(cls) -> None:
        needs(without_program("step"))

    def setUp(self) -> None:
        super().setUp()
        self.run_files = [self.file("m.vtk", TETRA), self.file("s.txt", SPLIT_SCRIPT),
                          self.file("r.txt", SPLIT_REPORT)]

    def read(self, path: Path) -> Any:
        """The grid of a file for ParaView."""
        from vtkmodules.vtkIOXML import vtkXMLUnstructuredGridReader

        reader = vtkXMLUnstructuredGridReader()
        reader.SetFileName(str(path))
        reader.Update()
        return reader.GetOutput()

    def test_vtu(self) -> None:
        needs(left_out("vtkmodules"))
        from vtkmodules.util.numpy_support import vtk_to_numpy

        path = self.folder / "a.vtu"
        self.good("show", *self.run_files, "--box", "1", "--vtu", path, "--whole")
        grid = self.read(path)
        parts = vtk_to_numpy(grid.GetCellData().GetArray("part"))
        self.assertEqual(np.bincount(parts).tolist(), [4, 12, 1, 1, 7])
        self.assertEqual(grid.GetNumberOfPoints(), 6 + 8)
        vertex = vtk_to_numpy(grid.GetPointData().GetArray("vertex"))
        for part, number in ((2, 1), (3, 5)):
            cell = grid.GetCell(int(np.flatnonzero(parts == part)[0]))
            self.assertEqual(vertex[cell.GetPointId(0)], number)

    def test_series(self) -> None:
        needs(left_out("vtkmodules"))
        from vtkmodules.util.numpy_support import vtk_to_numpy

        path = self.folder / "run.pvd"
        self.assertIn("2 steps, 2 answered boxes", self.good("show", *self.run_files,
                                                             "--series", path))
        names = [f"run_{step:05d}.vtu" for step in (0, 1)]
        self.assertTrue(all(name in path.read_text() for name in names))
        self.assertTrue((self.folder / names[0]).exists())
        grid = self.read(self.folder / names[1])
        scenes = vtk_to_numpy(grid.GetCellData().GetArray("scene"))
        parts = vtk_to_numpy(grid.GetCellData().GetArray("part"))
        for scene, bounds in ((0, (4, 4, 4, 4, 4, 4)), (1, (2, 16, 0, 6, 0, 3))):
            lines = np.flatnonzero((scenes == scene) & (parts == 1))
            ends = np.array([grid.GetPoint(grid.GetCell(int(line)).GetPointId(end))
                             for line in lines for end in (0, 1)])
            self.assertEqual(len(ends), 24)
            self.assertEqual(tuple(np.stack((ends.min(axis=0), ends.max(axis=0)), axis=1).ravel()),
                             bounds)

    def test_undo(self) -> None:
        needs(left_out("vtkmodules"))
        mesh, script, report = self.run_files
        path = self.folder / "a.vtu"
        self.assertIn("keeps no scale", self.bad(4, "show", mesh, script, report, "--vtu", path,
                                                 "--undo"))
        title = "octopus-tools unit 0.5 origin 1.0 0.0 0.0"
        mesh.write_text(TETRA.replace("one", title, 1))
        self.good("show", mesh, script, report, "--vtu", path, "--undo")
        self.assertEqual(self.read(path).GetPoint(1), (9.0, 0.0, 0.0))

    def test_what_doesnt_fit(self) -> None:
        needs(left_out("matplotlib"))
        mesh, script, report = self.run_files
        png = ["--png", self.folder / "a.png"]
        self.assertIn("numbered from 0", self.bad(4, "show", *self.run_files, "--session", "1",
                                                  *png))
        self.assertIn("2 boxes", self.bad(4, "show", *self.run_files, "--box", "2", *png))
        other = self.file("o.txt", SPLIT_SCRIPT.replace("stay\n", "stay\nstay\n"))
        self.assertIn("is no report of", self.bad(4, "show", mesh, other, report, *png))
        other = self.file("o.txt", SPLIT_REPORT.replace("\n4\n", "\n2\n"))
        self.assertIn("isn't in the box", self.bad(4, "show", mesh, script, other, *png))
        other = self.file("o.txt", SPLIT_REPORT.replace("\n4\n", "\n4 5\n"))
        self.assertIn("says 1 vertices and lists 2", self.bad(4, "show", mesh, script, other, *png))
        other = self.file("m.vtk", TETRA.replace("16", "16.5", 1))
        self.assertIn("NotWhole", self.bad(4, "show", other, script, report, *png))


class Comparing(FolderTest):
    @classmethod
    def setUpClass(cls) -> None:
        needs(left_out("vtkmodules"))
        needs(without_program("step"))

    def test_a_known_report(self) -> None:
        words = [self.file("m.vtk", TETRA), self.file("s.txt", SPLIT_SCRIPT), "--list", "--report",
                 self.file("r.txt", SPLIT_REPORT)]
        out = self.good("compare", *words).splitlines()
        self.assertEqual(out, [
            "session 0 box 0 step 1 route walk answered 1 selected 1 missed 0",
            "session 0 box 1 step 1 route probe answered 1 selected 2 missed 1",
            "boxes     2: 1 complete, 1 not",
            "missed    1 of 3 vertices (33.3 %)",
            "worst     session 0 box 1 step 1 route probe answered 1 selected 2 missed 1",
            "by route  probe: 1 boxes, 0 complete",
            "by route  walk: 1 boxes, 1 complete",
            "wrong     0 answers with a vertex that VTK doesn't select"])

    def test_a_wrong_report(self) -> None:
        wrong = self.file("r.txt", SPLIT_REPORT.replace("\n4\n", "\n2\n"))
        code, out, _ = self.tool("compare", self.file("m.vtk", TETRA),
                                 self.file("s.txt", SPLIT_SCRIPT), "--report", wrong)
        self.assertEqual(code, 1)
        self.assertIn("wrong     1 answers", out)

    def test_a_run(self) -> None:
        needs(without_program("run"))
        out = self.good("compare", self.file("m.vtk", TETRA), self.file("s.txt", SPLIT_SCRIPT))
        self.assertIn("boxes     2: 1 complete, 1 not\nmissed    1 of 3 vertices", out)

    def test_selection(self) -> None:
        from octopus_tools.compare import Selection

        rng = np.random.default_rng(3)
        far = 2**30
        points = np.concatenate((rng.integers(-3, 4, (300, 3)),
                                 rng.integers(far - 3, far + 1, (300, 3)),
                                 [[-far] * 3])).astype(np.int32)
        cells = rng.permutation(601)[:600].reshape(-1, 4).astype(np.int32)
        mesh = Mesh(points, cells)
        selection = Selection(mesh)
        for low, high in (((-1,) * 3, (2,) * 3), ((0,) * 3, (0,) * 3), ((-3, 0, 1), (3, 0, 2)),
                          ((-far,) * 3, (far,) * 3), ((-far,) * 3, (far - 1,) * 3),
                          ((far - 1,) * 3, (far,) * 3), ((8,) * 3, (9,) * 3)):
            box = Box(low, high)
            self.assertEqual(selection.select(box).tolist(), inside(mesh, box).tolist())


if __name__ == "__main__":
    unittest.main()
