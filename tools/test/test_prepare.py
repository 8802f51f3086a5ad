"""Meshes of gmsh, VTK, meshio and TetGen, prepared and read back."""
from __future__ import annotations

import subprocess
import tracemalloc
import unittest
from pathlib import Path

from helpers import FolderTest, left_out, needs, program, without_program

needs(left_out("numpy"))

import numpy as np  # noqa: E402

from octopus_tools.cut import Shape, cut  # noqa: E402
from octopus_tools.errors import UserError  # noqa: E402
from octopus_tools.mesh_text import Mesh, read_mesh, read_title, write_mesh  # noqa: E402
from octopus_tools.prepare import Prepared, Wish, _check_counts, prepare  # noqa: E402
from octopus_tools.scale import scale_of_title  # noqa: E402
from octopus_tools.sources import Reader, Source  # noqa: E402
from octopus_tools.surface import surface  # noqa: E402
from octopus_tools.volumes import signs  # noqa: E402

# Eight corners of a unit cube in the order of a hexahedron, and a point above.
CUBE = [[0, 0, 0], [1, 0, 0], [1, 1, 0], [0, 1, 0], [0, 0, 1], [1, 0, 1], [1, 1, 1], [0, 1, 1]]


def read_back(path: Path) -> Mesh:
    """A prepared mesh."""
    with path.open("rb") as file:
        return read_mesh(file)


def volume(points: np.ndarray, cells: np.ndarray) -> float:
    """The sum of the volumes of tetrahedra."""
    places = points[cells].astype(float)
    edges = places[:, 1:] - places[:, :1]
    return float(np.abs(np.linalg.det(edges)).sum() / 6)


class RoundTrips(FolderTest):
    def check(self, out: Path, points: np.ndarray, cells: np.ndarray) -> None:
        """That a prepared mesh is this one, to half a unit, and that the program reads it."""
        mesh, scale = read_back(out), scale_of_title(read_title(out))
        assert scale is not None
        self.assertEqual(mesh.points.shape, points.shape)
        self.assertLessEqual(np.abs(scale.real(mesh.points) - points).max(), scale.unit * 0.501)
        self.assertTrue((mesh.cells == cells).all())
        if without_program("scan") is None:
            there = program()
            assert there is not None
            low, high = -(2**30), 2**30
            outcome = there.ask("scan", str(out), *[str(low)] * 3, *[str(high)] * 3)
            count = len(np.unique(cells))
            self.assertEqual(outcome.head.split(b"\n")[0], b"count %d" % count)

    def test_gmsh(self) -> None:
        needs(left_out("meshio", "gmsh"))
        import gmsh

        gmsh.initialize()
        self.addCleanup(gmsh.finalize)
        gmsh.option.setNumber("General.Terminal", 0)
        gmsh.model.occ.addBox(0, 0, 0, 0.02, 0.01, 0.01)
        gmsh.model.occ.synchronize()
        gmsh.option.setNumber("Mesh.MeshSizeMax", 0.004)
        gmsh.model.mesh.generate(3)
        tags, places, _ = gmsh.model.mesh.getNodes()
        points = np.zeros((len(tags), 3))
        points[tags.astype(int) - 1] = places.reshape(-1, 3)
        corners = gmsh.model.mesh.getElementsByType(4)[1].reshape(-1, 4).astype(int) - 1
        out = self.folder / "out.vtk"
        for version in (2.2, 4.1):
            with self.subTest(version=version):
                gmsh.option.setNumber("Mesh.MshFileVersion", version)
                path = self.folder / "box.msh"
                gmsh.write(str(path))
                text = self.good("prepare", path, out, "--unit", "0.00001")
                self.assertIn(f"taken     {len(corners):,} tetrahedra", text)
                self.assertIn(" triangle", text)
                self.check(out, points, corners)

    def test_vtk(self) -> None:
        needs(left_out("vtkmodules"))
        from vtkmodules.vtkIOLegacy import vtkUnstructuredGridWriter
        from vtkmodules.vtkIOXML import vtkXMLUnstructuredGridWriter

        grid = _grid()
        legacy = vtkUnstructuredGridWriter()
        legacy.SetFileTypeToBinary()
        points = np.array(CUBE + [[0.5, 0.5, 2]]) * 0.25
        tetrahedra = np.array([[4, 5, 6, 8]])
        out = self.folder / "out.vtk"
        for writer, name in ((legacy, "grid.vtk"), (vtkXMLUnstructuredGridWriter(), "grid.vtu")):
            with self.subTest(name=name):
                path = self.folder / name
                writer.SetInputData(grid)
                writer.SetFileName(str(path))
                writer.Write()
                text = self.good("prepare", path, out, "--unit", "0.125")
                self.assertIn("dropped   1 hexahedra (--cut makes them tetrahedra)", text)
                self.assertIn("dropped   1 Triangle", text)
                self.check(out, points, tetrahedra)
                text = self.good("prepare", path, out, "--unit", "0.125", "--cut")
                self.assertIn("taken     1 hexahedra", text)
                self.assertEqual(len(read_back(out).cells), 7)

    def test_meshio(self) -> None:
        needs(left_out("meshio"))
        import meshio

        points = np.array(CUBE, dtype=float) * 1e6 + 0.25
        cells = np.array([[0, 1, 3, 4], [1, 2, 3, 6]])
        out = self.folder / "out.vtk"
        for name in ("mesh.inp", "mesh.mesh", "mesh.vtk", "mesh.vtu", "mesh.bdf"):
            with self.subTest(name=name):
                path = self.folder / name
                meshio.write_points_cells(str(path), points, [("tetra", cells)])
                self.good("prepare", path, out, "--unit", "0.25", "--reader", "meshio")
                self.check(out, points, cells)

    def test_tetgen(self) -> None:
        needs(left_out("meshio", tools=["tetgen"]))
        faces = [(0, 1, 2, 3), (4, 5, 6, 7), (0, 1, 5, 4), (1, 2, 6, 5), (2, 3, 7, 6), (3, 0, 4, 7)]
        lines = ["8 3 0 0"] + [f"{i} {x} {y} {z}" for i, (x, y, z) in enumerate(CUBE)]
        lines += ["6 0"] + [line for face in faces for line in ("1", "4 %d %d %d %d" % face)]
        poly = self.file("cube.poly", "\n".join(lines + ["0", "0", ""]))
        subprocess.run(["tetgen", "-pqza0.05Q", poly.name], cwd=self.folder, check=True,
                       stdout=subprocess.DEVNULL)
        nodes = np.loadtxt(self.folder / "cube.1.node", skiprows=1)[:, 1:4]
        corners = np.loadtxt(self.folder / "cube.1.ele", skiprows=1, dtype=int)[:, 1:5]
        out = self.folder / "out.vtk"
        self.good("prepare", self.folder / "cube.1.ele", out, "--fit")
        self.check(out, nodes, corners)


def _grid() -> object:
    """A hexahedron, a tetrahedron on it and a triangle, in VTK."""
    from vtkmodules.vtkCommonCore import vtkIdList, vtkPoints
    from vtkmodules.vtkCommonDataModel import vtkUnstructuredGrid

    places = vtkPoints()
    places.SetDataTypeToDouble()
    for place in CUBE + [[0.5, 0.5, 2]]:
        places.InsertNextPoint(*(value * 0.25 for value in place))
    grid = vtkUnstructuredGrid()
    grid.SetPoints(places)
    for kind, corners in ((12, range(8)), (10, (4, 5, 6, 8)), (5, (0, 1, 2))):
        numbers = vtkIdList()
        for corner in corners:
            numbers.InsertNextId(corner)
        grid.InsertNextCell(kind, numbers)
    return grid


class Rounding(unittest.TestCase):
    def prepared(self, points: list[list[float]], cells: list[list[int]], wish: Wish) -> Prepared:
        source = Source(Reader.MESHIO, np.array(points, dtype=float))
        source.blocks.append((Shape.TETRAHEDRON, np.array(cells)))
        return prepare(source, wish)

    def test_what_is_lost(self) -> None:
        points = [[0, 0, 0], [4, 0, 0], [0, 4, 0], [0, 0, 4.25], [0.25, 0, 0], [9, 9, 9],
                  [9, 9, 9]]  # the last two were together before
        made = self.prepared(points, [[0, 1, 2, 3], [4, 1, 2, 3], [0, 4, 2, 3], [0, 0, 1, 2]],
                             Wish(unit=1.0))
        self.assertEqual(made.mesh.points.tolist()[3:],
                         [[0, 0, 4], [0, 0, 0], [9, 9, 9], [9, 9, 9]])
        self.assertEqual((made.error, made.error_point), (0.25, 3))
        self.assertEqual((made.together, made.flat, made.spare), (1, 1, 2))
        self.assertEqual(dict(made.dropped), {"tetrahedra with a point twice": 1})
        made = self.prepared(points, [[0, 1, 2, 3]], Wish(unit=0.25, drop_points=True))
        self.assertEqual((made.error, made.together, made.dropped_points), (0.0, 0, 3))
        self.assertEqual(made.mesh.points.tolist()[3], [0, 0, 17])

    def test_turned_over(self) -> None:
        points = [[0, 0, 0], [10, 0, 0], [0, 10, 0], [3, 3, 0.6], [3, 3, 0.4]]
        made = self.prepared(points, [[0, 1, 2, 4], [4, 3, 0, 1]], Wish(unit=1.0))
        self.assertEqual((made.flat, made.turned), (1, 0))
        made = self.prepared([[0, 0, 0.6], [10, 0, 0.6], [0, 10, 0.6], [4, 4, 0.7], [4, 4, 0.45]],
                             [[0, 1, 2, 3]], Wish(unit=0.5))
        self.assertEqual((made.flat, made.turned), (1, 0))
        made = self.prepared([[0, 0, 0.4], [10, 0, 0.4], [0, 10, 0.6], [4, 1, 0.45]],
                             [[0, 1, 2, 3]], Wish(unit=1.0))
        self.assertEqual((made.flat, made.turned), (0, 1))

    def test_scales(self) -> None:
        cell = [[0, 1, 2, 3]]
        points = [[5, 0, 0], [6, 0, 0], [5, 1, 0], [5, 0, 2]]
        made = self.prepared(points, cell, Wish())
        self.assertEqual(made.scale.unit, 1.0)
        made = self.prepared(points, cell, Wish(fit=True))
        self.assertEqual((made.scale.unit, made.mesh.points.max()), (1e-8, 600_000_000))
        made = self.prepared(points, cell, Wish(fit=True, centre=True))
        self.assertEqual((made.scale.unit, made.scale.origin), (1e-9, (5.5, 0.5, 1.0)))
        self.assertEqual(made.mesh.points[0].tolist(), [-500_000_000, -500_000_000, -10**9])
        made = self.prepared(points, cell, Wish(unit=0.5, origin=(5.0, 0.0, 0.0)))
        self.assertEqual(made.mesh.points.tolist(), [[0, 0, 0], [2, 0, 0], [0, 2, 0], [0, 0, 4]])

    def test_range_ends(self) -> None:
        most = float(2**30)
        made = self.prepared([[most, -most, 0], [0, 0, 0], [0, 1, 0], [0, 0, 1]],
                             [[0, 1, 2, 3]], Wish())
        self.assertEqual(made.mesh.points[0].tolist(), [2**30, -(2**30), 0])

    def test_exact_signs(self) -> None:
        far = 2**30
        points = np.array([[-far, -far, -far], [far, far, far], [far - 1, far, far],
                           [far, far - 1, far], [0, 0, 0]], dtype=np.int32)
        # a b c d: the last is twice on the line of the first two, and once off it
        cells = np.array([[0, 1, 2, 4], [0, 1, 2, 3], [0, 1, 3, 2]])
        self.assertEqual(signs(points, cells).tolist(), [0, 1, -1])


class Refused(FolderTest):
    def test_what_the_program_would_refuse(self) -> None:
        for points, cells, words in (
                (1_000_001, 1, "1,000,001 points (1,000,000 with --drop-points)"),
                (1_000_000, 4_000_001, "4,000,001 tetrahedra")):
            with self.subTest(words=words), self.assertRaises(UserError) as caught:
                _check_counts(points, cells, 1)
            self.assertIn(words, str(caught.exception))
        _check_counts(1_000_000, 4_000_000, 0)
        for place, words in ((2e9, "a unit of at least 2.0"), (0.5, "--unit U, or --fit")):
            with self.subTest(words=words), self.assertRaises(UserError) as caught:
                prepare(Source(Reader.MESHIO, np.array([[0, 0, place]])), Wish())
            self.assertIn(words, str(caught.exception))

    def test_files(self) -> None:
        needs(left_out("meshio", "vtkmodules"))
        out = self.folder / "out.vtk"
        for path in (self.folder / "none.msh", self.file("a.msh", "$MeshFormat\n9 9 9\n"),
                     self.file("b.vtk", "no mesh\n"), self.file("c.xyz", "1 2 3\n"),
                     self.file("d.vtu", "<a>"), self.folder):
            with self.subTest(path=path.name):
                self.assertIn("octopus-tools prepare: ", self.bad(4, "prepare", path, out, "--fit"))
                self.assertFalse(out.exists())
        self.assertEqual(list(self.folder.glob("*.part")), [])
        path = self.file("b.vtk", "no mesh\n")
        self.assertIn("another file to write", self.bad(4, "prepare", path, path, "--fit"))
        self.assertEqual(path.read_text(), "no mesh\n")


class Cutting(unittest.TestCase):
    def check(self, shape: Shape, points: np.ndarray, cells: np.ndarray, each: int,
              whole: float, outside: int) -> None:
        """That the tetrahedra fill the cells, and meet without gaps whatever the numbers."""
        for seed in range(20):
            turn = np.random.default_rng(seed).permutation(len(points))
            places = np.empty_like(points)
            places[turn] = points
            made = cut(shape, turn[cells].astype(np.int32))
            self.assertEqual(len(made), each * len(cells))
            self.assertAlmostEqual(volume(places, made), whole)
            triangles, _ = surface(Mesh(places, made))
            self.assertEqual(len(triangles), outside)

    def test_hexahedra(self) -> None:
        side = 3
        grid = np.arange((side + 1)**3).reshape((side + 1,) * 3)
        points = np.argwhere(grid >= 0)
        cells = np.array([[grid[i + a, j + b, k + c] for a, b, c in CUBE]
                          for i in range(side) for j in range(side) for k in range(side)])
        self.check(Shape.HEXAHEDRON, points, cells, 6, 27.0, 6 * 9 * 2)

    def test_wedges(self) -> None:
        points = np.array(CUBE + [[x, y, 2] for x, y in ((0, 0), (1, 0), (1, 1), (0, 1))])
        cells = np.array([[0, 1, 2, 4, 5, 6], [0, 2, 3, 4, 6, 7],
                          [4, 5, 6, 8, 9, 10], [4, 6, 7, 8, 10, 11]])
        self.check(Shape.WEDGE, points, cells, 3, 2.0, 4 + 2 * 8)

    def test_pyramids(self) -> None:
        points = np.array(CUBE + [[0.5, 0.5, 0.5]]) * 2
        rings = [(0, 1, 2, 3), (4, 5, 6, 7), (0, 1, 5, 4), (1, 2, 6, 5), (2, 3, 7, 6), (3, 0, 4, 7)]
        self.check(Shape.PYRAMID, points, np.array([[*ring, 8] for ring in rings]), 2, 8.0, 12)


class Surfaces(unittest.TestCase):
    def test_in_parts(self) -> None:
        rng = np.random.default_rng(7)
        cells = np.array([rng.permutation(150)[:4] for _ in range(1000)], dtype=np.int32)
        mesh = Mesh(np.zeros((150, 3), dtype=np.int32), cells)
        triangles, fourth = surface(mesh)
        count: dict[tuple[int, ...], int] = {}
        for cell in cells.tolist():
            for corner in cell:
                face = tuple(sorted(set(cell) - {corner}))
                count[face] = count.get(face, 0) + 1
        self.assertEqual([tuple(row) for row in triangles.tolist()],
                         sorted(face for face, n in count.items() if n == 1))
        have = {tuple(sorted(cell)) for cell in cells.tolist()}
        self.assertTrue(all(tuple(sorted([*row, f])) in have
                            for row, f in zip(triangles.tolist(), fourth.tolist())))
        for at_once in (300, 1000):
            again, behind = surface(mesh, at_once)
            self.assertTrue((again == triangles).all() and (behind == fourth).all())

    def test_nothing(self) -> None:
        mesh = Mesh(np.zeros((0, 3), dtype=np.int32), np.zeros((0, 4), dtype=np.int32))
        self.assertEqual(surface(mesh)[0].shape, (0, 3))


class Texts(FolderTest):
    def test_a_long_text_in_little_memory(self) -> None:
        rng = np.random.default_rng(1)
        mesh = Mesh(rng.integers(-2**30, 2**30, (40_000, 3), dtype=np.int32),
                    rng.integers(0, 40_000, (200_000, 4), dtype=np.int32))
        path = self.folder / "m.vtk"
        with path.open("wb") as out:
            self.assertEqual(write_mesh(out, "title", mesh), out.tell())
        tracemalloc.start()
        self.addCleanup(tracemalloc.stop)
        again = read_back(path)
        held, peak = tracemalloc.get_traced_memory()
        self.assertTrue((again.points == mesh.points).all() and (again.cells == mesh.cells).all())
        self.assertEqual(read_title(path), "title")
        self.assertLess(peak, again.points.nbytes + again.cells.nbytes + 16_000_000)
        self.assertLess(held, again.points.nbytes + again.cells.nbytes + 1_000_000)

    def test_broken_texts(self) -> None:
        from helpers import SPLIT_MESH

        for old, new in (("POINTS 6", "PUNKTE 6"), ("4 4 4\n2", "4 4\n2"), ("10\n10\n", "10\n12\n"),
                         ("CELL_TYPES 7", "CELL_TYPES 6"), ("4 0 4 2 5", "4 0 4 2 6"),
                         ("10\n10\n10\n10\n10\n10\n10\n", "10\n10\n")):
            with self.subTest(new=new), self.assertRaises(Exception) as caught:
                read_back(self.file("m.vtk", SPLIT_MESH.replace(old, new, 1)))
            self.assertIn("mesh text", str(caught.exception))


if __name__ == "__main__":
    unittest.main()
