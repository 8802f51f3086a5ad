"""The four commands of docs/PREPARING.md, from a mesh of gmsh to a picture."""
from __future__ import annotations

import subprocess
import unittest

from helpers import ROOT, FolderTest, left_out, needs, program, without_program

EXAMPLE = ROOT / "tools" / "example"


class FourCommands(FolderTest):
    def test_from_gmsh_to_a_picture(self) -> None:
        needs(left_out("numpy", "meshio", "matplotlib", tools=["gmsh"]))
        needs(without_program("run"))
        there = program()
        assert there is not None
        source, mesh = self.folder / "part.msh", self.folder / "part.vtk"
        report, picture = self.folder / "report.txt", self.folder / "answer.png"
        script = EXAMPLE / "run.txt"
        # coarser than on the page, to take less time
        subprocess.run(["gmsh", "-3", str(EXAMPLE / "part.geo"), "-o", str(source),
                        "-setnumber", "Mesh.MeshSizeFactor", "3"],
                       check=True, stdout=subprocess.DEVNULL)
        self.assertIn("flat      0 tetrahedra", self.good("prepare", source, mesh,
                                                          "--unit", "0.00001"))
        self.assertIn("accepted together", self.good("explain", mesh, script))
        there.save(report, "run", str(mesh), str(script))
        told = self.good("show", mesh, script, report, "--png", picture)
        self.assertIn("session 0  box 0  step 2  route probe", told)
        self.assertEqual(picture.read_bytes()[:4], b"\x89PNG")


if __name__ == "__main__":
    unittest.main()
