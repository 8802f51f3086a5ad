"""What the tests share: sample texts, the program, and a folder for each test."""
from __future__ import annotations

import contextlib
import functools
import io
import os
import shutil
import tempfile
import unittest
from pathlib import Path
from typing import Sequence

from octopus_tools import packages
from octopus_tools.cli import main
from octopus_tools.program import VARIABLE, Program

ROOT = Path(__file__).resolve().parents[2]

# One tetrahedron with edges of 16, and what two splits make of it: the vertices 0 to 3
# are the surface, 4 and 5 lie inside.
TETRA = """# vtk DataFile Version 3.0
one
ASCII
DATASET UNSTRUCTURED_GRID
POINTS 4 int
0 0 0
16 0 0
0 16 0
0 0 16
CELLS 1 5
4 0 1 2 3
CELL_TYPES 1
10
"""

SPLIT_MESH = """# vtk DataFile Version 3.0
octopus mesh
ASCII
DATASET UNSTRUCTURED_GRID
POINTS 6 int
0 0 0
16 0 0
0 16 0
0 0 16
4 4 4
2 6 3
CELLS 7 35
4 4 1 2 3
4 0 1 4 3
4 0 1 2 4
4 5 4 2 3
4 0 5 2 3
4 0 4 5 3
4 0 4 2 5
CELL_TYPES 7
10
10
10
10
10
10
10
"""

# The first box is covered. Of the second the answer has vertex 1 and lacks vertex 5.
SPLIT_SCRIPT = """octopus script 1
split 0 4 4 4
split 2 2 6 3
stay
session
wait 1
box 4 4 4 4 4 4
box 2 0 0 16 6 3
end
"""

SPLIT_REPORT = """octopus report 1
steps 1
sessions 1
session 0 boxes 2
box 0 step 1 route walk count 1
4
box 1 step 1 route probe count 1
1
journal 6
publish 1
close
pin 0 1
unpin 0 1
pin 0 1
unpin 0 1
end
"""


def left_out(*modules: str, tools: Sequence[str] = ()) -> str | None:
    """Why a test with these packages can't run, or None."""
    absent = [tool for tool in tools if shutil.which(tool) is None]
    if absent:
        return f"{' '.join(absent)} is missing: apt install {' '.join(absent)}"
    return packages.missing(modules)


@functools.cache
def program() -> Program | None:
    """The program by the variable OCTOPUS, on the PATH, or built in this repository."""
    built = ROOT / "crates" / "octopus" / "out" / "octopus"
    for name in (os.environ.get(VARIABLE), "octopus", str(built)):
        found = shutil.which(name) if name else None
        if found is not None:
            return Program(Path(found))
    return None


@functools.cache
def without_program(command: str) -> str | None:
    """Why a test that needs a command of the program can't run, or None."""
    there = program()
    if there is None:
        return f"the program octopus isn't built ({VARIABLE} may name it)"
    with tempfile.TemporaryDirectory() as folder:
        mesh, script = Path(folder, "m.vtk"), Path(folder, "s.txt")
        mesh.write_text(TETRA)
        script.write_text("octopus script 1\nend\n")
        words = {"step": [str(mesh), str(script), "0"], "run": [str(mesh), str(script)],
                 "scan": [str(mesh), *"000000"], "upgrade": [str(script)]}[command]
        if there.ask(command, *words).status != 0:
            return f"the program octopus that is there has no command {command}"
    return None


def needs(reason: str | None) -> None:
    """Leaves the test out where there is a reason."""
    if reason is not None:
        raise unittest.SkipTest(reason)


class FolderTest(unittest.TestCase):
    """A test with a folder of its own."""

    def setUp(self) -> None:
        folder = tempfile.TemporaryDirectory(prefix="octopus-tools-test-")
        self.addCleanup(folder.cleanup)
        self.folder = Path(folder.name)

    def file(self, name: str, text: str | bytes) -> Path:
        """A file of the folder with this text."""
        path = self.folder / name
        path.write_bytes(text.encode() if isinstance(text, str) else text)
        return path

    def tool(self, *words: object) -> tuple[int, str, str]:
        """Runs a command of the tools: its exit code, output and errors."""
        out, err = io.StringIO(), io.StringIO()
        there = program()
        with contextlib.redirect_stdout(out), contextlib.redirect_stderr(err):
            old = os.environ.get(VARIABLE)
            if there is not None:
                os.environ[VARIABLE] = str(there.path)
            try:
                code = main([str(word) for word in words])
            except SystemExit as ended:
                code = int(ended.code or 0)
            finally:
                os.environ.pop(VARIABLE, None)
                if old is not None:
                    os.environ[VARIABLE] = old
        return code, out.getvalue(), err.getvalue()

    def good(self, *words: object) -> str:
        """The output of a command that has to end well."""
        code, out, err = self.tool(*words)
        self.assertEqual((code, err), (0, ""), out)
        return out

    def bad(self, code: int, *words: object) -> str:
        """The one line of a command that has to end with this code."""
        got, _, err = self.tool(*words)
        self.assertEqual(got, code, err)
        self.assertEqual(err.count("\n"), 1, err)
        return err
