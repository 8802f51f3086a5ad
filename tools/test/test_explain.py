"""Each refusal, explained at the right place. The places are worked out by hand."""
from __future__ import annotations

import unittest

from helpers import TETRA, FolderTest, needs, program, without_program
from octopus_tools.explain import _told, kind_of, FileKind
from octopus_tools.program import Program
from octopus_tools.refusals import (MESH_KINDS, SCRIPT_KINDS, Refusal, What, in_words,
                                    parse_refusal)

# The change of TETRA (from, to), the kind, and the line and column (from 1) of its place.
MESHES: list[tuple[str, str, str, int, int]] = [
    ("# vtk DataFile", "#vtk DataFile", "Magic", 1, 1),
    ("Version 3.0", "Version 6.0", "Version", 1, 24),
    ("one\n", "o" * 257 + "\n", "Title", 2, 1),
    ("ASCII", "BINARY", "Binary", 3, 1),
    ("ASCII", "TEXT", "Format", 3, 1),
    ("UNSTRUCTURED_GRID", "POLYDATA", "DataSet", 4, 9),
    ("POINTS", "PUNKTE", "Keyword", 5, 1),
    ("16 0 0\n0 16", "16 nan 0\n0 16", "Number", 7, 4),
    ("16 0 0\n0 16", "16 0.5 0\n0 16", "NotWhole", 7, 4),
    ("0 0 16\n", "0 0 1073741825\n", "Range", 9, 5),
    ("CELL_TYPES 1", "CELL_TYPES 2", "Count", 12, 12),
    ("POINTS 4 int", "POINTS 1000001 int", "Count", 5, 8),
    ("CELLS 1 5", "CELLS 1 6", "Size", 10, 9),
    ("CELLS 1 5", "CELLS 1 4", "Size", 11, 1),
    ("4 0 1 2 3", "4 0 1 2 4", "Index", 11, 9),
    ("1\n10\n", "1\n12\n", "CellType", 13, 1),
    ("1\n10\n", "1\n5\n", "CellSize", 13, 1),
    ("4 0 1 2 3", "4 0 1 2 2", "SameVertex", 13, 1),
    ("POINTS 4", "FIELD data 1\nnames 1 1 string\na\nPOINTS 4", "Field", 6, 11),
    ("CELL_TYPES 1\n10\n", "CELL_TYPES 1\n", "Truncated", 12, 14),
    ("CELL_TYPES 1\n10\n", "CELL_TYPES 1", "Truncated", 12, 13),
]

# The lines behind `octopus script 1`, the kind, and the line and column of its place.
SCRIPTS: list[tuple[list[str], str, int, int]] = [
    (["stay", "jump 1", "end"], "Word", 3, 1),
    (["shift 1 0", "end"], "Word", 2, 10),
    (["shift 1 0 0 0 # far", "end"], "Word", 2, 13),
    (["turn w", "end"], "Word", 2, 6),
    (["point 1 1 1", "end"], "Order", 3, 1),
    (["stay"] * 10001 + ["end"], "Limit", 10002, 1),
    (["shift  1 a 0", "end"], "Number", 2, 10),
    (["shake 1 2000", "end"], "Range", 2, 9),
    (["shift 0 0 1073741825", "end"], "Range", 2, 11),
    (["session", "\tbox 0 0 5  0 0 4", "end"], "Box", 3, 10),
    (["stay"], "Truncated", 2, 5),
    (["add 0 1 2 9", "stay", "end"], "NoPoint", 2, 5),
    (["add 0 1 2 1", "stay", "end"], "SameVertex", 2, 11),
    (["remove 0", "remove 0", "stay", "end"], "NoCell", 3, 8),
    (["session", "wait 1", "box 0 0 0 1 1 1", "end"], "NoStep", 3, 6),
]


def place(text: str, line: int, column: int) -> int:
    """The byte of a line and column."""
    return sum(len(part) for part in text.splitlines(keepends=True)[:line - 1]) + column - 1


def changed(old: str, new: str) -> str:
    """TETRA with one change."""
    assert TETRA.count(old) >= 1
    return TETRA.replace(old, new, 1)


def caret(lines: list[str]) -> tuple[int, str]:
    """The line number that is shown, and the rest of that line from the caret on."""
    number, bar, _ = lines[1].partition(" | ")
    assert bar and lines[2].replace("|", " ").strip() == "^"
    return int(number), lines[1][lines[2].index("^"):]


class Places(FolderTest):
    """What is told of a refusal, without the program."""

    def test_meshes(self) -> None:
        for old, new, kind, line, column in MESHES:
            with self.subTest(kind=kind, new=new[:30]):
                text = changed(old, new)
                path = self.file("mesh.vtk", text)
                refusal = Refusal(What.MESH, kind, place(text, line, column))
                lines = list(_told(path, refusal))
                self.assertIn(f"{kind} at byte {refusal.place} (line {line}, column {column})",
                              lines[0])
                rest = text.splitlines()[line - 1][column - 1:][:60]
                number, shown = caret(lines)
                self.assertEqual((number, shown.removesuffix("...")), (line, rest))
                self.assertIn(MESH_KINDS[kind].means, lines)

    def test_scripts(self) -> None:
        for script, kind, line, column in SCRIPTS:
            with self.subTest(kind=kind, line=script[line - 2:line - 1]):
                text = "\n".join(["octopus script 1", *script]) + "\n"
                path = self.file("script.txt", text)
                lines = list(_told(path, Refusal(What.SCRIPT, kind, line)))
                self.assertIn(f"{kind} on line {line}", lines[0])
                rest = text.splitlines()[line - 1][column - 1:].replace("\t", " ")
                self.assertEqual(caret(lines), (line, rest))
                self.assertIn(SCRIPT_KINDS[kind].means, lines)

    def test_header(self) -> None:
        path = self.file("script.txt", "octopus script 9\nend\n")
        lines = list(_told(path, Refusal(What.SCRIPT, "Header", 1)))
        self.assertEqual(caret(lines), (1, "octopus script 9"))

    def test_all_kinds_are_here(self) -> None:
        self.assertEqual({row[2] for row in MESHES}, set(MESH_KINDS))
        self.assertEqual({row[1] for row in SCRIPTS} | {"Header"}, set(SCRIPT_KINDS))

    def test_notes(self) -> None:
        path = self.file("script.txt", "octopus script 1\nshake 1 2000\nend\n")
        lines = list(_told(path, Refusal(What.SCRIPT, "Range", 2)))
        self.assertIn("Here amp is a whole number from 0 to 1000.", lines)
        path = self.file("mesh.vtk", changed("4 0 1 2 3", "4 0 1 2 2"))
        lines = list(_told(path, Refusal(What.MESH, "SameVertex", len(TETRA) - 3)))
        self.assertIn("Its points are 0 1 2 2 (line 11).", lines)

    def test_long_lines_are_cut(self) -> None:
        text = changed("0 0 16\n", " ".join(["0 0 16"] + ["7"] * 100 + ["x"] + ["7"] * 100) + "\n")
        path = self.file("mesh.vtk", text)
        lines = list(_told(path, Refusal(What.MESH, "Keyword", text.index("x"))))
        self.assertEqual(caret(lines)[0], 9)
        self.assertTrue(caret(lines)[1].startswith("x 7"))
        self.assertLess(len(lines[1]), 150)

    def test_a_long_file(self) -> None:
        path = self.folder / "mesh.vtk"
        with path.open("wb") as file:
            file.truncate(2**30 + 1)
        lines = list(_told(path, Refusal(What.LONG_MESH)))
        self.assertIn("1,073,741,825 bytes", lines[0])
        lines = list(_told(path, Refusal(What.LONG_SCRIPT)))
        self.assertIn("67,108,864", lines[1])

    def test_lines(self) -> None:
        self.assertEqual(parse_refusal(b"refused mesh NotWhole 84\n"),
                         Refusal(What.MESH, "NotWhole", 84))
        self.assertEqual(parse_refusal(b"refused step 4 3\n"), Refusal(What.STEP, "", 4, 3))
        self.assertEqual(parse_refusal(b"refused long script\n"), Refusal(What.LONG_SCRIPT))
        self.assertEqual(parse_refusal(b"refused usage\n"), Refusal(What.USAGE))
        self.assertIsNone(parse_refusal(b"count 2\n"))
        self.assertIn("makes 3 steps", in_words(Refusal(What.STEP, "", 4, 3)))

    def test_kind_of(self) -> None:
        self.assertIs(kind_of(self.file("a", "octopus script 9\n")), FileKind.SCRIPT)
        self.assertIs(kind_of(self.file("b", "#vtk\n")), FileKind.MESH)
        self.assertIs(kind_of(self.file("c.txt", "split\n")), FileKind.SCRIPT)


class ByTheProgram(FolderTest):
    """The same with the program's own refusals."""

    there: Program

    @classmethod
    def setUpClass(cls) -> None:
        needs(without_program("upgrade"))

    def test_meshes(self) -> None:
        for old, new, kind, line, column in MESHES:
            with self.subTest(kind=kind, new=new[:30]):
                path = self.file("mesh.vtk", changed(old, new))
                code, out, err = self.tool("explain", path, "--as", "mesh")
                self.assertEqual((code, err), (1, ""))
                self.assertIn(f"refused, {kind} at byte", out)
                self.assertIn(f"(line {line}, column {column})", out.splitlines()[0])

    def test_scripts(self) -> None:
        mesh = self.file("mesh.vtk", TETRA)
        for script, kind, line, _ in SCRIPTS:
            with self.subTest(kind=kind, line=script[line - 2:line - 1]):
                text = "\n".join(["octopus script 1", *script]) + "\n"
                path = self.file("script.txt", text)
                code, out, err = self.tool("explain", mesh, path)
                self.assertEqual((code, err), (1, ""))
                self.assertIn(f"{path}: refused, {kind} on line {line}\n", out)

    def test_alone_and_accepted(self) -> None:
        mesh = self.file("mesh.vtk", TETRA)
        script = self.file("script.txt", "octopus script 9\n")
        code, out, _ = self.tool("explain", script)
        self.assertEqual(code, 1)
        self.assertIn("refused, Header on line 1", out)
        script = self.file("script.txt", "octopus script 2\nstay\nend\n")
        self.assertIn("accepted", self.good("explain", script))
        self.assertIn("accepted", self.good("explain", mesh))
        self.assertIn("accepted together", self.good("explain", script, mesh))

    def test_no_such_file(self) -> None:
        self.assertIn("No such file", self.bad(4, "explain", self.folder / "none.vtk"))
        assert program() is not None


if __name__ == "__main__":
    unittest.main()
