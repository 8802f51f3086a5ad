"""What a user does wrong ends with one line and a code."""
from __future__ import annotations

import io
import os
import unittest
from unittest import mock

from helpers import SPLIT_REPORT, TETRA, FolderTest
from octopus_tools import packages
from octopus_tools.errors import Status, UserError
from octopus_tools.limits import MOST_COORDINATE
from octopus_tools.program import Program, Refused, find_program
from octopus_tools.progress import Progress
from octopus_tools.scale import Scale, fitting_unit, scale_of_title

STAND_IN = """#!/bin/sh
printf '{text}'
exit {status}
"""


class Words(FolderTest):
    def test_codes(self) -> None:
        for words in ([], ["fly"], ["prepare", "a.vtk"], ["show", "a", "b", "c"],
                      ["prepare", "a", "b", "--unit", "1", "--fit"],
                      ["explain", "a", "b", "--as", "mesh"], ["explain", "a", "b", "c"],
                      ["show", "a", "b", "c", "--png", "x", "--size", "9x9"]):
            with self.subTest(words=words):
                code, out, err = self.tool(*words)
                self.assertEqual((code, out), (int(Status.WORDS), ""))
                self.assertNotIn("Traceback", err)

    def test_help(self) -> None:
        for words in (["--help"], ["prepare", "--help"], ["explain", "--help"],
                      ["show", "--help"], ["timeline", "--help"], ["compare", "--help"]):
            self.assertIn("usage: octopus-tools", self.good(*words))

    def test_a_package_is_missing(self) -> None:
        mesh = self.file("m.vtk", TETRA)
        report = self.file("r.txt", SPLIT_REPORT)
        with mock.patch.object(packages, "is_there", lambda module: False):
            for words, line in ((["prepare", mesh, "out.vtk"], "apt install python3-numpy"),
                                (["compare", mesh, mesh], "apt install python3-numpy python3-vtk9"),
                                (["show", mesh, mesh, report, "--png", "x"],
                                 "numpy matplotlib are missing")):
                self.assertIn(line, self.bad(int(Status.MISSING), *words))
            self.good("timeline", report, "--svg", self.folder / "line.svg")

    def test_the_program_is_missing(self) -> None:
        with mock.patch.dict(os.environ, {"OCTOPUS": "", "PATH": str(self.folder)}):
            with self.assertRaises(UserError) as caught:
                find_program(None)
            self.assertIn("--octopus PATH", str(caught.exception))
            with self.assertRaises(UserError) as caught:
                find_program("./none")
            self.assertIs(caught.exception.status, Status.MISSING)

    def test_the_program_beside_us(self) -> None:
        self.file("octopus", STAND_IN.format(text="count 0\\n", status=0)).chmod(0o755)
        here = os.getcwd()
        self.addCleanup(os.chdir, here)
        os.chdir(self.folder)
        self.assertEqual(find_program("./octopus").ask("scan").head, b"count 0\n")


class Programs(FolderTest):
    def stand_in(self, text: str, status: int) -> Program:
        path = self.file("octopus", STAND_IN.format(text=text, status=status))
        path.chmod(0o755)
        return Program(path)

    def test_output(self) -> None:
        with self.stand_in("route scan\\ncount 0\\n", 0).output() as stream:
            self.assertEqual(stream.read(), b"route scan\ncount 0\n")
        with self.stand_in("", 0).output() as stream:
            self.assertEqual(stream.read(), b"")

    def test_refusals_and_broken_ends(self) -> None:
        for text, status, words in (("refused mesh NotWhole 84\\n", 7, "NotWhole at byte 84"),
                                    ("refused step 4 3\\n", 9, "makes 3 steps"),
                                    ("", 4, "isn't there"), ("", 3, "memory"),
                                    ("# vtk", 5, "couldn't write"), ("", 77, "status 77")):
            with self.subTest(text=text, status=status), self.assertRaises(Refused) as caught:
                with self.stand_in(text, status).output() as stream:
                    stream.read()
            self.assertIn(words, str(caught.exception))


    def test_a_text_that_breaks_off(self) -> None:
        """The reason is the program's end, and not what its reader met."""
        for status, words in ((3, "memory"), (0, "a reader's words")):
            with self.subTest(status=status), self.assertRaises(UserError) as caught:
                with self.stand_in("# vtk", status).output() as stream:
                    stream.read()
                    raise UserError("a reader's words")
            self.assertIn(words, str(caught.exception))


class Terminal(io.StringIO):
    """A stream that says it is a terminal."""

    def isatty(self) -> bool:
        return True


class Shown(unittest.TestCase):
    def test_progress(self) -> None:
        for out, words in ((Terminal(), "cells 50% (2 of 4)"), (io.StringIO(), "")):
            with Progress("cells", 4, out) as progress:
                progress.step(2)
            self.assertIn(words, out.getvalue())
            self.assertEqual(bool(out.getvalue()), bool(words))


class Scales(unittest.TestCase):
    def test_titles(self) -> None:
        for scale in (Scale(), Scale(0.001, (0.1, -2.5, 1e300)), Scale(1e-9)):
            self.assertEqual(scale_of_title(scale.title()), scale)
            self.assertLess(len(scale.title()), 256)
        self.assertIsNone(scale_of_title("octopus mesh"))

    def test_units(self) -> None:
        for largest, unit in ((1.0, 1e-9), (2**30, 1.0), (2**30 + 1, 2.0), (5.5e9, 10.0),
                              (0.0, 1.0), (2.0, 2e-9)):
            self.assertEqual(fitting_unit(largest), unit)
            self.assertLessEqual(largest / unit, MOST_COORDINATE)
        for unit in (0.0, -1.0, float("nan"), float("inf")):
            with self.assertRaises(UserError):
                Scale(unit)


if __name__ == "__main__":
    unittest.main()
