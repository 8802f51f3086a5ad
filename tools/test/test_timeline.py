"""The timeline of known reports."""
from __future__ import annotations

import unittest
import xml.etree.ElementTree as ElementTree
from pathlib import Path

from helpers import SPLIT_REPORT, FolderTest
from octopus_tools.journal import Kind, Replay, parse_event
from octopus_tools.report import Route, read_report

SVG = "{http://www.w3.org/2000/svg}"

# Two sessions: session 0 holds step 0 while step 1 comes, and step 0 is freed by its unpin.
TWO = """octopus report 1
steps 2
sessions 2
session 0 boxes 1
box 0 step 0 route scan count 0
session 1 boxes 1
box 0 step 1 route probe count 2
0 1
journal 7
pin 0 0
publish 1
pin 1 1
unpin 0 0
unpin 1 1
publish 2
close
end
"""


class Timelines(FolderTest):
    def draw(self, text: str) -> ElementTree.Element:
        svg = self.folder / "line.svg"
        self.good("timeline", self.file("report.txt", text), "--svg", svg)
        return ElementTree.parse(svg).getroot()

    def marks(self, root: ElementTree.Element, name: str) -> list[str]:
        return [title.text or "" for mark in root.iter() if mark.get("class") == name
                for title in mark.iter(f"{SVG}title")]

    def test_two_sessions(self) -> None:
        root = self.draw(TWO)
        self.assertEqual(self.marks(root, "publish"), ["publish 1", "publish 2"])
        self.assertEqual(self.marks(root, "pin"), ["session 0 has step 0, events 0 to 3",
                                                   "session 1 has step 1, events 2 to 4"])
        self.assertEqual(self.marks(root, "freed"), ["step 0 is freed", "step 1 is freed"])
        self.assertEqual(self.marks(root, "close"), ["close"])
        # events are 14 pixels apart from 110 on, lanes 34 from 50 on
        bars = [bar for bar in root.iter(f"{SVG}rect") if bar.get("class") == "pin"]
        self.assertEqual([(bar.get("x"), bar.get("y"), bar.get("width")) for bar in bars],
                         [("117.00", "92.0", "42.00"), ("145.00", "126.0", "28.00")])
        freed = [mark for mark in root.iter(f"{SVG}circle")]
        self.assertEqual([(mark.get("cx"), mark.get("cy")) for mark in freed],
                         [("159.00", "169.0"), ("187.00", "169.0")])

    def test_held_steps(self) -> None:
        replay = Replay(2, 2)
        lines = TWO.splitlines()[-8:-1]
        held = []
        for line in lines:
            replay.play(parse_event(line))
            held.append(len(replay.held()))
        self.assertEqual(held, [1, 2, 2, 1, 1, 1, 1])

    def test_a_thousand_events(self) -> None:
        turns = "pin 0 1\nunpin 0 1\n" * 500
        boxes = "".join(f"box {q} step 1 route scan count 0\n" for q in range(500))
        text = (f"octopus report 1\nsteps 1\nsessions 1\nsession 0 boxes 500\n{boxes}"
                f"journal 1002\npublish 1\n{turns}close\nend\n")
        self.assertEqual(len(self.marks(self.draw(text), "pin")), 500)

    def test_refused_journals(self) -> None:
        for old, new, words in (("publish 2\nclose", "close\npublish 2", "line 16: publish 2"),
                                ("pin 1 1", "pin 1 0", "line 12: pin 1 0"),
                                ("unpin 0 0", "unpin 0 1", "line 13: unpin 0 1"),
                                ("pin 1 1", "pin 2 1", "line 12: pin 2 1"),
                                ("publish 2", "publish 3", "line 15: publish 3"),
                                ("journal 7", "journal 6", "another number of events"),
                                ("publish 2\n", "publish x\n", "line 15: no event"),
                                ("publish 2\nclose\nend", "publish 2\nclose\n", "no end")):
            with self.subTest(new=new):
                self.assertIn(old, TWO)
                svg = self.folder / "line.svg"
                report = self.file("report.txt", TWO.replace(old, new, 1)
                                   if old != "pin 1 1" else TWO.replace("\n" + old, "\n" + new, 1))
                self.assertIn(words, self.bad(4, "timeline", report, "--svg", svg))
                self.assertFalse(svg.exists())


class Reports(FolderTest):
    def test_answers(self) -> None:
        report = read_report(self.file("report.txt", SPLIT_REPORT))
        self.assertEqual((report.steps, report.events, report.journal_line), (1, 6, 10))
        first, second = report.answers[0]
        self.assertEqual((first.step, first.route, first.count), (1, Route.WALK, 1))
        self.assertEqual((second.route, second.place),
                         (Route.PROBE, SPLIT_REPORT.index("\n1\n") + 1))
        self.assertEqual([event.kind for _, event in report.journal()][:3],
                         [Kind.PUBLISH, Kind.CLOSE, Kind.PIN])

    def test_refused(self) -> None:
        for old, new, words in (("report 1", "report 2", "line 1"), ("steps 1", "steps", "line 2"),
                                ("session 0", "session 1", "line 4"),
                                ("box 1", "box 2", "line 7"), ("route walk", "route run", "line 5"),
                                ("step 1", "step 2", "line 5: step 2 isn't there")):
            with self.subTest(new=new):
                report = self.file("report.txt", SPLIT_REPORT.replace(old, new, 1))
                self.assertIn(words, self.bad(4, "timeline", report, "--svg",
                                              self.folder / "line.svg"))
        self.assertIn("No such file", self.bad(4, "timeline", Path("none.txt"), "--svg", "x.svg"))


if __name__ == "__main__":
    unittest.main()
