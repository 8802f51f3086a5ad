"""Tables of whole commands, ours and C++, the least of ROUNDS runs each.

Usage: measure.py PROGRAM PEER MADE FOLDER [options] [CUBES..]
"""
import argparse
import filecmp
import multiprocessing
import os
import pathlib
import shutil
import signal
import sys
import time
from dataclasses import dataclass

import texts

SECTIONS = ["commands", "steps", "runs", "slow-mesh"]
SIZES = {"commands": [20, 40, 60, 87], "steps": [60, 87], "runs": [60, 87]}
ONCE = 20  # a run of more seconds isn't done again


@dataclass
class Used:
    """What a run took: processor seconds, seconds, MB at its peak."""

    processor: float
    wall: float
    peak: int


def timed(words: list[str], out: pathlib.Path, limit: int) -> Used | None:
    """One run, which writes to `out`; nothing where it was stopped after `limit` seconds."""
    start = time.monotonic()
    child = os.fork()
    if child == 0:
        os.dup2(os.open(out, os.O_WRONLY | os.O_CREAT | os.O_TRUNC), 1)
        os.execv(words[0], words)
    signal.signal(signal.SIGALRM, lambda *_: os.kill(child, signal.SIGKILL))
    signal.alarm(limit)
    _, status, usage = os.wait4(child, 0)
    signal.alarm(0)
    wall = time.monotonic() - start
    if status == signal.SIGKILL and wall >= limit:
        return None
    if status != 0:
        sys.exit(f"{' '.join(words)}: ended with {status}")
    return Used(usage.ru_utime + usage.ru_stime, wall, usage.ru_maxrss // 1024)


class Differ(Exception):
    """Two programs don't say the same."""


def apart(work, *args: object) -> str:
    """Does it in a process of its own, since the peak of a run is no less than what this process has when it begins."""
    with multiprocessing.Pool(1) as pool:
        return pool.apply(work, args)


def cells_of(mesh: pathlib.Path) -> list[list[str]]:
    lines = mesh.read_text().split("\n")
    first = next(i for i, line in enumerate(lines) if line.startswith("CELLS "))
    return [line.split()[1:] for line in lines[first + 1 : first + 1 + int(lines[first].split()[1])]]


def write_changes(mesh: pathlib.Path, script: pathlib.Path) -> None:
    """A script for this mesh."""
    texts.written(script, texts.changes(10, cells_of(mesh)))


def answers(report: pathlib.Path) -> list[str]:
    """The lines of the boxes of a report."""
    lines = report.read_text().split("\n")
    end = next(i for i, line in enumerate(lines) if line.startswith("journal "))
    return [line for line in lines[:end] if line[0] in "b0123456789"]


def same_as_again(ours: pathlib.Path, again: pathlib.Path, of: str) -> None:
    """Each answer of ours is that of C++ about the same step."""
    if answers(ours) != again.read_text().split("\n")[:-1]:
        raise Differ(f"{of}: the answers differ from those of C++ about the same steps")


def same_ways(reports: list[pathlib.Path], of: str) -> str:
    """The scan and the grid agree, in each program; for how many boxes they find more than the surface leads to."""
    octo, scan, grid = (answers(report) for report in reports[:3])
    if scan != grid:
        raise Differ(f"{of}: the answers of the scan and the grid differ")
    for mine, theirs in zip(reports[:3], reports[3:]):
        if answers(mine) != answers(theirs):
            raise Differ(f"{of}: the answers of {mine.name} differ from those of the other program")
    counts = [[line.split()[-1] for line in lines if line[0] == "b"] for lines in (octo, scan)]
    more = sum(a != b for a, b in zip(*counts))
    return f"{of}: for {more} of {len(counts[0])} boxes, which aren't covered, the scan finds more." if more else ""


class Bench:
    """The programs, the folder for their files, and how often they run."""

    def __init__(self, got: argparse.Namespace) -> None:
        self.program, self.peer, self.made, self.beside = got.program, got.peer, got.made, got.beside
        self.folder: pathlib.Path = got.folder
        self.rounds, self.limit, self.sizes, self.cells = got.rounds, got.limit, got.cubes, got.cells
        self.notes: list[str] = []  # for below the table

    def least(self, words: list[str], out: str) -> Used | None:
        runs: list[Used] = []
        for _ in range(self.rounds):
            run = timed(words, self.folder / out, self.limit)
            if run is None:
                return None
            runs.append(run)
            if run.wall > ONCE:
                break
        return Used(*(min(column) for column in zip(*((r.processor, r.wall, r.peak) for r in runs))))

    def block(self, cubes: int) -> pathlib.Path:
        path = self.folder / "block.vtk"
        timed([self.program, "gen", str(cubes)], path, self.limit)
        return path

    def mixed(self, mesh: pathlib.Path) -> pathlib.Path:
        path = self.folder / "mixed.vtk"
        timed([self.made, "mixed", str(mesh)], path, self.limit)
        return path

    def head(self, *first: str) -> None:
        heads = [*first, "Ours, s", "C++, s", "Times", "Peak, MB", "C++, MB"]
        heads += ["Beside, s", "Times", "Beside, MB"] if self.beside else []
        print("| " + " | ".join(heads) + " |\n" + "|---" * len(heads) + "|", flush=True)

    def row(self, first: list[str], line: list[str], beside: bool = True) -> Used | None:
        """Times a command line of all programs, and compares what they write."""
        ours = self.least([self.program, *line], "ours")
        others = []
        form = line if line[0] == "step" else ["cmd", *line]
        for program in [self.peer, *([self.beside] if self.beside and beside else [])]:
            others.append(self.least([program, *form], "theirs"))
            if ours and others[-1] and not filecmp.cmp(self.folder / "ours", self.folder / "theirs", shallow=False):
                sys.exit(f"{', '.join(first)}: the output differs from that of {program}")
        cells = [self.shown(ours), self.shown(others[0]), times(ours, others[0]), peak(ours), peak(others[0])]
        if self.beside:
            cells += [self.shown(others[1]), times(ours, others[1]), peak(others[1])] if beside else ["", "", ""]
        print("| " + " | ".join([*first, *cells]) + " |", flush=True)
        return ours

    def check_again(self, block: str, script: str, of: str) -> None:
        """Compares the report that ours wrote last, box by box."""
        timed([self.peer, "again", str(self.folder / "ours"), block, script], self.folder / "again", self.limit)
        apart(same_as_again, self.folder / "ours", self.folder / "again", of)

    def shown(self, used: Used | None) -> str:
        return f"{used.processor:.2f}" if used else f"over {self.limit}"

    def script(self, name: str, lines: list[str], version: int = 1) -> str:
        return str(texts.written(self.folder / name, lines, version))


def times(ours: Used | None, other: Used | None) -> str:
    return f"{ours.processor / max(other.processor, 0.001):.1f}" if ours and other else ""


def peak(used: Used | None) -> str:
    return str(used.peak) if used else ""


def commands(bench: Bench) -> None:
    """Single commands on blocks, and on the same blocks numbered at random."""
    bench.head("Mesh", "Command")
    for cubes in bench.sizes or SIZES["commands"]:
        block = bench.block(cubes)
        end, half = str(4 * cubes), str(8 * cubes)
        corner, middle = ["0", "0", "0", end, end, end], ["0", "0", "0", half, half, half]
        for mesh, what in ((block, f"block of {cubes}"), (bench.mixed(block), f"{cubes} at random")):
            bench.row([what, "scan"], ["scan", str(mesh), *corner])
            bench.row([what, "surface"], ["surface", str(mesh)])
            bench.row([what, "box"], ["box", str(mesh), *corner])
            bench.row([what, "cells"], ["cells", str(mesh), *middle, "some"], beside=False)
            bench.row([what, "rings"], ["rings", str(mesh), *middle, "2"], beside=False)


def steps(bench: Bench) -> None:
    """`step` with no step, with ten of each motion and number of splits, and with a thousand."""
    bench.head("Mesh", "Steps", "Splits a step", "Motion")
    sizes = bench.sizes or SIZES["steps"]
    for cubes in sizes:
        block, what, cells = str(bench.block(cubes)), f"block of {cubes}", 6 * cubes**3
        script = bench.script("script", texts.steps(1, 0, "stay", cells))
        bench.row([what, "0", "", ""], ["step", block, script, "0"])
        for motion in texts.MOTIONS:
            for each in dict.fromkeys(texts.possible(splits, 10, cells) for splits in (0, 1, 100, 10_000)):
                script = bench.script("script", texts.steps(10, each, motion, cells))
                bench.row([what, "10", str(each), motion.split()[0]], ["step", block, script, "10"])
        if cubes == sizes[0]:
            count = texts.possible(1, 1000, cells) * 1000 or 10
            script = bench.script("script", texts.steps(count, 1, "stay", cells))
            bench.row([what, str(count), "1", "stay"], ["step", block, script, str(count)])
    pinned(bench, sizes[0])


def pinned(bench: Bench, cubes: int) -> None:
    """A run of a thousand steps of one split beside a session that has step 0 pinned."""
    block, cells = bench.block(cubes), 6 * cubes**3
    count = texts.possible(1, 1000, cells) * 1000 or 10
    script = bench.script("script", texts.pinned(count, cubes, 10_000 if count == 1000 else 10), 2)
    ours = bench.least([bench.program, "run", str(block), script], "ours")
    report = str(bench.folder / "theirs")
    peer = bench.least([bench.peer, "octo", "-t", "2", "--report", report, str(block), script], "none")
    bench.notes.append(
        f"`run` of {count} steps of one split on the block of {cubes}, and a session of one held turn: "
        f"ours {both(ours)}, peak {peak(ours)} MB; "
        f"C++, which makes no step before the answers, {both(peer)}, peak {peak(peer)} MB."
    )
    if ours:
        bench.check_again(str(block), script, "held turn")
        bench.notes.append(apart(how_pinned, bench.folder / "ours", count))


def how_pinned(report: pathlib.Path, count: int) -> str:
    lines = report.read_text().split("\n")
    pin = next(i for i, line in enumerate(lines) if line.startswith("pin 0 "))
    free, last = lines.index("un" + lines[pin]), lines.index(f"publish {count}")
    left = sum(line.startswith("publish ") for line in lines[free:])
    till = "after the last step" if free > last else f"{left} steps were left"
    return f"The session had step {lines[pin].split()[2]} pinned till {till}."


def both(used: Used | None) -> str:
    """Seconds, and processor seconds."""
    return f"{used.wall:.2f} s ({used.processor:.2f})" if used else "over the limit"


def runs(bench: Bench) -> None:
    """Whole runs on one processor and on all, beside three ways in C++."""
    first = ["Block", "Boxes", "Sessions", "Processors"]
    heads = [*first, "Ours", "C++ octo", "C++ scan", "C++ grid", "Times octo", "Peak, MB", "octo, MB"]
    heads += ["Beside octo", "Beside scan", "Beside grid"] if bench.beside else []
    print("Seconds, and processor seconds in brackets.\n")
    print("| " + " | ".join(heads) + " |\n" + "|---" * len(heads) + "|", flush=True)
    for cubes in bench.sizes or SIZES["runs"]:
        block = str(bench.block(cubes))
        for share in (0.0001, 0.001, 0.01):
            for sessions in (1, 8):
                script = bench.script("script", texts.whole_run(cubes, share, sessions))
                for alone in (True, False):
                    what = [str(cubes), f"{100 * share:g} %", str(sessions), "one" if alone else "all"]
                    one_run(bench, what, block, script, alone)


def one_run(bench: Bench, first: list[str], block: str, script: str, alone: bool) -> None:
    before = [shutil.which("taskset") or sys.exit("there is no taskset"), "-c", "0"] if alone else []
    threads = "1" if alone else str(os.cpu_count())
    ours = bench.least([*before, bench.program, "run", block, script], "ours")
    others: list[Used | None] = []
    reports = []
    for program in [bench.peer, *([bench.beside] if bench.beside else [])]:
        for way in ("octo", "scan", "grid"):
            reports.append(bench.folder / f"{way}{len(others)}")
            line = [program, way, "-t", threads, "--report", str(reports[-1]), block, script]
            others.append(bench.least([*before, *line], "none"))
    if ours:
        bench.check_again(block, script, ", ".join(first))
    if None not in others:
        bench.notes.append(apart(same_ways, reports, ", ".join(first)))
    ratio = f"{ours.wall / max(others[0].wall, 0.001):.1f}" if ours and others[0] else ""
    cells = [both(ours), *map(both, others[:3]), ratio, peak(ours), peak(others[0]), *map(both, others[3:])]
    print("| " + " | ".join([*first, *cells]) + " |", flush=True)


def slow_mesh(bench: Bench) -> None:
    """Meshes whose faces collide in a map by their hash, the same numbered at random, and a block of as many cells."""
    cubes = max(1, round((bench.cells / 6) ** (1 / 3)))
    block = bench.block(cubes)
    base = slow_rows(bench, block, f"block of {cubes}", None, {})
    for kind in ("sums", "fold"):
        timed([bench.made, kind, str(bench.cells), str(bench.folder)], bench.folder / "none", bench.limit)
        mesh = bench.folder / f"{kind}.vtk"
        slow_rows(bench, mesh, f"{kind}", kind, base)
        slow_rows(bench, bench.mixed(mesh), f"{kind}, at random", None, base)


def slow_rows(
    bench: Bench, mesh: pathlib.Path, what: str, kind: str | None, base: dict[str, Used | None]
) -> dict[str, Used | None]:
    """Building and edits; and how many times what they take on the block."""
    splits, changes = bench.folder / f"{kind}-splits.txt", bench.folder / f"{kind}-changes.txt"
    if kind is None:
        cells = bench.cells if base else 6 * max(1, round((bench.cells / 6) ** (1 / 3))) ** 3
        texts.written(splits, texts.steps(10, texts.possible(100, 10, cells), "stay", cells))
        apart(write_changes, mesh, changes)
    if not base:
        bench.head("Mesh", "Command")
    took = {}
    commands = {
        "surface": ["surface", str(mesh)],
        "box": ["box", str(mesh), "0", "0", "0", "200", "200", "200"],
        "step 0": ["step", str(mesh), str(splits), "0"],
        "step, 10 of 100 splits": ["step", str(mesh), str(splits), "10"],
        "step, 10 of 50 removes and adds": ["step", str(mesh), str(changes), "10"],
    }
    for name, line in commands.items():
        took[name] = bench.row([what, name], line)
    if base:
        ratios = [f"{name} {times(took[name], base[name]) or 'more than the limit'}" for name in took]
        bench.notes.append(f"Times the block, {what}: {', '.join(ratios)}.")
    return took


def main() -> None:
    words = argparse.ArgumentParser()
    words.add_argument("program")
    words.add_argument("peer")
    words.add_argument("made")
    words.add_argument("folder", type=pathlib.Path)
    words.add_argument("-r", "--rounds", type=int, default=3, help="runs of each, of which the least counts")
    words.add_argument("--only", action="append", choices=SECTIONS, help="one table; may be given several times")
    words.add_argument("--beside", help="another program in C++ that is called as the peer is")
    words.add_argument("--limit", type=int, default=600, help="seconds after which a run is stopped")
    words.add_argument("--cells", type=int, default=1_000_000, help="cells of the slow meshes")
    words.add_argument("cubes", nargs="*", type=int, help="cubes a side, in place of each table's own sizes")
    got = words.parse_intermixed_args()
    bench = Bench(got)
    tables = {"commands": commands, "steps": steps, "runs": runs, "slow-mesh": slow_mesh}
    for name in got.only or SECTIONS:
        print(f"## {name}\n")
        try:
            tables[name](bench)
        except Differ as fault:
            sys.exit(str(fault))
        for note in filter(None, bench.notes):
            print(f"\n{note}")
        print(flush=True)
        bench.notes.clear()


if __name__ == "__main__":
    main()
