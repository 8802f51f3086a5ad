#!/usr/bin/env python3
"""Large meshes under limits of memory, and four runs at once: how the runs of the built program ended.

Usage: large.py [PROGRAM]     (default: the program that the gate built)

The meshes are the block of 87 cubes a side, and that block with points and cells added up to 1,000,000 and 4,000,000, the most that
a mesh may have. Each run has to end by itself with its answer or with status 3, and with nothing on the standard error.
"""
import pathlib
import resource
import subprocess
import sys
import tempfile
from concurrent.futures import ThreadPoolExecutor

TOP = pathlib.Path(__file__).resolve().parents[2]
SECONDS = 300
MEMORY = 3
LIMITS = [32, 64, 128, 256, 512, 1024, 2048, 4096]
MOST_POINTS, MOST_CELLS = 1_000_000, 4_000_000
BOX = ["0", "0", "0", "64", "64", "64"]
# A mesh that has the most points and cells takes no split.
SCRIPT = "octopus script 2\nEDITshake 1 3\nsession\nwait 1\nbox 0 0 0 64 64 64\nend\n"


def filled(block: str) -> str:
    """The block with further points and cells, up to the most of each. The cells are those that it has, once more."""
    head, rest = block.split("POINTS ", 1)
    points_line, rest = rest.split("\n", 1)
    points, rest = rest.split("CELLS ", 1)
    cells_line, rest = rest.split("\n", 1)
    cells, types = rest.split("CELL_TYPES ", 1)
    point_count, cell_count = int(points_line.split()[0]), int(cells_line.split()[0])
    more = MOST_CELLS - cell_count
    again = "".join(line + "\n" for line in cells.split("\n", more)[:more])
    return (
        f"{head}POINTS {MOST_POINTS} int\n{points}" + "1 1 1\n" * (MOST_POINTS - point_count)
        + f"CELLS {MOST_CELLS} {5 * MOST_CELLS}\n{cells}{again}"
        + f"CELL_TYPES {MOST_CELLS}\n" + types.split("\n", 1)[1] + "10\n" * more
    )


class Runs:
    def __init__(self, program: str, folder: pathlib.Path) -> None:
        self.program, self.folder = program, folder
        self.faults: list[str] = []

    def end(self, words: list[str], mib: int | None) -> tuple[int, bytes]:
        """The status and the output, with at most so much address space."""

        def limit() -> None:
            if mib is not None:
                resource.setrlimit(resource.RLIMIT_AS, (mib * 2**20, mib * 2**20))

        run = subprocess.run(
            [self.program, *words], cwd=self.folder, stdin=subprocess.DEVNULL, capture_output=True, timeout=SECONDS, check=False, preexec_fn=limit
        )
        if run.stderr:
            self.faults.append(f"{' '.join(words)} with {mib} MiB: wrote {run.stderr[:80]!r} to the standard error")
        return run.returncode, run.stdout

    def try_limits(self, words: list[str]) -> None:
        """Prints the least of the limits with which there is an answer."""
        due = self.end(words, None)
        if due[0] != 0:
            self.faults.append(f"{' '.join(words)}: status {due[0]} without a limit")
        enough = None
        for mib in LIMITS:
            status, out = self.end(words, mib)
            if (status, out) == due or (status == 0 and words[0] == "run"):
                enough = enough or mib
            elif status != MEMORY or out:
                self.faults.append(f"{' '.join(words)} with {mib} MiB: status {status} with {out[:60]!r}")
        print(f"{' '.join(words)}: status 3 below {enough} MiB, the answer from there on", flush=True)

    def side_by_side(self, words: list[str]) -> None:
        due = self.end(words, None)
        with ThreadPoolExecutor(4) as pool:
            for other in pool.map(lambda _: self.end(words, None), range(4)):
                if other != due:
                    self.faults.append(f"{' '.join(words)}: another answer beside three others than alone")


def main() -> int:
    program = pathlib.Path(sys.argv[1] if len(sys.argv) > 1 else TOP / "crates/octopus/out/octopus").resolve()
    if not program.exists():
        print("no built program: run rt ci first")
        return 1
    with tempfile.TemporaryDirectory() as name:
        folder = pathlib.Path(name)
        runs = Runs(str(program), folder)
        block = runs.end(["gen", "87"], None)[1].decode()
        (folder / "block.vtk").write_text(block)
        (folder / "most.vtk").write_text(filled(block))
        for mesh, edit in (("block.vtk", "split 7 5 5 5\n"), ("most.vtk", "")):
            (folder / "script.txt").write_text(SCRIPT.replace("EDIT", edit))
            for words in (["scan", mesh, *BOX], ["surface", mesh], ["box", mesh, *BOX], ["cells", mesh, *BOX, "some"],
                          ["rings", mesh, *BOX, "2"], ["step", mesh, "script.txt", "1"], ["run", mesh, "script.txt"]):
                runs.try_limits(words)
        runs.side_by_side(["box", "most.vtk", *BOX])
    for fault in runs.faults:
        print(fault)
    print(f"{len(runs.faults)} faults")
    return 1 if runs.faults else 0


if __name__ == "__main__":
    sys.exit(main())
