#!/usr/bin/env python3
"""Refuses each allocation of the program in turn, and looks at how the run ends.

Usage: refused.py PROGRAM SHIM
"""
import os
import pathlib
import subprocess
import sys
import tempfile

DATA = pathlib.Path(__file__).resolve().parents[2] / "crates/octopus/data"
SECONDS = 20
MEMORY = 3
BOX = ["4", "4", "4", "4", "4", "4"]

# Every box waits for the last step, so that all of a report but its journal is the same in each run.
SCRIPT = """octopus script 2
split 0 4 4 4
relax
shake 7 3
session
wait 2
box 0 0 0 16 16 16
hold
box 4 4 4 4 4 4
box 0 0 0 16 16 16
free
session
wait 2
box 16 0 0 16 0 0
end
"""

COMMANDS = [
    ["scan", "split.vtk", *BOX],
    ["surface", "split.vtk"],
    ["box", "split.vtk", *BOX],
    ["cells", "split.vtk", *BOX, "some"],
    ["rings", "split.vtk", *BOX, "2"],
    ["step", "tetra.vtk", "script.txt", "2"],
    ["upgrade", "script.txt"],
    ["gen", "2"],
    ["run", "tetra.vtk", "script.txt"],
    ["watch", "tetra.vtk", "script.txt"],
    ["demo", "1", "7"],
]


def settled(out: bytes) -> tuple[bytes, bytes]:
    """What is the same in each run: the text up to a journal, and its last line."""
    front, _, rest = out.partition(b"journal ")
    return front, rest[-4:]


class Tried:
    """A command with one allocation refused each time."""

    def __init__(self, program: str, shim: str, folder: pathlib.Path, words: list[str]) -> None:
        self.program, self.shim, self.folder, self.words = program, shim, folder, words
        self.faults: list[str] = []

    def end(self, at: int) -> tuple[int, bytes, bool]:
        """The status, the output, and whether the allocation was reached."""
        log = self.folder / "refused"
        log.unlink(missing_ok=True)
        env = {"LD_PRELOAD": self.shim, "REFUSE_AT": str(at), "REFUSE_LOG": str(log)}
        run = subprocess.run(
            [self.program, *self.words], cwd=self.folder, env=env, stdin=subprocess.DEVNULL, capture_output=True, timeout=SECONDS, check=False
        )
        if run.stderr:
            self.faults.append(f"allocation {at}: wrote {run.stderr[:80]!r} to the standard error")
        return run.returncode, run.stdout, log.exists()

    def all(self) -> str:
        """Refuses each allocation until there are no more."""
        status, due, _ = self.end(0)
        if status != 0:
            self.faults.append(f"status {status} where nothing is refused")
        ends = {"memory": 0, "answer": 0}
        at = 1
        while True:
            try:
                status, out, reached = self.end(at)
            except subprocess.TimeoutExpired:
                self.faults.append(f"allocation {at}: not ended after {SECONDS} s")
                break
            if status == 0 and settled(out) == settled(due):
                ends["answer"] += reached
            elif status == MEMORY and not out and reached:
                ends["memory"] += 1
            else:
                self.faults.append(f"allocation {at}: status {status} with {out[:60]!r}")
            if not reached:
                break
            at += 1
        return f"{at - 1} allocations refused: status 3 in {ends['memory']} runs, the answer in {ends['answer']}"


def main() -> int:
    if len(sys.argv) != 3 or not os.path.exists(sys.argv[1]):
        print(__doc__)
        return 2
    program = str(pathlib.Path(sys.argv[1]).resolve())
    faults = 0
    with tempfile.TemporaryDirectory() as name:
        folder = pathlib.Path(name)
        (folder / "script.txt").write_text(SCRIPT)
        for file in ("split.vtk", "tetra.vtk"):
            (folder / file).write_bytes((DATA / file).read_bytes())
        for words in COMMANDS:
            tried = Tried(program, sys.argv[2], folder, words)
            print(f"{' '.join(words)}: {tried.all()}", flush=True)
            for fault in tried.faults:
                print(f"  {fault}")
            faults += len(tried.faults)
    print(f"{len(COMMANDS)} commands, {faults} faults")
    return 1 if faults else 0


if __name__ == "__main__":
    sys.exit(main())
