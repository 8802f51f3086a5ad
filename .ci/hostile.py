#!/usr/bin/env python3
"""Hostile use of the built program, after the gate: texts cut short, counts that lie, little memory, and runs side by side.

Usage: .ci/hostile.py PROGRAM

Every run has to end by itself within its time, by an exit status that is due, and with nothing on the standard error.
"""
import pathlib
import resource
import subprocess
import sys
import tempfile
from concurrent.futures import ThreadPoolExecutor

TOP = pathlib.Path(__file__).resolve().parent.parent
DATA = TOP / "crates/octopus/data"
SECONDS = 60
BOX = ["0", "0", "0", "16", "16", "16"]

faults: list[str] = []
runs = 0


def ended(program: str, folder: pathlib.Path, words: list[str], memory: int | None = None) -> tuple[int, bytes]:
    """The status and the output of a run, where at most so many bytes of address space are given."""
    global runs
    runs += 1

    def limit() -> None:
        if memory is not None:
            resource.setrlimit(resource.RLIMIT_AS, (memory, memory))

    try:
        run = subprocess.run(
            [program, *words], cwd=folder, stdin=subprocess.DEVNULL, capture_output=True, timeout=SECONDS, check=False, preexec_fn=limit
        )
    except subprocess.TimeoutExpired:
        faults.append(f"{' '.join(words)}: not ended after {SECONDS} s")
        return -1, b""
    if run.stderr:
        faults.append(f"{' '.join(words)}: wrote {run.stderr[:80]!r} to the standard error")
    return run.returncode, run.stdout


def wants(program: str, folder: pathlib.Path, words: list[str], due: dict[int, bytes], what: str, memory: int | None = None) -> None:
    """A status of `due`, and an output that begins with what is given for it."""
    status, out = ended(program, folder, words, memory)
    if status not in due or not out.startswith(due[status]):
        faults.append(f"{what}: {' '.join(words)}: status {status} with {out[:60]!r}")


def cut_short(program: str, folder: pathlib.Path) -> None:
    """Each front of a mesh and of a script is accepted or refused by a line that says so."""
    mesh = (DATA / "split.vtk").read_bytes()
    for end in range(len(mesh)):
        (folder / "cut.vtk").write_bytes(mesh[:end])
        wants(program, folder, ["surface", "cut.vtk"], {0: b"count ", 7: b"refused mesh "}, f"mesh cut at {end}")
    script = (DATA / "hold.txt").read_bytes()
    (folder / "tetra.vtk").write_bytes((DATA / "tetra.vtk").read_bytes())
    for end in range(len(script)):
        (folder / "cut.txt").write_bytes(script[:end])
        wants(program, folder, ["run", "tetra.vtk", "cut.txt"], {0: b"octopus report 1\n", 8: b"refused script "}, f"script cut at {end}")


def lying_counts(program: str, folder: pathlib.Path) -> None:
    """Counts that promise more than there is cost no memory and are refused."""
    front = "# vtk DataFile Version 3.0\nt\nASCII\nDATASET UNSTRUCTURED_GRID\n"
    points = "POINTS 4 int\n0 0 0 4 0 0 0 4 0 0 0 4\n"
    texts = [
        front + "POINTS 1000000 int\n0 0 0\n",
        front + "POINTS 1000001 int\n0 0 0\n",
        front + "POINTS 18446744073709551616 int\n",
        front + points + "CELLS 4000000 20000000\n4 0 1 2 3\n",
        front + points + "CELLS 1 5\n4 0 1 2 4000000000\n",
        front + points + "CELLS 1 5\n4000000000 0 1 2 3\n",
        front + points + "CELLS 1 5\n4 0 1 2 3\nCELL_TYPES 2\n10 10\n",
        front + points + "CELLS 2 10\n4 0 1 2 3\n4 0 1 2 3\nCELL_TYPES 2\n10\n",
    ]
    for number, text in enumerate(texts):
        (folder / "lie.vtk").write_text(text)
        wants(program, folder, ["surface", "lie.vtk"], {7: b"refused mesh "}, f"count that lies, number {number}", 256 * 2**20)


def little_memory(program: str, folder: pathlib.Path) -> None:
    """Under each limit of memory a run gives its answer, or says with status 3 that there was not enough."""
    status, block = ended(program, folder, ["gen", "30"])
    (folder / "block.vtk").write_bytes(block)
    if status != 0:
        faults.append(f"gen 30: status {status}")
    (folder / "script.txt").write_text("octopus script 2\nsplit 7 5 5 5\nrelax\nshake 1 3\nsession\nbox 0 0 0 9 9 9\nwait 2\nbox 0 0 0 9 9 9\nend\n")
    commands = [["scan", "block.vtk", *BOX], ["surface", "block.vtk"], ["box", "block.vtk", *BOX], ["step", "block.vtk", "script.txt", "2"],
                ["run", "block.vtk", "script.txt"]]
    for words in commands:
        for mib in (8, 12, 16, 24, 32, 48, 64, 96, 128, 256, 1024):
            wants(program, folder, words, {0: b"", 3: b""}, f"{mib} MiB", mib * 2**20)


def mesh_text(points: list[tuple[int, int, int]], cells: list[tuple[int, ...]]) -> str:
    lines = ["# vtk DataFile Version 3.0", "awkward", "ASCII", "DATASET UNSTRUCTURED_GRID", f"POINTS {len(points)} int"]
    lines += [" ".join(map(str, point)) for point in points]
    lines += [f"CELLS {len(cells)} {5 * len(cells)}", *(" ".join(map(str, (4, *cell))) for cell in cells)]
    return "\n".join([*lines, f"CELL_TYPES {len(cells)}", *["10"] * len(cells)]) + "\n"


def awkward(program: str, folder: pathlib.Path) -> None:
    """Runs on a star, whose middle has a thousand neighbours, on a thousand parts that nothing joins, and on a mesh without a surface."""
    star = mesh_text([(0, 0, 0), (0, 0, 10), *((i, 0, 0) for i in range(2, 1002))], [(0, 1, i, i + 1) for i in range(2, 1001)])
    corners = [(0, 0, 0), (4, 0, 0), (0, 4, 0), (0, 0, 4)]
    parts = mesh_text(
        [(100 * i + x, y, z) for i in range(1000) for x, y, z in corners], [tuple(range(4 * i, 4 * i + 4)) for i in range(1000)]
    )
    closed = mesh_text([*corners, (1, 1, 1)], [(0, 1, 2, 3), (0, 1, 2, 4), (0, 1, 3, 4), (0, 2, 3, 4), (1, 2, 3, 4)])
    ends = [v for i in range(1000) for v in (4 * i, 4 * i + 1)]
    for mesh, box, route, found in [
        (star, "0 0 0 1001 0 10", "probe", list(range(1002))),
        (parts, "0 0 0 100000 0 0", "probe", ends),
        (closed, "0 0 0 1 1 1", "scan", [0, 4]),
    ]:
        (folder / "awkward.vtk").write_text(mesh)
        (folder / "awkward.txt").write_text(f"octopus script 1\nstay\nsession\nwait 1\nbox {box}\nend\n")
        due = f"octopus report 1\nsteps 1\nsessions 1\nsession 0 boxes 1\nbox 0 step 1 route {route} count {len(found)}\n"
        due += " ".join(map(str, found)) + "\njournal 4\n"
        wants(program, folder, ["run", "awkward.vtk", "awkward.txt"], {0: due.encode()}, f"box {box} of an awkward mesh")


def side_by_side(program: str, folder: pathlib.Path) -> None:
    """Four runs at once give the same answers as one."""
    words = ["step", "block.vtk", "script.txt", "2"]
    alone = ended(program, folder, words)
    with ThreadPoolExecutor(4) as pool:
        for other in pool.map(lambda _: ended(program, folder, words), range(4)):
            if other != alone:
                faults.append("four runs side by side: another answer than alone")


def main() -> int:
    if len(sys.argv) != 2 or not pathlib.Path(sys.argv[1]).exists():
        print("hostile: left out, since there is no built program")
        return 0
    program = str(pathlib.Path(sys.argv[1]).resolve())
    with tempfile.TemporaryDirectory() as name:
        folder = pathlib.Path(name)
        for part in (cut_short, lying_counts, awkward, little_memory, side_by_side):
            part(program, folder)
    for fault in faults:
        print(f"hostile: {fault}")
    print(f"hostile: {runs} runs, {len(faults)} faults")
    return 1 if faults else 0


if __name__ == "__main__":
    sys.exit(main())
