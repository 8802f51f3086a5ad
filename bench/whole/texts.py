"""Scripts that measure.py runs, as texts."""
import pathlib
import random

MOTIONS = ["stay", "shift 1 -2 3", "pull 100 100 100 1 50", "shake 7 3", "relax"]
MOST_CELLS = 4_000_000


def written(path: pathlib.Path, lines: list[str], version: int = 1) -> pathlib.Path:
    path.write_text("\n".join([f"octopus script {version}", *lines, "end"]) + "\n")
    return path


def splits(step: int, count: int, cells: int) -> list[str]:
    """Splits of cells that are spread over the mesh; no two steps split the same one."""
    return [f"split {((step * count + k) * 7919) % cells} 7 5 3" for k in range(count)]


def possible(count: int, steps: int, cells: int) -> int:
    """So many splits a step, or as many as a mesh of so many cells may have."""
    return min(count, (MOST_CELLS - cells) // (4 * steps), cells // steps)


def steps(count: int, each: int, motion: str, cells: int) -> list[str]:
    lines = []
    for step in range(count):
        lines += [*splits(step, each, cells), motion]
    return lines


def changes(count: int, cells: list[list[str]]) -> list[str]:
    """Steps that each remove 50 cells, spread over the mesh, and add them again."""
    lines = []
    for step in range(count):
        taken = [(step * 50 + k) * 7919 % len(cells) for k in range(min(50, len(cells) // count))]
        lines += [f"remove {i}" for i in taken] + [f"add {' '.join(cells[i])}" for i in taken] + ["stay"]
    return lines


def pinned(count: int, cubes: int, boxes: int) -> list[str]:
    """Steps of one split, and one held turn of so many boxes round the middle: each looks at the whole surface."""
    low, high = 8 * cubes - 10, 8 * cubes + 10
    hold = ["session", "hold", *[f"box {low} {low} {low} {high} {high} {high}"] * boxes, "free"]
    return steps(count, 1, "stay", 6 * cubes**3) + hold


def whole_run(cubes: int, share: float, sessions: int) -> list[str]:
    """Ten steps of 100 splits and a shake, and 16 boxes of that share of the volume for each, dealt to the sessions."""
    chance = random.Random(1)
    lines = steps(10, possible(100, 10, 6 * cubes**3), "shake 7 3", 6 * cubes**3)
    side = round(16 * cubes * share ** (1 / 3))
    boxes: list[list[str]] = [[] for _ in range(sessions)]
    for step in range(1, 11):
        for session in boxes:
            session.append(f"wait {step}")
        for k in range(16):
            low = [chance.randrange(16 * cubes - side + 1) for _ in range(3)]
            boxes[k % sessions].append("box " + " ".join(str(c) for c in [*low, *[c + side for c in low]]))
    for session in boxes:
        lines += ["session", *session]
    return lines
