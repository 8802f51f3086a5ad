#!/usr/bin/env python3
"""The exit statuses as a shell meets them, after the gate: each status from 0 to 9 with its output, on the built program.

Usage: .ci/statuses.py PROGRAM
"""
import os
import pathlib
import re
import resource
import signal
import subprocess
import sys
import tempfile

TOP = pathlib.Path(__file__).resolve().parent.parent
DATA = TOP / "crates/octopus/data"
CELL = "CELLS 1 5\n4 0 1 2 3\nCELL_TYPES 1\n10\n"
MESH = "# vtk DataFile Version 3.0\nt\nASCII\nDATASET UNSTRUCTURED_GRID\nPOINTS 4 int\n0 0 0 4 0 0 0 4 0 0 0 4\n" + CELL
SCRIPT = "octopus script 1\nstay\nend\n"
BOX = ["0", "0", "0", "4", "4", "4"]

# Words, exit status and what the standard output is: a text, or a pattern that matches it whole.
Case = tuple[list[str | bytes], int, str | re.Pattern[str]]


def cases(folder: pathlib.Path) -> list[Case]:
    (folder / "mesh").write_text(MESH)
    (folder / "bad").write_text(MESH.replace("0 0 0 4 0 0", "0 0 0.5 4 0 0"))
    (folder / "script").write_text(SCRIPT)
    (folder / "word").write_text(SCRIPT.replace("stay", "go"))
    (folder / "wait").write_text(SCRIPT.replace("end", "session\nwait 2\nend"))
    (folder / "folder").mkdir()
    with open(folder / "long mesh", "wb") as long_mesh:
        long_mesh.truncate(2**30 + 1)  # zeros, which take no room on the disk
    with open(folder / "long script", "wb") as long_script:
        long_script.truncate(2**26 + 1)
    (folder / "locked").write_text(MESH)
    (folder / "locked").chmod(0)
    found: list[Case] = [
        (["scan", "mesh", *BOX], 0, "count 4\n0 1 2 3\n"),
        (["surface", "mesh"], 0, "count 4\n0 1 2 3\n"),
        (["box", "mesh", *BOX], 0, "route probe\ncount 4\n0 1 2 3\n"),
        (["run", "mesh", "script"], 0, re.compile(r"octopus report 1\n(?:.*\n)*end\n")),
        (["cells", "mesh", *BOX, "all"], 0, "route probe\ncount 1\n0\n"),
        (["watch", "mesh", "script"], 0, re.compile(r"octopus watch 1\n(?:.*\n)*end\n")),
        (["upgrade", "script"], 0, "octopus script 2\nstay\nend\n"),
        ([], 2, "refused usage\n"),
        (["scan"], 2, "refused usage\n"),
        (["scan", "mesh", *BOX, "5"], 2, "refused usage\n"),
        (["scan", "mesh", "0", "0", "0", "4", "4", "4.0"], 2, "refused usage\n"),
        (["scan", "mesh", "5", "0", "0", "4", "4", "4"], 2, "refused usage\n"),
        (["Scan", "mesh", *BOX], 2, "refused usage\n"),
        (["scan", b"\xff\xfe", *BOX], 2, "refused usage\n"),
        (["cells", "mesh", *BOX, "any"], 2, "refused usage\n"),
        (["gen", "0"], 2, "refused usage\n"),
        (["gen", "88"], 2, "refused usage\n"),
        (["demo", "0", "1"], 2, "refused usage\n"),
        (["step", "mesh", "script", "-1"], 2, "refused usage\n"),
        (["scan", "missing", *BOX], 4, ""),
        (["scan", "folder", *BOX], 4, ""),
        (["scan", "mesh/mesh", *BOX], 4, ""),
        (["scan", "", *BOX], 4, ""),
        (["run", "mesh", "missing"], 4, ""),
        (["run", "bad", "missing"], 7, re.compile(r"refused mesh NotWhole \d+\n")),
        (["scan", "long mesh", *BOX], 6, "refused long mesh\n"),
        (["run", "mesh", "long script"], 6, "refused long script\n"),
        (["surface", "bad"], 7, re.compile(r"refused mesh NotWhole \d+\n")),
        (["surface", "script"], 7, "refused mesh Magic 0\n"),
        (["surface", "/dev/null"], 7, "refused mesh Truncated 0\n"),
        (["run", "mesh", "word"], 8, "refused script Word 2\n"),
        (["run", "mesh", "/dev/null"], 8, re.compile(r"refused script \w+ \d+\n")),
        (["step", "mesh", "wait", "1"], 8, "refused script NoStep 4\n"),
        (["step", "mesh", "script", "2"], 9, "refused step 2 1\n"),
    ]
    if os.getuid() != 0:  # root may read any file
        found.append((["scan", "locked", *BOX], 4, ""))
    return found


def shown(words: list[str | bytes]) -> str:
    return " ".join(word if isinstance(word, str) else repr(word) for word in words)


def main() -> int:
    if len(sys.argv) != 2 or not pathlib.Path(sys.argv[1]).exists():
        print("statuses: left out, since there is no built program")
        return 0
    program = str(pathlib.Path(sys.argv[1]).resolve())
    faults: list[str] = []
    with tempfile.TemporaryDirectory() as name:
        folder = pathlib.Path(name)
        listed = cases(folder)
        for words, status, text in listed:
            run = subprocess.run([program, *words], cwd=folder, stdin=subprocess.DEVNULL, capture_output=True, check=False)
            out = run.stdout.decode(errors="replace")
            right = text == out if isinstance(text, str) else text.fullmatch(out) is not None
            if run.returncode != status or not right or run.stderr:
                faults.append(f"octopus {shown(words)}: status {run.returncode} with {out[:80]!r}, due are {status} and {text!r}")
        count = len(listed) + ends_of_output(program, folder, faults) + short_writes(program, folder, faults)
    for fault in faults:
        print(f"statuses: {fault}")
    print(f"statuses: {count} command lines, {len(faults)} faults")
    return 1 if faults else 0


def ends_of_output(program: str, folder: pathlib.Path, faults: list[str]) -> int:
    """Outputs that take nothing more: a full disk, a pipe whose reader is gone, and no output at all. Each ends with status 5."""
    lines = [["gen", "20"], ["scan", "mesh", *BOX], ["surface", "bad"], ["scan"], ["run", "mesh", "script"]]
    outputs = {"a closed pipe": closed_pipe}
    if os.path.exists("/dev/full"):
        outputs["a full disk"] = lambda: os.open("/dev/full", os.O_WRONLY)
    count = 0
    for words in lines:
        for what, opened in outputs.items():
            count += 1
            out = opened()
            run = subprocess.run(
                [program, *words], cwd=folder, stdin=subprocess.DEVNULL, stdout=out, stderr=subprocess.PIPE, check=False
            )
            os.close(out)
            if run.returncode != 5:
                faults.append(f"octopus {shown(words)} into {what}: status {run.returncode}, due is 5")
    return count


def short_writes(program: str, folder: pathlib.Path, faults: list[str]) -> int:
    """A file that takes so many bytes and no more: a write takes a part of its piece, and the next one fails. The status is 5, and
    the file has the front of the text."""
    whole = subprocess.run([program, "gen", "20"], stdin=subprocess.DEVNULL, capture_output=True, check=False).stdout
    limits = [1, 1000, 65536, 100_000]
    for most in limits:

        def limit(most: int = most) -> None:
            signal.signal(signal.SIGXFSZ, signal.SIG_IGN)
            resource.setrlimit(resource.RLIMIT_FSIZE, (most, most))

        with open(folder / "part", "wb") as part:
            run = subprocess.run([program, "gen", "20"], stdin=subprocess.DEVNULL, stdout=part, preexec_fn=limit, check=False)
        if run.returncode != 5 or (folder / "part").read_bytes() != whole[:most]:
            faults.append(f"octopus gen 20 into a file of at most {most} bytes: status {run.returncode}, due is 5 with the front of the text")
    return len(limits)


def closed_pipe() -> int:
    end, out = os.pipe()
    os.close(end)
    return out


if __name__ == "__main__":
    sys.exit(main())
