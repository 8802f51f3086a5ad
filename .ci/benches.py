#!/usr/bin/env python3
"""Checks of the benchmarks' scripts: none is part of the gate, so a crate that is renamed or split would break them unseen.

Usage: .ci/benches.py [FOLDER]     (default: bench)

Each script is good shell and takes its shared parts from parts.sh. The crates that it takes are ours; parts.sh brings all below them;
and its program names, and imports, only what was taken or comes with the toolchain.
"""
import pathlib
import re
import subprocess
import sys

TOP = pathlib.Path(__file__).resolve().parent.parent
SOURCES = '. "$here/../parts.sh"'
TOOLCHAIN = {"std", "core", "crate", "self", "super"}


def listed() -> dict[str, list[str]]:
    """What each crate of crates.txt stands on."""
    lines = (TOP / "crates.txt").read_text().splitlines()
    return {line.split(":")[0].split()[0]: line.split(":")[1].split() for line in lines if ":" in line}


CRATES = listed()
OURS = {name for name in CRATES if (TOP / "crates" / name).is_dir()}
KITS = {name for names in CRATES.values() for name in names} - OURS


def below(crate: str) -> set[str]:
    return {crate}.union(*(below(next) for next in CRATES[crate] if next in OURS))


def taken_by_parts(parts: pathlib.Path, crates: list[str]) -> set[str]:
    """What parts.sh says stands below these crates."""
    text = f'here=$1; . "$2"; taken=; below {" ".join(crates)}; echo "$taken"'
    words = ["bash", "-euc", text, "bash", str(TOP / "bench/mesh"), str(parts)]
    return set(subprocess.run(words, capture_output=True, text=True, check=True).stdout.split())


def words_after(text: str, word: str) -> list[list[str]]:
    """The words of each line that calls this function of parts.sh."""
    return [line.split()[1:] for line in text.replace("\\\n", " ").splitlines() if line.split()[:1] == [word]]


def faults_of(script: pathlib.Path, parts: pathlib.Path) -> list[str]:
    text, faults = script.read_text(), []
    shell = subprocess.run(["bash", "-n", str(script)], capture_output=True, text=True, check=False)
    if shell.returncode != 0:
        return [shell.stderr.strip()]
    if SOURCES not in text:
        return ["doesn't source parts.sh"]
    paths = re.findall(r'"\$(top|here)/([\w./-]+)"', text)
    folders = {"top": TOP, "here": script.parent}
    faults += [f"names {path}, which isn't there" for at, path in paths if not (folders[at] / path).exists()]
    asked = [crate for words in words_after(text, "take_crates") for crate in words]
    unknown = [crate for crate in asked if crate not in OURS]
    if unknown:
        return [f"takes {crate}, which is no crate of ours" for crate in unknown]
    due = set().union(*(below(crate) for crate in asked))
    if asked and taken_by_parts(parts, asked) != due:
        faults.append(f"parts.sh takes {sorted(taken_by_parts(parts, asked) ^ due)} too much or too little")
    programs = words_after(text, "new_program")
    named = {crate for words in programs for crate in words[1:]}
    faults += [f"its program names {crate}, which isn't taken" for crate in sorted(named - due - KITS)]
    used = set(re.findall(r"^(?:pub )?use (\w+)(?:::|;)", text, re.M)) - TOOLCHAIN if programs else set()
    ghosts = set(re.findall(r"^ghost use Rattle\.(\w+)\.", text, re.M)) - TOOLCHAIN - {words[0] for words in programs}
    faults += [f"imports {crate}, which its program doesn't name" for crate in sorted((used | ghosts) - named)]
    return faults


def main() -> int:
    folder = pathlib.Path(sys.argv[1]) if len(sys.argv) > 1 else TOP / "bench"
    scripts = sorted(script for script in folder.glob("*/*.sh"))
    faults = [f"{script.relative_to(folder)}: {fault}" for script in scripts for fault in faults_of(script, folder / "parts.sh")]
    if not any(words_after(script.read_text(), "take_crates") for script in scripts):
        faults.append("no script takes crates: is this the folder?")
    for fault in faults:
        print(f"benches: {fault}")
    print(f"benches: {len(scripts)} scripts; {len(faults)} faults")
    return 1 if faults else 0


if __name__ == "__main__":
    sys.exit(main())
