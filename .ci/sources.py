#!/usr/bin/env python3
"""Checks of the sources, after the gate: each definition and lemma is cited, and reads are counted by the counters of a few places.

Usage: .ci/sources.py
"""
import pathlib
import re
import sys

TOP = pathlib.Path(__file__).resolve().parent.parent

# The files that may make a counter of reads: the bound on the reads of an answer speaks of the counter that the call is handed, so
# a body that looked at a step through a counter of its own would not be counted. Tests may make one too.
COUNTERS = {
    "crates/box_query/src/counts.rt": "laws that count the reads of worked boxes",
    "crates/box_query/src/plain.rt": "the answer where nobody counts",
    "crates/job_steps/src/written.rt": "the copy of a step's mesh",
}

WORD = re.compile(r"[^\s(){}\[\],;.\"`]+")
HEAD = re.compile(r"^(?:pub )?(?:(?:abbrev|unfoldable|opaque|record|data|instance) )*(?:pub )?(\S+)(?: [({][^=]*[)}])* :")
RECORD = re.compile(r"^(?:pub )?record (\S+) [({]")  # its head may go on in the next line


def blocks(path: pathlib.Path) -> list[tuple[str, str]]:
    """The declarations of a file, also those inside a module with parameters: name and text, without imports and comments."""
    found: list[list[str]] = []
    margin = ""
    for line in path.read_text().splitlines():
        if not line.strip() or line.lstrip().startswith("--") or re.match(r"(pub )?(use|mod) ", line):
            continue
        if not line.startswith(" "):
            margin = "  " if line.startswith("module ") else ""
        head = HEAD.match(line.removeprefix(margin)) or RECORD.match(line.removeprefix(margin))
        if head and not line.removeprefix(margin).startswith(" "):
            found.append([head.group(1), line.strip()])
        elif found:
            found[-1][1] += "\n" + line
    return [(name, text) for name, text in found]


def words(text: str) -> set[str]:
    return set(WORD.findall(re.sub(r"--.*", "", text).replace("::", " ")))


def without_imports(text: str) -> str:
    return re.sub(r"^\s*(pub |ghost )?use [^;\n]*;?$", "", text, flags=re.M)


def uncited() -> list[str]:
    """Names of specs/ and of the lemma files of proofs/ that no contract, answer or cited declaration cites."""
    named: dict[str, list[tuple[str, set[str]]]] = {}
    cited: set[str] = set()
    for path in sorted(TOP.glob("crates/*/specs/*.antt")) + sorted(TOP.glob("crates/*/proofs/*.antt")):
        if path.name == "Examples.antt":  # worked rows, each checked by being there
            continue
        for name, text in blocks(path):
            body = re.sub(r"^(pub )?" + re.escape(name) + r"\b", "", text, flags=re.M)
            named.setdefault(name, []).append((str(path.relative_to(TOP)), words(body)))
    for path in TOP.glob("crates/*/src/**/*.rt"):
        cited |= words(without_imports(path.read_text()))
    for path in TOP.glob("crates/*/proofs/*/**/*.antt"):
        cited |= words(without_imports(path.read_text()))
    todo = [name for name in named if name in cited]
    seen = set(todo)
    while todo:
        for _, uses in named[todo.pop()]:
            for word in uses:
                if word in named and word not in seen:
                    seen.add(word)
                    todo.append(word)
    return [f"{place}: {name}" for name in sorted(named) if name not in seen for place, _ in named[name]]


def counters() -> list[str]:
    """Files beside those of COUNTERS that make a counter of reads."""
    found = []
    for path in sorted(TOP.glob("crates/*/src/**/*.rt")):
        place = str(path.relative_to(TOP))
        makes = re.search(r"\bSteps(::<[^>]*>)?::open\b|\.open::<", path.read_text())
        if makes and place not in COUNTERS and not re.search(r"/tests?[/.]", place) and place != "crates/step_view/src/reads.rt":
            found.append(f"{place}: makes a counter of reads")
    return found


def main() -> int:
    faults = counters()
    for line in uncited():
        place, name = line.split(": ")
        faults.append(f"{place}: nothing cites {name}")
    for fault in faults:
        print(f"sources: {fault}")
    print(f"sources: {len(COUNTERS)} files make counters of reads; {len(faults)} faults")
    return 1 if faults else 0


if __name__ == "__main__":
    sys.exit(main())
