#!/usr/bin/env python3
"""Checks of the pages, after the gate: links, examples beside the built program, names of definitions, the man page, and that
no sentence stands in two pages.

Usage: .ci/pages.py [PROGRAM]      (without a program the examples are left out, and it says so)
"""
import pathlib
import re
import shutil
import subprocess
import sys
import tempfile

TOP = pathlib.Path(__file__).resolve().parent.parent
faults: list[str] = []


def pages() -> list[pathlib.Path]:
    found = list(TOP.glob("*.md")) + list(TOP.glob("docs/*.md")) + list(TOP.glob("crates/*/README.md"))
    return sorted(found + list(TOP.glob("bench/README.md")) + list(TOP.glob("tools/*.md")))


def check_links() -> int:
    """Each link to a file of the repository leads to one, and each heading that is named behind # is there."""
    count = 0
    for page in pages():
        for target in re.findall(r"\]\(([^)\s]+)\)", page.read_text()):
            if re.match(r"[a-z]+:", target):
                continue
            count += 1
            name, _, anchor = target.partition("#")
            path = (page.parent / name).resolve() if name else page
            if not path.exists():
                faults.append(f"{page.relative_to(TOP)}: no {target}")
            elif anchor and anchor not in anchors(path):
                faults.append(f"{page.relative_to(TOP)}: no heading for {target}")
    return count


def anchors(page: pathlib.Path) -> set[str]:
    heads = re.findall(r"^#+ (.*)$", page.read_text(), re.M)
    return {re.sub(r"[^\w\- ]", "", head.lower()).replace(" ", "-") for head in heads}


def examples(page: pathlib.Path) -> list[tuple[str, str]]:
    """The shell lines of a page that begin with `$ octopus`, each with what is shown below it."""
    found: list[tuple[str, str]] = []
    for block in re.findall(r"(?:^ {4,}.*\n)+", page.read_text(), re.M):
        indent = len(block) - len(block.lstrip(" "))
        shown: list[str] = []
        command = None
        for line in [row[indent:] for row in block.splitlines()] + ["$ end"]:
            if line.startswith("$ "):
                if command and command.startswith("octopus "):
                    found.append((command, "".join(row + "\n" for row in shown)))
                command, shown = line[2:], []
            else:
                shown.append(line)
    return found


def check_examples(program: pathlib.Path) -> int:
    """What the pages show is what the program writes, run in a copy of the sample files."""
    count = 0
    with tempfile.TemporaryDirectory() as folder:
        work = pathlib.Path(folder) / "data"
        shutil.copytree(TOP / "crates/octopus/data", work)
        for page in (TOP / "docs/USING.md", TOP / "README.md"):
            for command, shown in examples(page):
                count += 1
                line = command.replace("octopus ", f"{program} ", 1)
                done = subprocess.run(line, shell=True, cwd=work, capture_output=True, text=True, timeout=120)
                if not matches(command, shown, done.stdout) or done.stderr:
                    faults.append(f"{page.relative_to(TOP)}: `{command}` writes otherwise:\n{done.stdout[:600]}")
    return count


def matches(command: str, shown: str, written: str) -> bool:
    """A shown line `...` stands for any lines. The events of a run may come in another order."""
    if command.startswith(("octopus run ", "octopus watch ")):
        return sorted(shown.splitlines()) == sorted(written.splitlines())
    parts = [re.escape(part) for part in re.split(r"^\.\.\.\n", shown, flags=re.M)]
    return re.fullmatch("(?:.*\n)*".join(parts), written) is not None


def check_definitions() -> int:
    """Each row of the tables of docs/PROOFS.md names a file of specs/, and that file has each name of the row."""
    count = 0
    page = TOP / "docs/PROOFS.md"
    for row in re.findall(r"^\| (`.*?) \| \[.*?\]\((\S+?)\) \|", page.read_text(), re.M):
        text = (page.parent / row[1]).read_text()
        for name in re.findall(r"`([A-Za-z_0-9]+)`", row[0]):
            count += 1
            if not re.search(rf"\bpub\b[^:\n]*\b{name}\b", text) and not re.search(rf"^\s+{name} :", text, re.M):
                faults.append(f"docs/PROOFS.md: {row[1]} has no {name}")
    return count


def check_commands() -> int:
    """The README's table of commands and the man page name the same forms."""
    forms = re.findall(r"^\| `([a-z]+ ?[^`]*)` \|", (TOP / "README.md").read_text(), re.M)
    synopsis = (TOP / "docs/octopus.1").read_text().split(".SH DESCRIPTION")[0]
    shown = [f"{word} {rest}".strip() for word, rest in re.findall(r"^\.B octopus ([a-z]+)\n\.I (.*)$", synopsis, re.M)]
    if sorted(forms) != sorted(shown):
        faults.append(f"docs/octopus.1 and README.md name other commands: {sorted(set(forms) ^ set(shown))}")
    return len(forms)


def check_crates() -> int:
    """Each crate has its page, its row in the README and its row in docs/ARCHITECTURE.md."""
    crates = sorted(folder.name for folder in (TOP / "crates").iterdir() if (folder / "src").is_dir())
    for name in crates:
        if not (TOP / "crates" / name / "README.md").exists():
            faults.append(f"crates/{name} has no README.md")
        for page in ("README.md", "docs/ARCHITECTURE.md"):
            if f"`{name}`" not in (TOP / page).read_text():
                faults.append(f"{page} says nothing of {name}")
    return len(crates)


def sentences(page: pathlib.Path) -> set[str]:
    """The sentences of a page with eight words or more, without its examples, tables and headings."""
    lines = [line for line in page.read_text().splitlines() if not line.startswith(("    ", "|", "#", "```"))]
    text = re.sub(r"\]\([^)\s]+\)", "]", "\n".join(lines))
    parts = re.split(r"(?<=[.!?:])\s+|\n\s*\n|\n(?=[-*] )", text)
    return {" ".join(part.split()).lstrip("-* ") for part in parts if len(part.split()) >= 8}


def check_sentences() -> int:
    """No sentence stands in two pages."""
    seen: dict[str, pathlib.Path] = {}
    for page in pages():
        for sentence in sorted(sentences(page)):
            if sentence in seen:
                faults.append(f"{page.relative_to(TOP)} and {seen[sentence].relative_to(TOP)}: {sentence}")
            seen[sentence] = page
    return len(seen)


def main() -> int:
    print(f"pages: {check_links()} links, {check_commands()} commands, {check_crates()} crates")
    print(f"pages: {check_definitions()} names of definitions, {check_sentences()} sentences")
    program = pathlib.Path(sys.argv[1]).resolve() if len(sys.argv) > 1 else None
    if program and program.exists():
        print(f"pages: {check_examples(program)} examples run")
    else:
        print("pages: no built program, so the examples were left out")
    for fault in faults:
        print(fault)
    return 1 if faults else 0


if __name__ == "__main__":
    sys.exit(main())
