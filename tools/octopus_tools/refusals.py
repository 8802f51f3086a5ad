"""The refusal lines of the program: what each kind means and what to do."""
from __future__ import annotations

import re
from dataclasses import dataclass
from enum import Enum


class What(Enum):
    """What was refused."""

    USAGE = "usage"
    LONG_MESH = "long mesh"
    LONG_SCRIPT = "long script"
    MESH = "mesh"
    SCRIPT = "script"
    STEP = "step"


@dataclass(frozen=True)
class Refusal:
    """A refusal line. `kind` is set for a mesh and a script. `place` is the byte
    (from 0) of a mesh, the line (from 1) of a script, or the step asked for;
    `steps` is the number of steps that the script makes."""

    what: What
    kind: str = ""
    place: int = 0
    steps: int = 0


LINE = re.compile(rb"refused (?:(usage)|long (mesh|script)"
                  rb"|(mesh|script) ([A-Za-z]+) ([0-9]+)|step ([0-9]+) ([0-9]+))\n?")


def parse_refusal(line: bytes) -> Refusal | None:
    """The refusal that a line tells, or None where it is none."""
    match = LINE.fullmatch(line)
    if match is None:
        return None
    usage, long_file, file, kind, place, asked, steps = match.groups()
    if usage:
        return Refusal(What.USAGE)
    if long_file:
        return Refusal(What("long " + long_file.decode()))
    if file:
        return Refusal(What(file.decode()), kind.decode(), int(place))
    return Refusal(What.STEP, place=int(asked), steps=int(steps))


@dataclass(frozen=True)
class Advice:
    """A kind of fault in words."""

    means: str
    what_to_do: str


PREPARE = "let `octopus-tools prepare` write the mesh"

MESH_KINDS: dict[str, Advice] = {
    "Magic": Advice(
        "The first line isn't that of a VTK legacy file.",
        "It has to begin with `# vtk DataFile Version `, in these letters, and be at most 256 "
        f"bytes long. For a file of another format, {PREPARE}."),
    "Version": Advice(
        "This version of the VTK legacy format isn't read.",
        "Versions 1 to 4 and 5.1 are. Write the file with version 4.2 or 5.1, or "
        f"{PREPARE}."),
    "Title": Advice(
        "The title, line 2, has more than 256 bytes.",
        "Shorten it. What it says doesn't matter."),
    "Binary": Advice(
        "The data are binary.",
        f"Write the file as ASCII (ParaView: File type Ascii), or {PREPARE}."),
    "Format": Advice(
        "The word that names the format of the data is neither ASCII nor BINARY.",
        "The third line has to be `ASCII`. An empty title still needs its line."),
    "DataSet": Advice(
        "The file has another dataset than an unstructured grid.",
        "Turn it into one (VTK: vtkAppendFilter, ParaView: Append Datasets), or "
        f"{PREPARE} with --cut."),
    "Keyword": Advice(
        "Another word has to stand here.",
        "The parts come in this order: DATASET UNSTRUCTURED_GRID, POINTS n type, CELLS, "
        "CELL_TYPES m, and then the end, POINT_DATA or CELL_DATA. In version 5.1 CELLS is "
        "followed by OFFSETS and CONNECTIVITY. A count that is too small shows here too."),
    "Number": Advice(
        "This isn't a number of the kind that has to stand here.",
        "A coordinate is digits with an optional sign, point and exponent, at most 40 bytes; a "
        "count or point number is 1 to 40 digits. `nan` and `inf` are none. A count that is too "
        "large shows here too, where the next word is met."),
    "NotWhole": Advice(
        "This coordinate isn't a whole number.",
        "Scale the mesh: `octopus-tools prepare IN OUT --unit 0.001` makes thousandths the "
        "whole numbers, and --fit chooses the unit."),
    "Range": Advice(
        "This coordinate is outside -1073741824 to 1073741824.",
        "Take a larger unit (`octopus-tools prepare IN OUT --unit U`, or --fit), or move the "
        "mesh to the middle with --centre."),
    "Count": Advice(
        "This count is too large, or isn't the number of cells.",
        "At most 1,000,000 points and 4,000,000 cells are read, and CELL_TYPES has as many as "
        "CELLS. Take a part of the mesh or a coarser one."),
    "Size": Advice(
        "The counts or offsets of the cells don't fit the stated size.",
        "The second number behind CELLS is the sum of 1 plus the number of points over all "
        "cells; in version 5.1 it is the last offset, the first is 0, and none falls."),
    "Index": Advice(
        "A cell names a point that isn't there.",
        "Points are numbered from 0 up to one less than their count. A file that counts from 1 "
        "shows here."),
    "CellType": Advice(
        "This type of cell isn't read.",
        "Types 1 to 10 are; 10 is the tetrahedron. Hexahedra (12), wedges (13) and pyramids (14) "
        "are cut by `octopus-tools prepare IN OUT --cut`, others are dropped by prepare."),
    "CellSize": Advice(
        "The cell of this type has another number of points than the type has.",
        "A tetrahedron (10) has 4, a triangle (5) 3, a line (3) 2, a vertex (1) 1, a quad (9) "
        "and a pixel (8) 4. Compare the cell with its type."),
    "SameVertex": Advice(
        "A tetrahedron has the same point twice.",
        "Remove the cell; `octopus-tools prepare` drops such cells and says how many."),
    "Field": Advice(
        "An array of a FIELD block doesn't have numbers.",
        f"Arrays of type string or bit aren't passed over. Remove the array, or {PREPARE}."),
    "Truncated": Advice(
        "The text ends here, and something more has to come.",
        "Look whether the file was written whole, and whether a count is larger than what "
        "follows it."),
}

SCRIPT_KINDS: dict[str, Advice] = {
    "Header": Advice(
        "The first line isn't that of a script.",
        "It has to be `octopus script 1` or `octopus script 2`."),
    "Word": Advice(
        "The line's first word or its axis isn't known, or it has another number of words.",
        "The lines of a script stand in docs/USING.md; `hold` and `free` are of version 2."),
    "Order": Advice(
        "This line can't stand here.",
        "Steps come first, each with its edits and then one motion; then sessions; then `end`. "
        "A box, wait, hold or free needs a session before it, a hold needs a box and then its "
        "free, and nothing follows `end`."),
    "Limit": Advice(
        "One more than the program takes.",
        "At most 10,000 steps, 1,000,000 edits, 8 sessions and 100,000 boxes; edits may bring "
        "the mesh to 1,000,000 points and 4,000,000 cells."),
    "Number": Advice(
        "This isn't a whole number.",
        "A number is digits with an optional sign, at most 40 bytes. `4.0` is none."),
    "Range": Advice(
        "This number is out of its range.",
        "Take a number of that range. (Coordinates are from -1073741824 to 1073741824.)"),
    "Box": Advice(
        "The low corner is above the high one.",
        "A box is `box x0 y0 z0 x1 y1 z1` with x0 at most x1, y0 at most y1, z0 at most z1."),
    "Truncated": Advice(
        "The script ends before `end`.",
        "Write `end` as the last line."),
    "NoPoint": Advice(
        "The cell names a point that isn't there at that moment.",
        "Points are numbered from 0; those that edits made before count."),
    "SameVertex": Advice(
        "The cell has a point twice.",
        "A tetrahedron has four different points."),
    "NoCell": Advice(
        "The edit names a cell that isn't there or was removed before.",
        "Cells are the tetrahedra alone, numbered from 0; a removed or split cell is gone, and "
        "its number isn't given again."),
    "NoStep": Advice(
        "The wait is for a step that the script doesn't make.",
        "Wait for a step up to the number of motions."),
}

STATUS_WORDS: dict[int, str] = {
    2: "the program doesn't know these words (is it of an older version?)",
    3: "the program had not enough memory",
    4: "a file isn't there or can't be read",
    5: "the program couldn't write its output",
    6: "a file is too long",
    7: "the mesh is refused",
    8: "the script is refused",
    9: "the script makes fewer steps",
}


def in_words(refusal: Refusal) -> str:
    """One line on a refusal."""
    if refusal.what is What.MESH:
        means = MESH_KINDS[refusal.kind].means if refusal.kind in MESH_KINDS else ""
        return f"the mesh is refused: {refusal.kind} at byte {refusal.place}. {means}".rstrip()
    if refusal.what is What.SCRIPT:
        means = SCRIPT_KINDS[refusal.kind].means if refusal.kind in SCRIPT_KINDS else ""
        return f"the script is refused: {refusal.kind} on line {refusal.place}. {means}".rstrip()
    if refusal.what is What.STEP:
        return f"step {refusal.place} isn't there: the script makes {refusal.steps} steps"
    if refusal.what is What.USAGE:
        return STATUS_WORDS[2]
    return f"the {refusal.what.value.removeprefix('long ')} is too long"
