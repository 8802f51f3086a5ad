"""Hexahedra, wedges and pyramids cut into tetrahedra.

Each cell is cut from its corner with the least number: every face without that corner
becomes triangles, and each triangle with the corner a tetrahedron. A face of four corners
is halved through its corner with the least number. So two cells that share a face halve it
in the same way, and the tetrahedra meet without gaps.
"""
from __future__ import annotations

from enum import Enum

import numpy as np

from .arrays import Ints

# Faces as corner numbers, in the order of the field (VTK, meshio, gmsh agree on these).
Faces = tuple[tuple[int, ...], ...]


class Shape(Enum):
    """A cell with a volume, its number of corners, and its faces."""

    TETRAHEDRON = ("tetrahedra", 4, ())
    HEXAHEDRON = ("hexahedra", 8, ((0, 1, 2, 3), (4, 5, 6, 7), (0, 1, 5, 4),
                                   (1, 2, 6, 5), (2, 3, 7, 6), (3, 0, 4, 7)))
    WEDGE = ("wedges", 6, ((0, 1, 2), (3, 4, 5), (0, 1, 4, 3), (1, 2, 5, 4), (2, 0, 3, 5)))
    PYRAMID = ("pyramids", 5, ((0, 1, 2, 3), (0, 1, 4), (1, 2, 4), (2, 3, 4), (3, 0, 4)))

    def __init__(self, plural: str, corners: int, faces: Faces) -> None:
        self.plural = plural
        self.corners = corners
        self.faces = faces


def cut(shape: Shape, cells: Ints) -> Ints:
    """The tetrahedra of the cells: shape (k, 4) from shape (m, corners). A hexahedron
    gives six (five are never made), a wedge three, a pyramid two."""
    if shape is Shape.TETRAHEDRON:
        return cells
    made = [np.empty((0, 4), dtype=cells.dtype)]
    least = cells.argmin(axis=1)
    for corner in range(shape.corners):
        mine = cells[least == corner]
        if len(mine):
            made.extend(_cone(mine, corner, face) for face in shape.faces if corner not in face)
    return np.concatenate(made)


def _cone(cells: Ints, corner: int, face: tuple[int, ...]) -> Ints:
    """The tetrahedra of one corner with one face, for cells of one shape."""
    tip = cells[:, corner]
    ring = cells[:, face]
    if len(face) == 3:
        return np.column_stack((ring, tip))
    # turn each ring so that its least number stands first
    turn = (ring.argmin(axis=1)[:, None] + np.arange(4)) % 4
    ring = np.take_along_axis(ring, turn, axis=1)
    return np.concatenate((np.column_stack((ring[:, [0, 1, 2]], tip)),
                           np.column_stack((ring[:, [0, 2, 3]], tip))))
