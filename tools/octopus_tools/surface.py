"""The surface of a mesh: the faces that exactly one tetrahedron has."""
from __future__ import annotations

from typing import Iterator

import numpy as np

from .arrays import Ints
from .limits import MOST_POINTS
from .mesh_text import Mesh, chunks

BITS = 20                 # a point number fits, since there are at most 1,000,000
AT_ONCE = 1 << 22         # faces that are sorted at a time, about
MASK = (1 << BITS) - 1
# The corners of the face opposite to each corner, in ascending order of place.
OPPOSITE = ((1, 2, 3), (0, 2, 3), (0, 1, 3), (0, 1, 2))

assert MOST_POINTS <= 1 << BITS


def _keys(cells: Ints) -> Ints:
    """For each cell its four faces as numbers, shape (k, 4), the face opposite to the
    i-th least corner in column i. Corners are ascending in a key from its high bits on."""
    corners = np.sort(cells, axis=1).astype(np.uint64)
    shift = np.uint64(BITS)
    return np.stack([(corners[:, a] << (shift + shift)) | (corners[:, b] << shift)
                     | corners[:, c] for a, b, c in OPPOSITE], axis=1)


def _ranges(mesh: Mesh, at_once: int) -> Iterator[tuple[int, int]]:
    """Ranges of a face's least corner that have about so many faces each."""
    count = np.zeros(len(mesh.points) + 1, dtype=np.int64)
    for cells in chunks(mesh.cells):
        corners = np.sort(cells, axis=1)
        count += np.bincount(corners[:, 1], minlength=len(count))
        count += 3 * np.bincount(corners[:, 0], minlength=len(count))
    total = np.cumsum(count)
    low = 0
    while low < len(count):
        before = int(total[low - 1]) if low else 0
        high = int(np.searchsorted(total, before + at_once, side="right"))
        high = max(high, low + 1)
        yield low, high
        low = high


def _single_keys(mesh: Mesh, at_once: int) -> Ints:
    """The keys of the faces of count one, ascending."""
    found: list[Ints] = [np.empty(0, dtype=np.uint64)]
    for low, high in _ranges(mesh, at_once):
        least, most = np.uint64(low << (2 * BITS)), np.uint64(high << (2 * BITS))
        parts: list[Ints] = [np.empty(0, dtype=np.uint64)]
        for cells in chunks(mesh.cells):
            keys = _keys(cells).ravel()
            parts.append(keys[(keys >= least) & (keys < most)])
        keys = np.concatenate(parts)
        keys.sort()
        single = np.ones(len(keys), dtype=bool)
        differs = keys[1:] != keys[:-1]
        single[1:] &= differs
        single[:-1] &= differs
        found.append(keys[single])
    return np.concatenate(found)


def surface(mesh: Mesh, at_once: int = AT_ONCE) -> tuple[Ints, Ints]:
    """The triangles of the surface, shape (t, 3), ascending, each with its corners
    ascending; and for each the fourth corner of its tetrahedron, shape (t,).

    Besides the mesh it takes the surface and about 50 bytes for each of `at_once` faces.
    """
    singles = _single_keys(mesh, at_once)
    shift = np.uint64(BITS)
    triangles = np.stack([singles >> (shift + shift), (singles >> shift) & np.uint64(MASK),
                          singles & np.uint64(MASK)], axis=1).astype(np.int32)
    fourth = np.empty(len(singles), dtype=np.int32)
    on_surface = np.zeros(len(mesh.points), dtype=bool)
    on_surface[triangles.ravel()] = True
    for cells in chunks(mesh.cells):
        cells = cells[on_surface[cells].sum(axis=1) >= 3]
        if not len(cells):
            continue
        keys, corners = _keys(cells), np.sort(cells, axis=1)
        at = np.minimum(np.searchsorted(singles, keys), max(len(singles) - 1, 0))
        hit = singles[at] == keys if len(singles) else np.zeros(keys.shape, dtype=bool)
        fourth[at[hit]] = corners[hit]
    return triangles, fourth
