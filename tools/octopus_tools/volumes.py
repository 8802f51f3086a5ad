"""Whether tetrahedra have a volume, and on which side, exactly."""
from __future__ import annotations

import numpy as np

from .arrays import Flags, Ints, Numbers, Reals

# A determinant of doubles is off by less than this part of the sum of its terms' sizes.
DOUBTFUL = 1e-14


def signs(points: Numbers, cells: Ints) -> Ints:
    """-1, 0 or 1 for each cell: the sign of its volume. Exact for whole coordinates of
    at most 2^31 in size, since a doubtful one is computed again with whole numbers."""
    value, doubt = _determinants(points, cells)
    result = np.sign(value).astype(np.int8)
    for index in np.flatnonzero(doubt):
        result[index] = _exact_sign(points[cells[index]])
    return result


def rough_signs(points: Numbers, cells: Ints) -> Ints:
    """The same by doubles alone, and 0 where that is in doubt."""
    value, doubt = _determinants(points, cells)
    return np.where(doubt, 0, np.sign(value)).astype(np.int8)


def _determinants(points: Numbers, cells: Ints) -> tuple[Reals, Flags]:
    places = points[cells].astype(np.float64)
    a, b, c = (places[:, i] - places[:, 0] for i in (1, 2, 3))
    terms = np.stack((a[:, 0] * b[:, 1] * c[:, 2], a[:, 1] * b[:, 2] * c[:, 0],
                      a[:, 2] * b[:, 0] * c[:, 1], -a[:, 2] * b[:, 1] * c[:, 0],
                      -a[:, 0] * b[:, 2] * c[:, 1], -a[:, 1] * b[:, 0] * c[:, 2]))
    value = terms.sum(axis=0)
    return value, np.abs(value) <= DOUBTFUL * np.abs(terms).sum(axis=0)


def _exact_sign(corners: Ints) -> int:
    rows = [[int(value) for value in corner] for corner in corners]
    a, b, c = ([rows[i][k] - rows[0][k] for k in range(3)] for i in (1, 2, 3))
    value = (a[0] * (b[1] * c[2] - b[2] * c[1]) - a[1] * (b[0] * c[2] - b[2] * c[0])
             + a[2] * (b[0] * c[1] - b[1] * c[0]))
    return (value > 0) - (value < 0)
