"""The types of arrays that the modules share."""
from __future__ import annotations

from typing import Any

import numpy as np
from numpy.typing import NDArray

Ints = NDArray[np.integer[Any]]    # point numbers, whole coordinates
Reals = NDArray[np.float64]        # real coordinates, pixels
Flags = NDArray[np.bool_]          # one truth value each
Numbers = NDArray[Any]             # ints or reals
