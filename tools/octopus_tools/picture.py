"""A picture of a step, drawn without a display."""
from __future__ import annotations

from dataclasses import dataclass
from pathlib import Path
from typing import Any

import numpy as np

from .arrays import Ints, Numbers, Reals
from .errors import UserError
from .script import Box

BACK = (0.80, 0.84, 0.88)
FRONT = (0.35, 0.45, 0.55, 0.10)
CREASE = (0.25, 0.30, 0.36, 0.55)
SHARP = 0.77    # the cosine of about 40 degrees
LIGHT = np.array((0.45, 0.30, -0.84))
BOX = "#0046c8"
ANSWERED = "#e06c00"
MISSED = "#b0006e"
MARGIN = 0.06   # of the picture, on each side
HEADER = 34     # pixels at the top for the words
# The eye looks along this direction; the third axis points up.
LOOK = (-0.55, 0.72, -0.42)

# The twelve edges of a box by its corners; bit 0, 1, 2 of a corner say high x, y, z.
EDGES = tuple((a, a | bit) for a in range(8) for bit in (1, 2, 4) if not a & bit)


@dataclass(frozen=True)
class Scene:
    """What there is to be seen. `fourth` has for each triangle the point behind it."""

    points: Ints
    triangles: Ints
    fourth: Ints
    box: Box
    answered: Ints
    missed: Ints
    words: str


@dataclass(frozen=True)
class Projection:
    """A parallel projection onto a picture of so many pixels, all of the given places
    within its margins. Pixel (0, 0) is the upper left one."""

    width: int
    height: int
    scale: float
    middle: Reals
    axes: Reals

    @staticmethod
    def of(places: Numbers, width: int, height: int) -> Projection:
        """The largest projection that shows all places."""
        axes = _axes()
        flat = places.astype(np.float64) @ axes.T
        low, high = flat.min(axis=0), flat.max(axis=0)
        room = np.array([width, height - HEADER]) * (1 - 2 * MARGIN)
        span = np.maximum(high - low, 1e-9)[:2]
        return Projection(width, height, float((room / span).min()), (low + high) / 2, axes)

    def pixels(self, places: Numbers) -> Reals:
        """Where places are seen: (n, 2), x to the right and y downwards."""
        flat = (places.astype(np.float64) @ self.axes.T - self.middle)[:, :2] * self.scale
        return np.column_stack((self.width / 2 + flat[:, 0],
                                (self.height + HEADER) / 2 - flat[:, 1]))

    def depth(self, places: Numbers) -> Reals:
        """How far away places are, along the look."""
        away: Reals = places.astype(np.float64) @ self.axes[2]
        return away


def _axes() -> Reals:
    """Right, up and away as rows."""
    away = np.array(LOOK) / np.linalg.norm(LOOK)
    right = np.cross(away, (0.0, 0.0, 1.0))
    right /= np.linalg.norm(right)
    return np.stack((right, np.cross(right, away), away))


def corners(box: Box) -> Ints:
    """The eight corners of a box, in the order that `EDGES` counts them."""
    ends = (box.low, box.high)
    return np.array([[ends[corner >> axis & 1][axis] for axis in range(3)]
                     for corner in range(8)], dtype=np.int64)


def seen(scene: Scene, width: int, height: int) -> Projection:
    """The projection of a picture of this scene."""
    shown = scene.points[np.unique(scene.triangles)] if len(scene.triangles) else scene.points
    return Projection.of(np.concatenate((shown, corners(scene.box))), width, height)


def draw(scene: Scene, path: Path, width: int, height: int) -> None:
    """Writes the picture as a PNG file."""
    from matplotlib.backends.backend_agg import FigureCanvasAgg
    from matplotlib.figure import Figure

    view = seen(scene, width, height)
    figure = Figure(figsize=(width / 100, height / 100), dpi=100)
    FigureCanvasAgg(figure)
    axes = figure.add_axes((0, 0, 1, 1))
    axes.set_xlim(0, width)
    axes.set_ylim(height, 0)
    axes.set_axis_off()
    _draw_surface(axes, scene, view)
    _draw_box(axes, scene.box, view)
    _draw_vertices(axes, scene, view)
    _draw_words(axes, scene, width)
    try:
        figure.savefig(path, format="png", metadata={"Software": "octopus-tools"},
                       pil_kwargs={"optimize": True})
    except OSError as error:
        raise UserError(f"{path}: {error.strerror}") from error


def _draw_surface(axes: Any, scene: Scene, view: Projection) -> None:
    """The far side of the surface solid and shaded, the near side as a thin veil, and
    the edges where it bends sharply."""
    from matplotlib.collections import LineCollection, PolyCollection

    if not len(scene.triangles):
        return
    places = scene.points[scene.triangles].astype(np.float64)
    normals = outward(scene.points, scene.triangles, scene.fourth)
    away = normals @ view.axes[2]
    flat = view.pixels(places.reshape(-1, 3)).reshape(-1, 3, 2)
    order = np.argsort(-view.depth(places.mean(axis=1)))
    back = order[away[order] >= 0]
    front = order[away[order] < 0]
    shade = 0.80 + 0.20 * (normals[back] @ LIGHT)[:, None]
    colors = np.clip(np.asarray(BACK)[None, :] * shade, 0, 1)
    axes.add_collection(PolyCollection(flat[back], facecolors=colors, edgecolors=colors,
                                       linewidths=0.4))
    axes.add_collection(PolyCollection(flat[front], facecolors=[FRONT], linewidths=0,
                                       antialiaseds=False))
    sharp = creases(scene.triangles, normals)
    ends = view.pixels(scene.points[sharp.ravel()]).reshape(-1, 2, 2)
    axes.add_collection(LineCollection(ends, colors=[CREASE], linewidths=0.7))


def outward(points: Ints, triangles: Ints, fourth: Ints) -> Reals:
    """The unit normals of surface triangles, away from their tetrahedra; 0 0 0 where a
    triangle is flat."""
    places = points[triangles].astype(np.float64)
    normals = np.cross(places[:, 1] - places[:, 0], places[:, 2] - places[:, 0])
    inward = points[fourth] - places[:, 0]
    normals *= -np.sign((normals * inward).sum(axis=1))[:, None]
    length = np.linalg.norm(normals, axis=1)
    units: Reals = normals / np.where(length > 0, length, 1)[:, None]
    return units


def creases(triangles: Ints, normals: Reals) -> Ints:
    """The edges, shape (e, 2), along which two triangles meet at a sharp angle."""
    sides = triangles[:, [[0, 1], [1, 2], [0, 2]]].reshape(-1, 2).astype(np.int64)
    keys = sides[:, 0] << 32 | sides[:, 1]
    order = np.argsort(keys, kind="stable")
    first, second = order[:-1], order[1:]
    met = keys[first] == keys[second]
    first, second = first[met], second[met]
    cosine = (normals[first // 3] * normals[second // 3]).sum(axis=1)
    sharp: Ints = sides[first[cosine < SHARP]]
    return sharp


def _draw_box(axes: Any, box: Box, view: Projection) -> None:
    from matplotlib.collections import LineCollection

    flat = view.pixels(corners(box))
    axes.add_collection(LineCollection([flat[list(edge)] for edge in EDGES], colors=BOX,
                                       linewidths=1.8, capstyle="round"))


def _draw_vertices(axes: Any, scene: Scene, view: Projection) -> None:
    shown = len(scene.answered) + len(scene.missed)
    size = float(np.clip(60 / max(shown, 1) ** 0.4, 3, 7))
    for vertices, color, marker in ((scene.answered, ANSWERED, "o"), (scene.missed, MISSED, "X")):
        if len(vertices):
            flat = view.pixels(scene.points[vertices])
            axes.plot(flat[:, 0], flat[:, 1], linestyle="none", marker=marker, color=color,
                      markersize=size if marker == "o" else size + 2, markeredgewidth=0)


def _draw_words(axes: Any, scene: Scene, width: int) -> None:
    axes.text(10, 17, scene.words, fontsize=9, va="center", color="#202020")
    at = width - 10
    for word, color in (("missed", MISSED), ("answered", ANSWERED), ("box", BOX)):
        axes.text(at, 17, word, fontsize=9, va="center", ha="right", color=color)
        at -= 12 + 7 * len(word)
