"""Packages that a command needs, and how a missing one is installed."""
from __future__ import annotations

import importlib.util
from typing import Iterable

from .errors import Status, UserError

# By the name of the module: Debian's package, and the name that pip knows.
PACKAGES: dict[str, tuple[str, str]] = {
    "numpy": ("python3-numpy", "numpy"),
    "meshio": ("python3-meshio", "meshio"),
    "vtkmodules": ("python3-vtk9", "vtk"),
    "matplotlib": ("python3-matplotlib", "matplotlib"),
    "gmsh": ("python3-gmsh", "gmsh"),
}


def is_there(module: str) -> bool:
    """Whether the module can be found; it isn't loaded."""
    return importlib.util.find_spec(module) is not None


def missing(modules: Iterable[str]) -> str | None:
    """One line that says what is missing and how it is installed, or None."""
    absent = [PACKAGES[name] for name in modules if not is_there(name)]
    if not absent:
        return None
    debian = " ".join(package for package, _ in absent)
    pip = " ".join(package for _, package in absent)
    verb = "is" if len(absent) == 1 else "are"
    return (f"{pip} {verb} missing: apt install {debian} "
            f"(then run /usr/bin/python3), or pip install {pip}")


def need(*modules: str) -> None:
    """Goes on where all modules are there, else ends with one line."""
    line = missing(modules)
    if line is not None:
        raise UserError(line, Status.MISSING)
