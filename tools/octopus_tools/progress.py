"""Progress of long work, on a terminal alone."""
from __future__ import annotations

import sys
import time
from types import TracebackType
from typing import TextIO

BETWEEN = 0.2  # seconds between two updates


class Progress:
    """A line on the standard error that tells how far some work has come.

    It writes nothing where the standard error isn't a terminal, and takes its
    line away at the end.
    """

    def __init__(self, label: str, total: int = 0, out: TextIO | None = None) -> None:
        self.label = label
        self.total = total
        self.done = 0
        self._out = sys.stderr if out is None else out
        self._shown = 0.0
        self._wide = 0
        self._live = self._out.isatty()

    def step(self, amount: int = 1) -> None:
        """Adds to what is done."""
        self.done += amount
        now = time.monotonic()
        if self._live and now - self._shown >= BETWEEN:
            self._shown = now
            self._write(self._text())

    def _text(self) -> str:
        if not self.total:
            return f"{self.label} {self.done:,}"
        part = min(100, 100 * self.done // self.total)
        return f"{self.label} {part}% ({self.done:,} of {self.total:,})"

    def _write(self, text: str) -> None:
        self._out.write("\r" + text.ljust(self._wide))
        self._out.flush()
        self._wide = len(text)

    def __enter__(self) -> Progress:
        return self

    def __exit__(self, kind: type[BaseException] | None, value: BaseException | None,
                 trace: TracebackType | None) -> None:
        if self._live and self._wide:
            self._write("")
            self._out.write("\r")
            self._out.flush()
