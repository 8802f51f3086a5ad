"""Files that come into their place once they are whole."""
from __future__ import annotations

import os
from contextlib import contextmanager
from pathlib import Path
from typing import Iterator

from .errors import UserError


@contextmanager
def replacing(path: Path) -> Iterator[Path]:
    """A file beside the path to be written; it takes the path's place at the end, and is
    gone where the work failed. Then what stood at the path is as it was."""
    beside = path.with_name(path.name + ".part")
    try:
        yield beside
        os.replace(beside, path)
    except OSError as error:
        raise UserError(f"{path}: {error.strerror}") from error
    finally:
        beside.unlink(missing_ok=True)
