"""What a command may end with: a status, and one line where it isn't good."""
from __future__ import annotations

from enum import IntEnum


class Status(IntEnum):
    """The exit code of a command."""

    DONE = 0
    FOUND = 1      # it ran, and what it looked for is wrong: a refusal, a wrong answer
    WORDS = 2      # the words have no form (argparse ends so too)
    MISSING = 3    # a package or the program isn't there
    FILE = 4       # a file can't be read or written, or isn't what it has to be
    STOPPED = 130  # stopped from the keyboard


class UserError(Exception):
    """Something that the user can mend, told in one line."""

    def __init__(self, message: str, status: Status = Status.FILE) -> None:
        super().__init__(message)
        self.status = status
