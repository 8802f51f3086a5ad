"""The program octopus: where it is, and what it writes."""
from __future__ import annotations

import os
import shutil
import subprocess
from contextlib import contextmanager
from dataclasses import dataclass
from io import BufferedReader
from pathlib import Path
from typing import Iterator

from .errors import Status, UserError
from .refusals import STATUS_WORDS, Refusal, in_words, parse_refusal

VARIABLE = "OCTOPUS"
PIECE = 1 << 20
HEAD = 4096  # bytes of an output that are kept where the rest doesn't matter


@dataclass(frozen=True)
class Outcome:
    """How the program ended: its status and the front of its output."""

    status: int
    head: bytes

    @property
    def refusal(self) -> Refusal | None:
        """The refusal that was written, if one was."""
        return None if self.status == 0 else parse_refusal(self.head)


class Refused(UserError):
    """The program refused; the refusal says what."""

    def __init__(self, outcome: Outcome) -> None:
        refusal = outcome.refusal
        if refusal is not None:
            line = in_words(refusal)
        else:
            line = STATUS_WORDS.get(outcome.status,
                                    f"the program ended with status {outcome.status}")
        super().__init__(line, Status.FILE)
        self.outcome = outcome


def find_program(option: str | None) -> Program:
    """The program by the option, else the variable OCTOPUS, else the PATH."""
    for name, origin in ((option, "--octopus"), (os.environ.get(VARIABLE), VARIABLE)):
        if name:
            found = shutil.which(name)
            if found is None:
                raise UserError(f"{origin} names {name}, which can't be run", Status.MISSING)
            return Program(Path(found).absolute())
    found = shutil.which("octopus")
    if found is None:
        raise UserError("the program octopus is missing: build it (README), then name it by "
                        "--octopus PATH or the variable OCTOPUS", Status.MISSING)
    return Program(Path(found).absolute())


@dataclass(frozen=True)
class Program:
    """The program at a path."""

    path: Path

    def _start(self, words: tuple[str, ...]) -> subprocess.Popen[bytes]:
        try:
            return subprocess.Popen([str(self.path), *words], stdout=subprocess.PIPE,
                                    stdin=subprocess.DEVNULL, bufsize=PIECE)
        except OSError as error:
            raise UserError(f"{self.path} can't be run: {error.strerror}",
                            Status.MISSING) from error

    def ask(self, *words: str) -> Outcome:
        """Runs the program and keeps the front of its output alone."""
        with self._start(words) as process:
            assert process.stdout is not None
            head = process.stdout.read(HEAD)
            while process.stdout.read(PIECE):
                pass
        return Outcome(process.returncode, head)

    @contextmanager
    def output(self, *words: str) -> Iterator[BufferedReader]:
        """The output of the program as it comes. Raises Refused where nothing but a
        refusal was written, and at the end where the status isn't 0."""
        process = self._start(words)
        try:
            stream = process.stdout
            assert isinstance(stream, BufferedReader)
            if stream.peek(1)[:1] in (b"", b"r"):
                _raise_if_refused(process, stream)
            try:
                yield stream
            except UserError as error:
                if not stream.read(1) and process.wait() != 0:
                    raise Refused(Outcome(process.returncode, b"")) from error
                raise
            while stream.read(PIECE):
                pass
            if process.wait() != 0:
                raise Refused(Outcome(process.returncode, b""))
        finally:
            if process.poll() is None:
                process.kill()
            process.wait()
            if process.stdout is not None:
                process.stdout.close()

    def save(self, path: Path, *words: str) -> None:
        """Runs the program with its output in a file."""
        with self.output(*words) as stream, path.open("wb") as out:
            shutil.copyfileobj(stream, out, PIECE)


def _raise_if_refused(process: subprocess.Popen[bytes], stream: BufferedReader) -> None:
    """Raises Refused where the program ended badly with at most one line; `r` may
    also be the first letter of an answer."""
    front = stream.peek(8)[:8]
    if front and front != b"refused ":
        return
    head = stream.read(HEAD)
    status = process.wait()
    if status != 0:
        raise Refused(Outcome(status, head))
