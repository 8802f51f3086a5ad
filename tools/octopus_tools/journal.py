"""The journal of a run: its events, and the steps that are held after each."""
from __future__ import annotations

from dataclasses import dataclass, field
from enum import Enum

from .errors import UserError


class Kind(Enum):
    """The four kinds of events."""

    PUBLISH = "publish"
    PIN = "pin"
    UNPIN = "unpin"
    CLOSE = "close"


@dataclass(frozen=True, slots=True)
class Event:
    """An event. `step` is set for all but a close, `session` for pin and unpin."""

    kind: Kind
    step: int = -1
    session: int = -1

    def words(self) -> str:
        """The event's line."""
        if self.kind is Kind.CLOSE:
            return "close"
        if self.kind is Kind.PUBLISH:
            return f"publish {self.step}"
        return f"{self.kind.value} {self.session} {self.step}"


def parse_event(line: str) -> Event:
    """The event of a line of a journal."""
    words = line.split(" ")
    try:
        kind = Kind(words[0])
        numbers = [int(word) for word in words[1:]]
    except ValueError:
        raise UserError(f"no event: {line[:60]}") from None
    if len(numbers) != {Kind.PUBLISH: 1, Kind.CLOSE: 0}.get(kind, 2):
        raise UserError(f"no event: {line[:60]}")
    if kind is Kind.CLOSE:
        return Event(kind)
    if kind is Kind.PUBLISH:
        return Event(kind, numbers[0])
    return Event(kind, numbers[1], numbers[0])


@dataclass
class Replay:
    """The state after the events so far. Step 0 is the newest at first."""

    steps: int
    sessions: int
    newest: int = 0
    closed: bool = False
    out: dict[int, int] = field(default_factory=dict)

    def held(self) -> set[int]:
        """The newest step and those that sessions have out."""
        return {self.newest, *self.out.values()}

    def play(self, event: Event) -> int | None:
        """Plays an event; gives the step that it frees, if it frees one. Raises
        where the event can't come now."""
        wrong = self._wrong(event)
        if wrong is not None:
            raise UserError(f"{event.words()}: {wrong}")
        before = self.held()
        if event.kind is Kind.PUBLISH:
            self.newest = event.step
        elif event.kind is Kind.PIN:
            self.out[event.session] = event.step
        elif event.kind is Kind.UNPIN:
            del self.out[event.session]
        else:
            self.closed = True
        gone = before - self.held()
        return gone.pop() if gone else None

    def _wrong(self, event: Event) -> str | None:
        """Why the event can't come now, or None."""
        if event.kind is Kind.CLOSE:
            return "the plan is closed already" if self.closed else None
        if event.kind is Kind.PUBLISH:
            if self.closed:
                return "the plan is closed"
            return None if self.newest < event.step == self.newest + 1 <= self.steps \
                else f"the newest step is {self.newest} of {self.steps}"
        if not 0 <= event.session < self.sessions:
            return f"there are {self.sessions} sessions"
        out = self.out.get(event.session)
        if event.kind is Kind.UNPIN:
            return None if out == event.step else "this session doesn't have the step out"
        if out is not None:
            return f"this session has step {out} out"
        return None if event.step == self.newest else f"the newest step is {self.newest}"
