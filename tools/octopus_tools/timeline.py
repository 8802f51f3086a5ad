"""`timeline`: the journal of a run as a picture in SVG. Needs no package."""
from __future__ import annotations

from dataclasses import dataclass, field
from pathlib import Path
from typing import Iterator, TextIO

from .errors import UserError
from .files import replacing
from .journal import Event, Kind, Replay
from .progress import Progress
from .report import Report, read_report

LEFT = 110       # pixels for the names of the lanes
TOP = 50
LANE = 34
BAR = 18
HELD = 60        # pixels for the curve of held steps
MOST_WIDE = 14   # pixels for an event, where there are few
LEAST_WIDE = 0.02
GOOD_WIDTH = 1800
LABELLED = 22    # pixels that a bar has to have for its label

BAR_COLORS = ("#4c78a8", "#f58518", "#54a24b", "#b279a2",
              "#9d755d", "#72b7b2", "#eeca3b", "#e45756")


@dataclass
class Timeline:
    """Where things stand in the picture. Event i (from 0) is at x(i); lane 0 has the
    publishes, lane s + 1 session s, and the last one the freed steps."""

    report: Report
    wide: float = field(init=False)

    def __post_init__(self) -> None:
        events = max(self.report.events, 1)
        self.wide = max(LEAST_WIDE, min(MOST_WIDE, GOOD_WIDTH / events))

    def x(self, event: int) -> float:
        """The middle of an event."""
        return LEFT + (event + 0.5) * self.wide

    def y(self, lane: int) -> float:
        """The middle of a lane."""
        return TOP + (lane + 0.5) * LANE

    @property
    def lanes(self) -> int:
        """How many lanes there are."""
        return len(self.report.answers) + 2

    @property
    def width(self) -> float:
        """Of the picture, in pixels."""
        return self.x(self.report.events) + 30

    @property
    def held_bottom(self) -> float:
        """Where no held step would stand."""
        return TOP + self.lanes * LANE + HELD

    @property
    def height(self) -> float:
        """Of the picture, in pixels."""
        return self.held_bottom + 30


def timeline(report_path: Path, svg: Path) -> str:
    """Draws the journal of a report; gives one line on it. Raises where the journal is
    no legal history of whole turns."""
    report = read_report(report_path)
    with replacing(svg) as beside, beside.open("w", encoding="utf-8") as out:
        most = _write(Timeline(report), out)
    return (f"{svg}: {report.events:,} events, {report.steps:,} steps, "
            f"{len(report.answers)} sessions, at most {most} steps held at once")


def _write(line: Timeline, out: TextIO) -> int:
    """Writes the picture; gives the greatest number of held steps."""
    out.write(f'<svg xmlns="http://www.w3.org/2000/svg" width="{line.width:.0f}" '
              f'height="{line.height:.0f}" font-family="sans-serif" font-size="11">\n'
              '<rect width="100%" height="100%" fill="white"/>\n')
    report = line.report
    boxes = sum(len(session) for session in report.answers)
    out.write(f'<text x="10" y="20" font-size="14">run of {report.steps} steps, '
              f'{len(report.answers)} sessions, {boxes} boxes: {report.events} events</text>\n')
    names = ["publish"] + [f"session {s}" for s in range(len(report.answers))] + ["freed"]
    for lane, name in enumerate(names):
        y = line.y(lane)
        out.write(f'<text x="10" y="{y + 4:.1f}">{name}</text>'
                  f'<line x1="{LEFT}" y1="{y:.1f}" x2="{line.width - 20:.1f}" y2="{y:.1f}" '
                  'stroke="#dddddd"/>\n')
    held: list[int] = []
    with Progress("drawing event", report.events) as progress:
        for piece, count in _events(line):
            out.write(piece)
            held.append(count)
            progress.step()
    out.write(_held_curve(line, held))
    out.write("</svg>\n")
    return max(held, default=1)


def _events(line: Timeline) -> Iterator[tuple[str, int]]:
    """For each event what is drawn, and the number of steps that are held after it."""
    report = line.report
    replay = Replay(report.steps, len(report.answers))
    pinned: dict[int, int] = {}
    for index, (number, event) in enumerate(report.journal()):
        try:
            freed = replay.play(event)
        except UserError as error:
            raise UserError(f"{report.path}: line {number}: {error}") from None
        yield (_mark(line, index, event, pinned) + _freed(line, index, freed),
               len(replay.held()))
    if replay.out or not replay.closed or replay.newest != report.steps:
        raise UserError(f"{report.path}: the journal ends before the run does")


def _mark(line: Timeline, index: int, event: Event, pinned: dict[int, int]) -> str:
    """What an event draws in its own lane: a bar is drawn where its pin ends."""
    x = line.x(index)
    if event.kind is Kind.PIN:
        pinned[event.session] = index
        return ""
    if event.kind is Kind.UNPIN:
        return _bar(line, pinned.pop(event.session), index, event)
    y = line.y(0)
    if event.kind is Kind.CLOSE:
        return (f'<path class="close" d="M{x - 4:.2f} {y - 6:.1f}l8 12m0 -12l-8 12" '
                'stroke="#a00000" stroke-width="2"><title>close</title></path>\n')
    label = ""
    if line.wide * 2 >= 8 or event.step % max(1, int(40 / line.wide)) == 0:
        label = f'<text x="{x:.2f}" y="{y - 9:.1f}" text-anchor="middle">{event.step}</text>'
    return (f'<line class="publish" x1="{x:.2f}" y1="{y - 7:.1f}" x2="{x:.2f}" y2="{y + 7:.1f}" '
            f'stroke="#202020" stroke-width="{min(2.0, max(0.3, line.wide / 3)):.2f}">'
            f'<title>publish {event.step}</title></line>{label}\n')


def _bar(line: Timeline, start: int, end: int, event: Event) -> str:
    left, right = line.x(start), line.x(end)
    y = line.y(event.session + 1)
    color = BAR_COLORS[event.session % len(BAR_COLORS)]
    label = ""
    if right - left >= LABELLED or line.wide >= 8:
        label = (f'<text x="{(left + right) / 2:.2f}" y="{y + 4:.1f}" text-anchor="middle" '
                 f'fill="white">{event.step}</text>')
    return (f'<rect class="pin" x="{left:.2f}" y="{y - BAR / 2:.1f}" '
            f'width="{max(right - left, 0.5):.2f}" height="{BAR}" rx="2" fill="{color}">'
            f'<title>session {event.session} has step {event.step}, events {start} to {end}'
            f'</title></rect>{label}\n')


def _freed(line: Timeline, index: int, freed: int | None) -> str:
    if freed is None:
        return ""
    x, y = line.x(index), line.y(line.lanes - 1)
    radius = min(3.5, max(0.6, line.wide / 3))
    return (f'<circle class="freed" cx="{x:.2f}" cy="{y:.1f}" r="{radius:.2f}" '
            f'fill="#808080"><title>step {freed} is freed</title></circle>\n')


def _held_curve(line: Timeline, held: list[int]) -> str:
    """How many steps are held, as a stair; only its corners are written."""
    most = max(held, default=1)
    high = HELD * 0.7 / max(most, 1)
    parts = [f"M{LEFT} {line.held_bottom - high:.1f}"]
    last = 1
    for index, count in enumerate(held):
        if count != last:
            parts.append(f"H{line.x(index):.2f}V{line.held_bottom - count * high:.1f}")
            last = count
    parts.append(f"H{line.x(len(held)):.2f}")
    return (f'<path class="held" d="{"".join(parts)}" fill="none" stroke="#404040"/>\n'
            f'<text x="10" y="{line.held_bottom - 4:.1f}">held, up to {most}</text>\n')
