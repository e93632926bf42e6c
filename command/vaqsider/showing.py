"""What the next year brings by a zone's policy, played in memory."""

from __future__ import annotations

from argparse import Namespace
from typing import Callable, Iterator

from keyset import Notes

from . import draw, plan, playing, policies, status, timeline
from .errors import OK
from .linting import Spans
from .playing import Play
from .subjects import Subject, subjects

Clock = Callable[[], float]
Outcome = tuple[int, Iterator[str], object]
YEAR = 365 * policies.DAY
# A policy file without a zone is shown of a zone with this name, which has no key yet.
EXAMPLE = "example.com"


def play_of(subject: Subject, now: float) -> Play:
    """The course from now on."""
    lines, notes = playing.invented(EXAMPLE), []
    if subject.script is not None:
        lines, _ = status.read(subject.script, now)
        notes = Notes(subject.script).lines
    spans = Spans.of(subject.script, now)
    return Play(subject.policy, lines, notes, int(now), spans.ttls, spans.delays)


def show(args: Namespace, clock: Clock) -> Outcome:
    """Each policy with the calls of the time to come."""
    shown = [(it, play_of(it, clock())) for it in subjects(args.SCRIPT)]
    end = int(clock()) + YEAR if args.until is None else args.until
    steps = plan.as_json(step for _, play in shown for step in play.until(end))
    if args.calendar or args.picture:
        return OK, _drawn(args, shown, clock()), steps
    return OK, (line for it, play in shown for line in _text(it, play, end)), steps


def _text(subject: Subject, play: Play, end: int) -> Iterator[str]:
    yield f"{subject.place}: by {subject.policy.source}"
    yield from (f"  {line}" for line in subject.policy.said())
    yield ""
    steps = (step for step in play.steps if step.moment < end)
    yield from (f"  {line}" for line in playing.texts(steps))


def _drawn(args: Namespace, shown: list[tuple[Subject, Play]], now: float) -> Iterator[str]:
    for _, play in shown:
        zone = play.lines[0].partition(" ")[2]
        if args.calendar:
            yield from plan.as_calendar(zone, play.steps)
        else:
            yield from draw.picture(zone, timeline.timeline(play.lines, play.notes), now, None)
