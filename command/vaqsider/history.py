"""The accepted lines of a script, each with its answer: the course that the zone took."""

from __future__ import annotations

from functools import cached_property
from itertools import accumulate
from typing import TYPE_CHECKING, Iterable, Iterator, Sequence, cast

import keyset
from keyset import Action, Published
from keyset.bounds import Reported
from keyset.lines import OF_CLOCK, Line

from . import words
from .zone_status import ZoneStatus

if TYPE_CHECKING:
    from keyset.members import After

REPORTED_FROM = {"report1": "start", "report2": "wait1"}
REFUSED, SAFE = "refused: ", "chain safe"


class Call:
    """An accepted line with its number in the file, its actions, and the last moment so far."""

    def __init__(self, number: int, text: str, reply: str, clock: int) -> None:
        self.number, self.line = number, Line(text)
        self.actions = [*map(Action, reply.split(" ")[1:])]
        # (These lines have a moment.)
        self.moment = cast(int, self.line.moment) if self.line.word in OF_CLOCK else clock

    @property
    def roll(self) -> str:
        """The roll of a line that has one."""
        return self.line.fields["ROLL"]

    @property
    def ttl(self) -> int:
        """The TTL of a report."""
        return int(self.line.fields["TTL"])


class History:
    """A script's lines, with the answers of the key set."""

    refused: list[tuple[int, str]]
    calls: list[Call]
    published: Published
    _steps: dict[int, Call]

    def __init__(self, lines: Sequence[str]) -> None:
        self.lines, self.refused, self.calls, self._steps = lines, [], [], {}
        *self.replies, sets, self.verdict = keyset.run(lines)
        self.published = Published.of(sets)
        last: dict[tuple[str | None, str], Call]
        clock, last = 0, {}
        for number, (text, reply) in enumerate(zip(lines[1:], self.replies), start=2):
            if reply.startswith(REFUSED):
                self.refused.append((number, reply[len(REFUSED) :]))
                continue
            call = Call(number, text, reply, clock)
            self.calls.append(call)
            clock, last[call.line.roll, call.line.word] = call.moment, call
            if call.line.is_report:
                self._steps[number] = last[call.line.roll, REPORTED_FROM[call.line.word]]

    @cached_property
    def status(self) -> ZoneStatus:
        """The status after the last line."""
        return ZoneStatus.of(keyset.status(self.lines))

    def step_of(self, report: Call) -> tuple[Call, list[str]]:
        """The step that an accepted report counts from: the start of its roll, or its first wait.
        With it come the kinds of sets that it asked for."""
        step = self._steps[report.number]
        return step, words.kinds_of(step.actions, of="Report")

    def reported(self, reports: Iterable[Call]) -> Iterator[Reported]:
        """What these reports say, of those that `calls` has."""
        lines = (Line(text) for text in self.lines)
        moments = (it.moment or 0 if it.word in OF_CLOCK else 0 for it in lines)
        begun = [*accumulate(moments, lambda one, other: max(one, other))]
        for call in reports:
            step, kinds = self.step_of(call)
            yield Reported(call.number, call.roll, call.moment, call.ttl, step.number,
                           begun[step.number - 1], kinds)

    def states(self) -> Iterator[tuple[Call, After]]:
        """Each accepted line with what is so after it."""
        lines = [self.lines[0], *(call.line.text for call in self.calls)]
        return zip(self.calls, keyset.follow(lines))
