"""The course of a script as spans of time: which key was in which set, and what caches may hold.

A set that was replaced stays in caches until its TTL is over, counted from the moment at which all
servers had the next one. The notes say both. Without them a report says it that is of the set's
kind and counts from a later step; or else, after the roll that replaced it, the last report of the
kind has the TTL."""

from __future__ import annotations

from bisect import bisect_left
from dataclasses import dataclass, field
from itertools import accumulate
from typing import Iterable, Mapping, Sequence

from .history import Call, History

# The sets with their labels, and the kind of reports that speak of them.
SETS = {
    "ds": ("DS", "ds"),
    "dnskey": ("DNSKEY", "dnskey"),
    "signers": ("signs DNSKEY", "dnskey"),
    "zone": ("signs zone", "zone"),
}
# The phase of a roll that begins with a call.
PHASES: dict[str, str | None] = {
    "start": "propagation 1",
    "report1": "caches 1",
    "wait1": "propagation 2",
    "report2": "caches 2",
    "wait2": "last actions",
    "done": None,
    "abort": None,
}


@dataclass
class Bar:
    """A key in a set since a line, or a phase of a roll: from when, until when, and until when
    caches may still hold the key. None means: not yet."""

    begin: float
    end: float | None = None
    gone: float | None = None
    word: str | None = None
    line: int = 0


@dataclass
class Timeline:
    """The span of all moments; when the last rolls started that went beside one another; the phases
    by roll; the bars by the label of a set and by key."""

    begin: float
    end: float
    last: float
    phases: dict[str, list[Bar]] = field(default_factory=dict)
    rows: dict[str, list[Bar]] = field(default_factory=dict)


def timeline(lines: Sequence[str], notes: Iterable[str] = ()) -> Timeline:
    """The timeline of a script with its notes."""
    history = History(lines)
    moments = [call.moment for call in history.calls if call.line.word in PHASES] or [0]
    course, bars = Timeline(moments[0], max(moments), moments[0]), Bars(CacheEnds(history, notes))
    for call, state in history.states():
        if call.line.word == "start":
            course.last = course.last if bars.going else call.moment
            bars.going[call.line.roll] = []
        bars.follow(call, state.published)
        if call.line.word in ("done", "abort"):
            bars.end(call)
        _phase(course.phases, call)
    for name, (label, _) in SETS.items():
        course.rows.update({f"{label} {key}": of for key, of in sorted(bars.of[name].items())})
    known = (bar.gone for of in course.rows.values() for bar in of)
    course.end = max([course.end, *filter(None, known)])
    return course


class Bars:
    """The bars of each set by key, call by call. `going` has those of which only the end of a roll
    will say until when caches may hold the key, by roll, with the kind of set."""

    of: dict[str, dict[str, list[Bar]]]
    shown: dict[str, set[str]]
    going: dict[str | None, list[tuple[str, Bar]]]

    def __init__(self, held: CacheEnds) -> None:
        self.held, self.going = held, {}
        self.of, self.shown = {name: {} for name in SETS}, {name: set() for name in SETS}

    def follow(self, call: Call, published: Mapping[str, Iterable[str]]) -> None:
        """Begins bars of the keys that a call brings in, and ends those of the keys that it takes
        out."""
        for name, (_, kind) in SETS.items():
            before, self.shown[name] = self.shown[name], set(published[name])
            for key in self.shown[name] - before:
                self.of[name].setdefault(key, []).append(Bar(call.moment, line=call.number))
            for key in before - self.shown[name]:
                self._take_out(self.of[name][key][-1], kind, call)

    def _take_out(self, bar: Bar, kind: str, call: Call) -> None:
        bar.end, bar.gone = call.moment, self.held.until(kind, bar.line, call)
        if bar.gone is None and call.line.roll in self.going:
            self.going[call.line.roll].append((kind, bar))
        elif bar.gone is None:
            bar.gone = self.held.at_least(kind, call)

    def end(self, call: Call) -> None:
        """Ends the roll of a call."""
        for kind, bar in self.going.pop(call.line.roll, ()):
            bar.gone = self.held.at_least(kind, call)


class CacheEnds:
    """Until when caches may hold sets that were replaced, by notes or else by reports."""

    ends: dict[str, list[tuple[int, int]]]
    ttls: dict[str, list[tuple[int, int]]]
    versions: dict[str, list[tuple[int, int]]]
    everywhere: dict[str, list[tuple[int, int]]]

    def __init__(self, history: History, notes: Iterable[str]) -> None:
        self.ends, self.ttls, self.versions, self.everywhere = {}, {}, {}, {}
        for call in (call for call in history.calls if call.line.is_report):
            step, kinds = history.step_of(call)
            for kind in kinds:
                end = call.moment + call.ttl
                self.ends.setdefault(kind, []).append((step.number, end))
                self.ttls.setdefault(kind, []).append((call.number, call.ttl))
        # Each end is the first of all that count from that step or a later one.
        for kind, ends in self.ends.items():
            self.ends[kind] = [*accumulate(sorted(ends, reverse=True), _first)][::-1]
        for word, kind, *numbers in (line.split(" ") for line in notes):
            if word == "published":
                self.versions.setdefault(kind, []).append((int(numbers[0]) + 1, int(numbers[1])))
            elif word == "everywhere":
                version = len(self.versions.get(kind, ()))
                self.everywhere.setdefault(kind, []).append((version, int(numbers[0])))

    def until(self, kind: str, since: int, call: Call) -> int | None:
        """The moment until which caches may hold a key that was in sets of a kind since a line, and
        that a call takes out. None if neither notes nor a report say it."""
        versions, everywhere = self.versions.get(kind, ()), self.everywhere.get(kind, ())
        first, last = (bisect_left(versions, (number,)) for number in (since, call.number))
        # Where it is noted of each version that all servers have a later one.
        noted = [bisect_left(everywhere, (version + 2,)) for version in range(first, last)]
        if noted and max(noted) < len(everywhere):
            return max(everywhere[at][1] + ttl for at, (_, ttl) in zip(noted, versions[first:last]))
        ends = self.ends.get(kind, ())
        at = bisect_left(ends, (call.number,))
        return ends[at][1] if at < len(ends) else None

    def at_least(self, kind: str, call: Call) -> int:
        """The same by the TTL of the last report of the kind before a call."""
        ttls = self.ttls.get(kind, ())
        at = bisect_left(ttls, (call.number,))
        return call.moment + (ttls[at - 1][1] if at else 0)


def _first(later: tuple[int, int], report: tuple[int, int]) -> tuple[int, int]:
    """The step of a report, and the first end of it and of those that count from a later step."""
    return report[0], min(later[1], report[1])


def _phase(phases: dict[str, list[Bar]], call: Call) -> None:
    """Ends the phase before a call, and begins the one after it."""
    if call.line.word in PHASES:
        row = phases.setdefault(call.roll, [])
        if row and row[-1].end is None:
            row[-1].end = call.moment
        if word := PHASES[call.line.word]:
            row.append(Bar(call.moment, word=word, line=call.number))
