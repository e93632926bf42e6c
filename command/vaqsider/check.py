"""What was accepted and can't be true, each with its line.

The key set believes what a line says. It accepts a moment ahead of the clock, or a report with too
low a TTL, and from then on its verdict is about a course that never was."""

from __future__ import annotations

import math
import re
from dataclasses import dataclass
from pathlib import Path
from typing import Iterable, Iterator, cast

from keyset import Lines, Notes, Role
from keyset.lines import OF_CLOCK
from keyset.rolls import ALGORITHM_ROLL, rolls_of

from . import looks, resting, status, words
from .errors import BROKEN, DUE, OK, WARNING, failure_of
from .history import SAFE, Call, History
from .zone_status import CACHES, ZoneStatus

KSK_ROLLS = (*rolls_of("ksk"), *rolls_of("csk"))
# After this time a look is of the past: with it nobody says that all is well.
DAY = 86400
AT = re.compile(r"(?:line (\d+): )?(.*)", re.DOTALL)
LEVELS = {OK: "note", DUE: "due", WARNING: "warning", BROKEN: "broken"}


@dataclass(frozen=True)
class Finding:
    """Something that is wrong or due, of this line of the script, or of all of it."""

    level: int
    text: str
    line: int | None = None

    def __str__(self) -> str:
        place = "" if self.line is None else f"line {self.line}: "
        return f"{place}{LEVELS[self.level]}: {self.text}"


def findings(path: str | Path, now: float) -> list[Finding]:
    """All findings about a script, in the order of its lines."""
    found: list[Finding]
    found, end = [], math.inf
    try:
        file = Lines(path)
        end = len(file.lines) + 2
        found += _findings(file, path, now)
    except Exception as error:
        # (Each text has this form.)
        line, text = cast("re.Match[str]", AT.match(
            str(failure_of(error)).removeprefix(f"{path}: "))).groups()
        found.append(Finding(BROKEN, text, int(line) if line else None))
    return sorted(found, key=lambda finding: finding.line or end)


def _findings(file: Lines, path: str | Path, now: float) -> Iterator[Finding]:
    """What comes next isn't said of a script that is torn: it may not be so."""
    if file.lines or not file.torn:
        history = History(file.lines)
        lost = status.lost(history.refused)
        if lost:
            yield Finding(BROKEN, lost[1], lost[0])
        for number, reason in history.refused:
            if not lost or number < lost[0]:
                yield Finding(WARNING, f"was refused ({reason}): take it out", number)
        yield from false_claims(history, path, now)
        yield from _of_clock(Notes(path), now)
    status.whole(path, file)
    zone_status = history.status.at(now, status.goes_on(resting.of_ticks(path)))
    yield from _due(zone_status)
    if zone_status.has_sets:
        yield from _of_look(path, len(file.lines), now)


def _of_look(path: str | Path, lines: int, now: float) -> Iterator[Finding]:
    """What the last look at all servers found, and how long ago that was."""
    kept = looks.read(path)
    if kept is None:
        yield Finding(OK, f"its servers were not asked yet: 'vaqsider watch {path} --state'")
        return
    was = "" if kept.lines == lines else f", when the script had {kept.lines} lines"
    found = f"{kept.servers} lacked something" if kept.servers else "all had what was due"
    if kept.age(now) < 0:
        text = f"its moment lies {words.duration(-kept.age(now))} ahead of the clock: ask again"
        yield Finding(WARNING, f"{looks.path_of(path)}: {text}")
        return
    yield Finding(OK, f"its servers were asked {words.duration(kept.age(now))} ago{was}: {found}")
    yield from (Finding(DUE, text) for text in kept.lacking)
    yield from (Finding(BROKEN, text) for text in kept.broken)
    if kept.until is not None and kept.until < now:
        yield Finding(BROKEN, f"by that look signatures expired at {words.moment(kept.until)}")
    elif kept.until is not None and kept.renew is not None and kept.renew <= now:
        text = f"by that look signatures expire at {words.moment(kept.until)}"
        yield Finding(DUE, f"{text}: renew them, then ask again")


def is_asked(path: str | Path, now: float) -> bool:
    """Whether the servers were asked within a day, or there is nothing to ask for."""
    kept = looks.read(path)
    if kept is None:
        return not status.read(path, now)[1].has_sets
    return 0 <= kept.age(now) < DAY


def _due(zone_status: ZoneStatus) -> Iterator[Finding]:
    """What waits for somebody, and what was ended early."""
    for roll in zone_status.rolls:
        waits_for = zone_status.waits_for[roll.roll]
        if waits_for != CACHES:
            text = f"{roll.roll.value} waits for {waits_for}: {status.comes_next(roll)}"
            yield Finding(DUE, text)
    for ended in zone_status.ended:
        yield Finding(DUE, f"{ended.roll.value} was ended early, and its actions may not be done")


def false_claims(
    history: History, path: str | Path, now: float, since: int = 0
) -> Iterator[Finding]:
    """What can't be true in the accepted lines, from this number on."""
    found = *_of_moments(history, now), *_of_notes(history, Notes(path), since)
    for number, text in found:
        if number >= since:
            yield Finding(WARNING, text, number)
    for algorithm, number in sorted(_mixed(history).items()):
        text = f"of algorithm {algorithm} a KSK is in use and no ZSK, or a ZSK and no KSK"
        yield Finding(WARNING, f"{text}: validators that ask for every algorithm fail", number)
    if history.verdict != SAFE:
        at = history.verdict.partition("at=")[2].partition(" ")[0]
        yield Finding(BROKEN, history.verdict, int(at) + 1)


def _of_moments(history: History, now: float) -> Iterator[tuple[int, str]]:
    """What the moments of the lines say against them, each with the number of its line."""
    latest: Call | None
    latest, is_signed = None, False
    for call in history.calls:
        yield from ((call.number, text) for text in _of_moment(history, call, latest, now))
        line = call.line
        if line.word == "start" and line.roll in KSK_ROLLS and not is_signed:
            yield call.number, f"a {line.roll} before the first algorithm-roll breaks a zone"
        is_signed |= (line.word, line.roll) == ("wait1", ALGORITHM_ROLL)
        if line.word in OF_CLOCK and call.moment <= now:
            latest = call if latest is None or call.moment > latest.moment else latest


def _of_moment(history: History, call: Call, latest: Call | None, now: float) -> Iterator[str]:
    """The latest line is that with the highest moment before the call, and before the clock's."""
    line, step = call.line, call.line.is_report and history.step_of(call)[0]
    if line.moment is not None and line.moment > now:
        yield f"its moment lies {words.duration(line.moment - int(now))} ahead of the clock"
    elif step and call.moment < step.moment:
        yield f"it reports a moment before its step, of line {step.number}: nothing had spread"
    elif line.word in OF_CLOCK and latest and call.moment < latest.moment:
        yield f"its moment is before that of line {latest.number}"


def _of_notes(history: History, notes: Notes, since: int) -> Iterator[tuple[int, str]]:
    """What the notes say against reports from a line on, each with the number of its line. What was
    reported before the notes began, they can't judge."""
    first = notes.first
    calls = [call for call in history.calls if call.line.is_report and call.number >= since]
    calls = [call for call in calls if first is not None and first < call.number - 1]
    if not notes.lines or (since and not calls):
        return
    for report, due in notes.false(history.lines, [*history.reported(calls)]):
        if due is None:
            yield report.number, "by the notes not all servers had yet what it reports"
        else:
            yield report.number, f"its TTL is {report.ttl}, and {due} was due by the notes"


def _of_clock(notes: Notes, now: float) -> Iterator[Finding]:
    """Notes whose moment lies ahead of the clock. Until then no act or watch can note anything."""
    for number, line in enumerate(notes.lines[1:], start=2):
        ahead = int(line.rpartition(" ")[2]) - int(now)
        if ahead > 0:
            text = f"its moment lies {words.duration(ahead)} ahead of the clock"
            yield Finding(WARNING, f"{notes.path}: line {number}: {text}")


def _mixed(history: History) -> dict[int, int]:
    """The algorithms that have only KSKs or only ZSKs in use, each with the line since when."""
    since: dict[int, int] = {}
    if _alone((key.algorithm, role) for key in history.status.keys for role in key.roles):
        for call, state in history.states():
            alone = _alone((algorithm, Role(**role)) for algorithm, role in state.roles)
            since = {algorithm: since.get(algorithm, call.number) for algorithm in alone}
    return since


def _alone(roles: Iterable[tuple[int, Role]]) -> set[int]:
    """The algorithms of which only a KSK or only a ZSK is in use, if there are both."""
    used = [(role.role, algorithm) for algorithm, role in roles
            if not role.old and (role.signer or role.present or role.at_parent)]
    ksks, zsks = ({algorithm for of, algorithm in used if of == kind} for kind in ("ksk", "zsk"))
    return ksks ^ zsks if ksks and zsks else set()
