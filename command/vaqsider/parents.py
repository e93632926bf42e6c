"""The TTLs of DS sets, which the parent sets. Each that is seen is noted before it counts: of the
set that is due, and of the one that it replaces."""

from __future__ import annotations

import math
from argparse import Namespace
from collections.abc import Iterator
from dataclasses import dataclass
from typing import TYPE_CHECKING

from keyset import Action, Notes

from . import comparing, looking
from .errors import NoAnswer
from .history import History
from .looking import Look, Places

if TYPE_CHECKING:
    from .ending import Clock
    from .zone_status import ZoneStatus


@dataclass(frozen=True)
class DsVersion:
    """A DS set that was published, by notes: with the sets after this call."""

    call: int
    ttl: int


@dataclass(frozen=True)
class DsNotes:
    """What notes have of DS sets: the highest TTL before the first call, and the versions."""

    before: int
    versions: list[DsVersion]

    @classmethod
    def of(cls, notes: Notes) -> DsNotes:
        words = [line.split(" ") for line in notes.lines]
        of_ds = [it for it in words if it[:2] == ["published", "ds"]]
        return cls(int(words[0][1]), [DsVersion(int(it[2]), int(it[3])) for it in of_ds])

    def last(self, below: float) -> DsVersion:
        """The last version of before this call."""
        of = [it for it in self.versions if it.call < below]
        return of[-1] if of else DsVersion(0, self.before)


def rises(
    ds_notes: DsNotes, step: int | None, calls: int, old: int, new: int
) -> Iterator[DsVersion]:
    """The versions to note, if sets were seen with these highest TTLs: those that are due, and
    others. A step changes the DS set, and counts from this call on; without one nothing changes
    now, and `calls` have been made."""
    last = ds_notes.last(math.inf)
    highest = max(old, new)
    if step is None or last.call < step:
        # All that servers give is of before what comes next.
        if highest > last.ttl:
            yield DsVersion(last.call or (calls if step is None else step - 1), highest)
    elif old > ds_notes.last(step).ttl:
        yield DsVersion(step - 1, old)
        yield DsVersion(last.call, max(last.ttl, new))
    elif new > last.ttl:
        yield DsVersion(last.call, new)
    published = [it for it in ds_notes.versions if step is not None and it.call >= step]
    if step is not None and published and last.call < step:
        # A crash between the two lines above.
        yield DsVersion(published[-1].call, max(published[-1].ttl, new))


def note(notes: Notes, lines: list[str], zone_status: ZoneStatus, look: Look) -> None:
    """Notes the TTLs of the DS sets in a look that are above the noted ones."""
    step = _step(lines) if zone_status.asks(Action.UPDATE_DS_RRSET) else None
    old = new = 0
    for (kind, type_, _), answer in look.answers.items():
        if kind == "ds" and not answer.fault:
            is_due = not comparing.lacks(look.due, type_, answer, look.now)
            old, new = (old, max(new, answer.ttl)) if is_due else (max(old, answer.ttl), new)
    calls = len(lines) - 1
    for version in rises(DsNotes.of(notes), step, calls, old, new) if calls else ():
        notes.append(f"published ds {version.call} {version.ttl} {int(look.now)}")


def _step(lines: list[str]) -> int:
    """The number of the last call that asked for another DS set."""
    return [call.number - 1 for call in History(lines).calls
            if Action.UPDATE_DS_RRSET in call.actions][-1]


def before_step(args: Namespace, lines: list[str], zone_status: ZoneStatus, clock: Clock) -> None:
    """Before a change of the DS set is published for the first time: notes the TTL of the set that
    is there. After that caches may keep it for so long, and nobody could see it any more."""
    notes = Notes(args.SCRIPT)
    if not notes.lines:
        return
    if DsNotes.of(notes).last(math.inf).call >= _step(lines):
        return
    due = comparing.DueSets.of(zone_status, comparing.folders_of(args))
    look = looking.look(due, ["ds"], Places.of_parent(due.zone, args), clock())
    silent = [f"{server}: {answer.fault}" for (_, _, server), answer in look.answers.items()
              if answer.fault]
    if silent and not args.although:
        text = "the TTL of the present DS set has to be noted first, unless you say --although"
        raise NoAnswer(f"{'; '.join(silent)}: {text}")
    note(notes, lines, zone_status, look)
