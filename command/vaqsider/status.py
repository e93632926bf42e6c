"""One screen for a zone: where each key is, what is due, what comes next, and for whom it waits."""

from __future__ import annotations

from pathlib import Path
from typing import TYPE_CHECKING, Iterable, Iterator, Mapping

import keyset
from keyset import Damaged, Lines, Malformed, Roll, Torn
from keyset.errors import EARLY
from keyset.lines import FORMS

from . import resting, words
from .ending import MEANS
from .errors import WARNING
from .history import SAFE
from .zone_status import TICK, YOU, Who, ZoneStatus

if TYPE_CHECKING:
    from .resting import Rest

LOST = "a line before it may be lost; if it never was accepted, take it out"
BEFORE_ANEW = {YOU: "do this before you start anew", TICK: "a tick does this before all else"}
LABELS = {"ds": "DS", "dnskey": "DNSKEY", "signers": "signers", "zone": "zone"}


def whole(path: str | Path, file: Lines) -> list[str]:
    """The lines of a file, if the last one has its line feed. Only its operator knows whether that
    was torn, so no word goes on from it, or cuts it off."""
    if file.torn:
        raise Torn(path, len(file.lines) + 1)
    return file.lines


def lost(refused: Iterable[tuple[int, str]]) -> tuple[int, str] | None:
    """Of refused lines the first that can't be a wait that was too early, with its reason. Only
    accepted lines are kept, so a line before it may be lost."""
    found = (it for it in refused if not it[1].startswith(EARLY))
    return next(((line, f"was refused ({why}): {LOST}") for line, why in found), None)


def read(path: str | Path, now: float) -> tuple[list[str], ZoneStatus]:
    """The lines of a script and its status at this moment. Nothing is shown of a script that may
    have lost a line."""
    lines = whole(path, Lines(path))
    try:
        members, found = keyset.status(lines), lost(keyset.refused(lines))
    except Malformed as error:
        raise Damaged(path, error.line, f"malformed: {error.reason}") from None
    if found:
        raise Damaged(path, *found)
    return lines, ZoneStatus.of(members).at(now, goes_on(resting.of_ticks(path)))


def goes_on(last: Rest | None) -> Who:
    """Who makes the next call, by how the last tick ended: a tick, unless that needs a person."""
    return YOU if last is None or last.status >= WARNING else TICK


def comes_next(roll: Roll) -> str:
    """The next call of a roll, in a line's form, with the moment that it waits for."""
    fields = {"ROLL": roll.roll.value, "TTL": "TTL", "TIME": "now"}
    call = " ".join([roll.next, *(fields[name] for name in FORMS[roll.next].split())])
    if isinstance(roll.not_before, int):
        return f"{call}, from {words.moment(roll.not_before)} on"
    if roll.not_before is not None:
        return f"{call}, at no moment that a call can name"
    lacks_stamp = roll.next.startswith("wait")
    return f"{call}, once the key that it checks has its stamp" if lacks_stamp else call


def screen(
    zone_status: ZoneStatus, names: Mapping[str, str] | None = None, last: Rest | None = None
) -> Iterator[str]:
    """The lines of the screen. Keys may have short names too, and the last tick its end."""
    broken, published = zone_status.broken, zone_status.published
    yield f"{zone_status.zone}: {f'chain {broken}' if broken else SAFE}"
    for kind, keys in vars(published).items():
        yield f"  {LABELS[kind]:8} {words.listed(keys)}"
    if zone_status.keys:
        yield ""
        yield from (f"  {line}" for line in words.table(_keys(zone_status, names or {})))
    for roll in zone_status.rolls:
        waits_for = zone_status.waits_for[roll.roll]
        yield f"\n  {roll.roll.value}: {roll.phase}, waits for {waits_for}"
        yield from (f"    {text}" for text in words.asks(roll.due, published))
        yield f"    then: {comes_next(roll)}"
    for ended in zone_status.ended:
        yield f"\n  {ended.roll.value} was ended early: {BEFORE_ANEW[goes_on(last)]}"
        yield from (f"    {text}" for text in words.asks(ended.asked, published))
    if last is not None:
        when, how = words.moment(last.moment), MEANS[last.status]
        yield f"\n  the last tick, at {when}, {how}: {last.text}"


def _keys(zone_status: ZoneStatus, names: Mapping[str, str]) -> Iterator[tuple[object, ...]]:
    short = ("NAME",) if names else ()
    yield "KEY", "KIND", "TAG", "ALGORITHM", "STATE", "IN", "ROLL", "DELETE", *short
    for key in zone_status.keys:
        name, kind = key.reference, key.kind
        sets = [kind for kind, keys in vars(zone_status.published).items() if name in keys]
        rolls = [f"old in {roll.value}" for roll in key.old_in]
        rolls += [f"new in {roll.value}" for roll in key.new_in]
        states = dict.fromkeys(role.state for role in key.roles)
        yield (
            name, kind if kind == "public" else kind.upper(), key.tag, key.algorithm,
            "/".join(states), " ".join(sets) or None, ", ".join(rolls) or None,
            "yes" if key.may_be_deleted else None, *([names.get(name)] if names else ()),
        )
