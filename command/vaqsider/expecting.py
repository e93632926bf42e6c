"""What a tick expects before it goes on: of the script, of its notes and of the clock, and before
a roll begins of the signer. If something is otherwise, the tick ends."""

from __future__ import annotations

from pathlib import Path
from typing import TYPE_CHECKING

from keyset import Notes
from keyset.lines import Line
from keyset.rolls import TIMED

from . import linting, plan, words
from .ending import REFUSED, Clock, EndOfTick
from .errors import BROKEN, DUE, WARNING
from .policies import Policy

if TYPE_CHECKING:
    from .zone_status import ZoneStatus


def expect_chain(zone_status: ZoneStatus) -> None:
    if zone_status.broken:
        raise EndOfTick(BROKEN, "the chain of trust is broken: nothing is done until it is mended")


def expect_notes(notes: Notes) -> None:
    if not notes.lines:
        text = "is missing: it begins with 'before TTL TTL TTL'"
        raise EndOfTick(WARNING, f"{notes.path} {text}")


def expect_clock(lines: list[str], notes: Notes, clock: Clock, policy: Policy) -> None:
    """No line lies ahead of the clock. Else it was set back, and no moment of now is right."""
    moments = [Line(line).moment or 0 for line in lines if line.partition(" ")[0] in TIMED]
    moments += [int(line.rpartition(" ")[2]) for line in notes.lines[1:]]
    last = max(moments, default=0)
    if last > int(clock()):
        is_allowed = last <= clock() + 2 * policy.clock
        text = f"its last moment, {words.moment(last)}, lies ahead of the clock"
        raise EndOfTick(DUE if is_allowed else WARNING, f"{text}: was that set back?")


def expect_able(start: str, lines: list[str], script: Path, zone: str, policy: Policy) -> None:
    """The signer can do all of the roll that this line starts. Else it isn't begun."""
    _, roll, old, new, moment = start.split(" ")
    spans = linting.Spans.of(script, int(moment))
    able = linting.planned(policy, script, zone)
    try:
        plan.Plan(lines, int(moment), spans.ttls, spans.delays, able).roll(roll, old, new)
    except plan.SignerLimit as limit:
        text = f"signer {policy.signer} can't do a {roll}: {limit.lacks}"
        raise EndOfTick(WARNING, text, event=REFUSED) from None
