"""Watches the servers until all have what is due, and then makes the line of the report."""

from __future__ import annotations

import math
import time
from argparse import Namespace
from collections.abc import Callable, Iterable, Iterator
from dataclasses import asdict
from typing import TYPE_CHECKING

from keyset import Locked, Notes
from keyset.notes import Seen, to_report

from . import calling, chains, comparing, looking, parents, status, words
from .errors import BROKEN, DUE, OK, UNAVAILABLE, Failure
from .looking import Lack, Look, Places

if TYPE_CHECKING:
    from .ending import Clock
    from .zone_status import ZoneStatus

# What servers of the zone are asked for in any case.
OF_ZONE = ("dnskey", "ns", "zone")
CDS_OUT = ("the DS set counts once no server gives CDS: take CDS and CDNSKEY out by "
           "'vaqsider act --no-cds', then 'vaqsider watch --call'")


class Watcher:
    """Watches the servers for the rolls of one script that wait for a report or for their end, and
    for those that were ended early."""

    results: dict[str, calling.CallResult]
    notes: Notes
    lines: list[str]
    rolls: dict[str, str | None]
    kinds: dict[str, list[str]]

    def __init__(
        self, args: Namespace, clock: Clock, progress: Callable[[str], object]
    ) -> None:
        self.args, self.clock, self.progress, self.results = args, clock, progress, {}
        self.lacking: list[Lack] = []
        self.beside: list[Lack] = []
        self.broken: list[str] = []
        self.asked: dict[str, list[str]] = {}

    def run(self) -> None:
        """Asks until all servers have what is due, or the time is over. With --call a roll goes on
        as soon as it can, after CDS is out. Without --call the loop ends before that."""
        end = time.monotonic() + (vars(self.args)["for"] or 0)
        while True:
            locked = self.round()
            awaited = {it.kind for it in self.lacking if self.args.call or it.kind != "cds"}
            is_refused = any(result.status for result in self.results.values())
            if locked and time.monotonic() >= end:
                raise locked
            if not (awaited or locked) or is_refused or time.monotonic() >= end:
                break
            self.progress(f"{len(self.lacking)} answers are lacking")
            time.sleep(self.args.every)
        self.progress("")

    def round(self) -> Locked | None:
        """Looks, and with --call makes the calls that can be made. Gives an error if another
        program is writing the script or the notes: the next round does it anew."""
        try:
            self.look()
            for roll in filter(self.rolls.get, self.ready()) if self.args.call else ():
                self.call(roll)
        except Locked as error:
            return error
        return None

    def call(self, roll: str) -> None:
        """Makes the call that a roll can make now, if the script is as it was at the look."""
        line = self.line(roll)
        result = calling.call(self.args.SCRIPT, line, self.clock, known=self.lines)
        self.results[roll] = result
        if result.kept:
            self.lines = [*self.lines, line]

    def look(self) -> None:
        """Reads the script again, asks the servers, and notes which sets are everywhere."""
        self.notes = Notes(self.args.SCRIPT)
        self.lines, zone_status = status.read(self.args.SCRIPT, self.clock())
        asked = zone_status.asked()
        calls = {roll.roll.value: roll.next for roll in zone_status.rolls}
        self.rolls = {roll: calls.get(roll) for roll in asked if "wait" not in calls.get(roll, "")}
        self.kinds = {roll: words.kinds_of(asked[roll]) for roll in self.rolls}
        kinds = sorted({kind for of in self.kinds.values() for kind in of})
        if kinds:
            look = self.ask(zone_status, kinds)
            if self.notes.lines:
                parents.note(self.notes, self.lines, zone_status, look)
            self.judge(look, kinds)

    def ask(self, zone_status: ZoneStatus, kinds: list[str]) -> Look:
        """What all servers give of these kinds and of the others; if the DS set is awaited, also
        whether CDS is out."""
        due = comparing.DueSets.of(zone_status, comparing.folders_of(self.args))
        places = Places.of(due.zone, self.args)
        also = ["cds"] if "ds" in kinds else ["ds"] if places.parent else []
        asked = dict.fromkeys([*kinds, *also, *OF_ZONE])
        return looking.look(due, asked, places, self.clock())

    def judge(self, look: Look, kinds: list[str]) -> None:
        """Says what is lacking, and what is wrong in sets that nothing waits for, and notes which
        sets are everywhere. A DS set counts only if no server of the zone gives CDS any more: until
        then a parent that reads it may change that set."""
        self.lacking = look.lacking(kinds) + look.cds_left()
        self.broken = list(chains.broken(look))
        self.beside = look.wrong({*OF_ZONE, "ds"} - set(kinds))
        there = {kind: look.ttl(kind) for kind in kinds if not self.lacks([kind])}
        if there and self.notes.lines:
            now = math.ceil(self.clock())
            calling.reach(now, self.clock)
            self.notes.everywhere(there, now)
        self.asked = {"servers": look.servers({*kinds, "cds"} - {"ds"}),
                      "parents": look.servers({"ds"} & set(kinds))}

    def lacks(self, kinds: Iterable[str]) -> set[str]:
        """What servers lack of these kinds; CDS has to be out after a DS set."""
        of = {*kinds, *(["cds"] if "ds" in kinds else [])}
        return {it.kind for it in self.lacking} & of

    def ready(self) -> list[str]:
        return [roll for roll in self.rolls if not self.lacks(self.kinds[roll])]

    def line(self, roll: str) -> str:
        """The line of the call that a roll can make now, once the clock has reached its moment."""
        word, now = self.rolls[roll], math.ceil(self.clock())
        if word == "done":
            return f"done {roll}"
        notes, ttl = Notes(self.args.SCRIPT), self.args.ttl
        due = notes.due(self.lines, roll, now) if ttl is None else None
        if due is not None:
            held = {kind: max(ttls) for kind, ttls in Seen(notes.lines, now).ttls.items()}
            ttl = to_report(due, self.kinds[roll], roll, held)
        if ttl is None and self.args.call:
            raise Failure("the notes don't say which TTL is due: give it by --ttl", UNAVAILABLE)
        calling.reach(now, self.clock)
        return f"{word} {roll} {'TTL' if ttl is None else ttl} {now}"

    def status(self) -> int:
        seen = BROKEN if self.broken else DUE if self.lacking or self.beside else OK
        return max([seen, *(result.status for result in self.results.values())])

    def text(self) -> Iterator[str]:
        """For people: which server lacks what, and what comes next in each roll."""
        yield from dict.fromkeys(map(str, sorted(self.lacking + self.beside)))
        yield from self.broken
        if self.asked and not self.lacking:
            yield from (f"all have it: {', '.join(of)}" for of in self.asked.values() if of)
        yield from (line for result in self.results.values() for line in result.text())
        for roll in (roll for roll in self.rolls if roll not in self.results):
            if lacking := self.lacks(self.kinds[roll]):
                yield f"{roll}: {CDS_OUT if lacking == {'cds'} else 'not yet'}"
            elif self.rolls[roll] is None:
                yield f"{roll}: its early end is done, and a roll may start"
            else:
                yield f"next: {self.line(roll)}"
        if not (self.rolls or self.results):
            yield "nothing is to be watched: --state shows what servers give"

    def as_json(self) -> dict[str, object]:
        ready = [roll for roll in filter(self.rolls.get, self.ready()) if roll not in self.results]
        return {
            "lacking": list(map(asdict, self.lacking)),
            "beside": list(map(asdict, self.beside)),
            "broken": self.broken,
            "asked": self.asked,
            "next": [self.line(roll) for roll in ready],
            "made": [result.as_json() for result in self.results.values()],
        }
