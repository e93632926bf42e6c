"""Many zones at once: who waits for whom, as a table or for Prometheus."""

from __future__ import annotations

from dataclasses import dataclass, replace
from pathlib import Path
from typing import Callable, Iterable, Iterator

from . import check, looks, resting, status, words
from .errors import BROKEN, OK, UNAVAILABLE, WARNING, Failure, failure_of
from .zone_status import CACHES, WAITING, YOU, ZoneStatus

METRICS = {
    "chain_safe": "1 if the chain of trust held all the time, else 0",
    "next_seconds": "seconds until the next wait is accepted",
    "waits_for": "1 for whom the zone waits",
    "lines": "lines of the script",
    "signatures_seconds": "seconds until the first signature expires, by the last look or tick",
    "servers_lacking": "servers that lacked something at the last look",
    "look_age_seconds": "seconds since the last look",
    "findings": "what check finds wrong or due",
    "tick_status": "how the last tick ended: 0 rests, 1 waits, 2 needs a person, 3 broken",
    "tick_age_seconds": "seconds since the last tick that had something to do",
    "tick_waits_seconds": "seconds since it waits or needs a person",
    "tick_next_seconds": "seconds until a tick may have something to do",
}


@dataclass(frozen=True)
class ZoneRow:
    """What a zone asks for, or its fault. What isn't known of it is None."""

    script: str
    zone: str
    fault: str | None = None
    next: int | None = None
    servers: str | None = None
    signed: int | None = None
    tick: str | None = None
    chain_safe: bool = False
    next_seconds: int | None = None
    waits_for: str | None = None
    lines: int | None = None
    signatures_seconds: int | None = None
    servers_lacking: int | None = None
    look_age_seconds: int | None = None
    findings: int | None = None
    tick_status: int | None = None
    tick_age_seconds: int | None = None
    tick_waits_seconds: int | None = None
    tick_next_seconds: int | None = None


def zones(folder: str | Path, now: float,
          progress: Callable[[int, int], None] = lambda done, of: None,
          counts: bool = False) -> Iterator[ZoneRow]:
    """The zones of a folder, by the names of their files: what each asks for, or its fault. What
    `check` finds is counted if that is asked for: it takes longer than all else."""
    paths = sorted(Path(folder).glob("*.script"))
    if not paths:
        raise Failure(f"{folder}: no file ends in .script", UNAVAILABLE)
    for number, path in enumerate(paths):
        progress(number, len(paths))
        row = _of_tick(ZoneRow(str(path), path.stem), now)
        try:
            if not path.is_file():
                raise Failure(f"{path}: it is no file", BROKEN)
            if counts:
                findings = sum(one.level > OK for one in check.findings(path, now))
                row = replace(row, findings=findings)
            lines, zone_status = status.read(path, now)
            found = _of_status(replace(row, lines=len(lines)), zone_status, now)
            row = _of_look(found, now)
        except Exception as error:
            fault = str(failure_of(error)).removeprefix(f"{path}: ")
            row = replace(row, fault=fault)
        yield row


def _of_status(row: ZoneRow, zone_status: ZoneStatus, now: float) -> ZoneRow:
    """The zone's name, its verdict, whom it waits for, and until when, by the last tick."""
    last, waits_for = resting.of_ticks(row.script), zone_status.waits_for
    ends = [it.not_before for it in zone_status.rolls if waits_for[it.roll] == CACHES]
    moment = min((end for end in ends if end and isinstance(end, int)), default=None)
    waiting = {*waits_for.values(), *(status.goes_on(last) for _ in zone_status.ended)}
    waiting |= {YOU} if last is not None and last.status >= WARNING else set()
    who = next((who for who in WAITING if who in waiting), "nobody")
    return replace(row, zone=zone_status.zone, chain_safe=not zone_status.broken, waits_for=who,
                   next=moment, next_seconds=_from(moment, now))


def _of_look(row: ZoneRow, now: float) -> ZoneRow:
    """What the last look at the zone's servers found."""
    kept = looks.read(row.script)
    if kept is None:
        return row
    lack = f"{kept.servers} lack" if kept.servers else "right"
    return replace(row, servers="no chain" if kept.broken else lack, signed=kept.until,
                   signatures_seconds=_from(kept.until, now), servers_lacking=kept.servers,
                   look_age_seconds=kept.age(now))


def _of_tick(row: ZoneRow, now: float) -> ZoneRow:
    """How the last tick ended that had something to do."""
    kept = resting.read(row.script)
    if kept is None:
        return row
    return replace(row, tick=kept.text, tick_status=kept.status,
                   tick_age_seconds=int(now) - kept.moment,
                   tick_waits_seconds=int(now) - kept.since if kept.status else None,
                   tick_next_seconds=_from(kept.until, now), signed=kept.signed,
                   signatures_seconds=_from(kept.signed, now))


def _from(moment: int | None, now: float) -> int | None:
    """The seconds from now to a moment, if there is one."""
    return moment and moment - int(now)


def table(zone_rows: Iterable[ZoneRow]) -> Iterator[str]:
    """For people: a row for each zone."""
    rows: list[tuple[object, ...]]
    rows = [("ZONE", "CHAIN", "WAITS FOR", "NEXT", "LINES", "SERVERS", "SIGNED UNTIL")]
    for row in zone_rows:
        chain = "safe" if row.chain_safe else (row.fault or "broken").partition(". ")[0]
        next_, signed = (it and words.moment(it) for it in (row.next, row.signed))
        rows.append((row.zone, chain, row.waits_for, next_, row.lines, row.servers, signed))
    return words.table(rows)


def prometheus(zone_rows: Iterable[ZoneRow]) -> Iterator[str]:
    """The text format that Prometheus reads."""
    for name, says in METRICS.items():
        yield from (f"# HELP vaqsider_{name} {says}", f"# TYPE vaqsider_{name} gauge")
        for row in (row for row in zone_rows if getattr(row, name) is not None):
            who = [("who", row.waits_for or "")] if name == "waits_for" else []
            labels = [("zone", row.zone), ("script", row.script), *who]
            quoted = ",".join(f'{label}="{_quoted(text)}"' for label, text in labels)
            yield f"vaqsider_{name}{{{quoted}}} {1 if who else int(getattr(row, name))}"


def _quoted(text: str) -> str:
    """A text as the value of a label. A byte that isn't UTF-8 has no form there."""
    text = text.encode("utf-8", "surrogateescape").decode("utf-8", "replace")
    return text.replace("\\", "\\\\").replace('"', '\\"').replace("\n", "\\n")
