"""Ticks of one zone or of many, side by side: what a tick reads before it begins, and what it keeps
at its end. A zone that fails doesn't hold up the others."""

from __future__ import annotations

import json
import math
import threading
import traceback
from collections.abc import Iterator
from concurrent.futures import ThreadPoolExecutor
from dataclasses import asdict, dataclass
from pathlib import Path
from typing import Iterable, TextIO

from keyset import Locked

from . import hooks, journal, policies, resting, words
from .ending import MEANS, PARENT_LACKS, RUN_LOW, STUCK, Clock, Deed, End, Log
from .errors import BROKEN, DUE, FAULTY, OK, WARNING, Failure, NoAnswer, failure_of
from .policies import Commands, Policy
from .resting import Rest
from .ticking import DEEDS, Tick

# How many zones are ticked at once, if nobody says it.
JOBS = 8
# The events that only their kind makes new, not their text.
KINDS = (STUCK, PARENT_LACKS, RUN_LOW)


def logger(form: str, out: TextIO) -> Log:
    """Prints a line for each deed as soon as it is done: for people, or as JSON."""
    lock = threading.Lock()

    def log(deed: Deed) -> None:
        text = json.dumps(asdict(deed)) if form == "json" else _line(deed)
        with lock:
            print(text, file=out, flush=True)

    return log


def _line(deed: Deed) -> str:
    return f"{words.moment(deed.moment)} {deed.zone}: {deed.deed}: {deed.text}"


def tick(script: str | Path, clock: Clock, log: Log, most: int = DEEDS,
         commands: Commands = Commands()) -> End:
    """A tick of a script. If another one runs now, that does what is due."""
    path = Path(script)
    try:
        kept = resting.read(path)
        if kept is not None and kept.holds(path, clock()):
            return End(OK, kept.text, kept.until)
        with journal.alone(path) as lines:
            policy, fault = _policy(path)
            zone_tick = Tick(path, policy.by(commands), clock, log, lines, most)
            ended = fault or _ended(zone_tick)
            before = kept if kept is not None and kept.status and not zone_tick.deeds else None
            since = int(clock()) if before is None else before.since
            end = fault or zone_tick.of_signatures(_in_time(zone_tick, ended, since))
            _keep(zone_tick, end, kept, since)
            return end
    except Locked as error:
        return End(OK if journal.place_of(path).name in str(error) else DUE, str(error))
    except Exception as error:
        return End(*fault_of(error))


def _policy(path: Path) -> tuple[Policy, End | None]:
    """The policy of a script. If it can't be read, that is how the tick ends."""
    try:
        return policies.read(path), None
    except Exception as error:
        return Policy(), End(*fault_of(error))


def _ended(zone_tick: Tick) -> End:
    """How a tick ends, also by an error. Somebody else may be writing a file of the zone."""
    try:
        return zone_tick.run()
    except Locked as error:
        return End(DUE, str(error))
    except Exception as error:
        return End(*fault_of(error))


def _in_time(zone_tick: Tick, end: End, since: int) -> End:
    """The end of a tick. If it has waited for too long, it needs a person."""
    patience = zone_tick.policy.patience
    if end.status != DUE or zone_tick.clock() - since <= patience:
        return end
    text = f"longer than {words.duration(patience)}: {end.text}"
    return End(WARNING, text, end.until, end.event or STUCK)


def fault_of(error: Exception) -> tuple[int, str]:
    """What an error means for the zone: it waits, needs a person, or something is broken."""
    failure = failure_of(error)
    if isinstance(failure, NoAnswer):
        return DUE, str(failure)
    if failure.status == FAULTY:
        traceback.print_exception(type(error), error, error.__traceback__)
    return BROKEN if failure.status in (BROKEN, FAULTY) else WARNING, str(failure)


def _keep(zone_tick: Tick, end: End, before: Rest | None, since: int) -> None:
    """Keeps how the tick ended, and hands that to the operator's command if it is new."""
    event = (end.event or MEANS[end.status]) if end.status > DUE else ""
    text = "" if event in KINDS else end.text
    is_new = before is None or (event, text) != (before.event, text and before.text)
    if event and is_new:
        _hand_event(zone_tick, end, event)
    until = None if end.until is None else math.ceil(end.until)
    files = resting.files(zone_tick.script, zone_tick.files())
    rest = Rest(int(zone_tick.clock()), until, end.status, end.text, files, event, since,
                zone_tick.signed_until())
    resting.keep(zone_tick.script, rest)


def _hand_event(zone_tick: Tick, end: End, event: str) -> None:
    """Hands an event to the operator's command. If that fails, the log has it."""
    if not zone_tick.policy.on_event:
        return
    try:
        hooks.run(zone_tick.policy.on_event, {"event": event, "zone": zone_tick.zone,
                                              "text": end.text, "moment": int(zone_tick.clock())})
    except Failure as failure:
        zone_tick.say("on-event failed", [str(failure)])


@dataclass(frozen=True)
class Ticks:
    """Ticks of zones, whose ends are logged unless nothing is needed."""

    clock: Clock
    log: Log
    commands: Commands = Commands()

    def tick(self, path: Path) -> End:
        return self.ended(path.stem, tick(path, self.clock, self.log, commands=self.commands))

    def ended(self, zone: str, end: End) -> End:
        if end.status != OK:
            self.log(Deed(int(self.clock()), zone, MEANS[end.status], end.text))
        return end


def run(paths: Iterable[Path], jobs: int, ticks: Ticks) -> dict[str, End]:
    """Ticks of all these scripts, so many at once. How each ended, by its script."""
    paths = list(paths)
    with ThreadPoolExecutor(max(1, min(jobs, len(paths)))) as pool:
        return dict(zip(map(str, paths), pool.map(ticks.tick, paths)))


def text(ends: dict[str, End]) -> Iterator[str]:
    """What is said of the zones that need nothing, if only one was asked for."""
    if len(ends) == 1:
        yield from (f"{path}: {end.text}" for path, end in ends.items() if end.status == OK)
