"""A check of tests/command/rolling.py: a person rolls a KSK by `call`, `act` and `watch`, and
parents that read CDS change the DS set late, or go back while a server still gives CDS."""

from __future__ import annotations

import json
from collections.abc import Iterator
from dataclasses import dataclass, field
from pathlib import Path

import dns.rdatatype

from tests.command.attended import DAY, passing
from tests.command.rolling_folder import lines, living
from tests.command.rolling_world import PARENT_TTL, ZONE, BrokenChain, World
from tests.command.terminal import folder, typed

SCRIPT, ROLL = f"{ZONE}.script", "ksk-roll"
PARENTS = ["--parent-server", "p1", "--parent-server", "p2"]
SERVERS = ["--server", "ns1", "--server", "ns2", *PARENTS]
# A person types something so often, in seconds, and for at most so many times.
EVERY, MOST = 20, 200
COUNTS = "ksk-roll: the DS set counts once no server gives CDS: "


@dataclass
class LateWorld(World):
    """A parent that takes CDS of any server after it has seen it for so many seconds, and goes back
    to the DS set from before it for a while. Once no server gives CDS nothing changes."""

    takes_after: int = 0
    is_back: range = range(0)
    since: int | None = None
    before: frozenset = field(default_factory=frozenset)
    turns: bool = False

    def exchange(self, query, address: str, port: int):
        """The response of a server. If the parent turns, CDS leaves as a server is asked for it."""
        if self.turns and query.question[0].rdtype in (dns.rdatatype.CDS, dns.rdatatype.CDNSKEY):
            self.turns = False
            self.leave()
        return super().exchange(query, address, port)

    def leave(self) -> None:
        """CDS leaves all servers, and the parent has gone back just before that."""
        self.ds = self.before
        old = {"DS": [(PARENT_TTL, it) for it in sorted(self.before)]}
        self.parent.given = dict.fromkeys(self.parent.given, old)
        self.zone.given = {
            name: {kind: of for kind, of in sets.items() if kind not in ("CDS", "CDNSKEY")}
            for name, sets in self.zone.given.items()
        }

    def gives_cds(self) -> bool:
        """Whether a server of the zone gives CDS or CDNSKEY, also one that doesn't answer us."""
        return any({"CDS", "CDNSKEY"} & sets.keys() for sets in self.zone.given.values())

    def _read_cds(self) -> None:
        given = [sets["CDS"] for sets in self.zone.given.values() if "CDS" in sets]
        if not given:
            self.since = None
            return
        if self.since is None:
            self.since, self.before = self.now, self.ds
        seen_for = self.now - self.since
        wanted = self.before if seen_for in self.is_back else frozenset(it for _, it in given[0])
        if seen_for >= self.takes_after and wanted != self.ds:
            self.give_ds(wanted)


@dataclass(frozen=True)
class ParentRow:
    """What the parent does with CDS; and after how many seconds the person takes that out, and the
    second server has it out, which may not answer until then."""

    name: str
    takes_after: int = 0
    is_back: range = range(0)
    person: int = 0
    server: int = 40
    is_silent: bool = False


ROWS = (
    ParentRow("it keeps the set"),
    ParentRow("it takes CDS late", takes_after=500),
    ParentRow("it goes back while CDS is in", is_back=range(200, 330), person=400),
    ParentRow("it goes back while one server gives CDS", is_back=range(200, 330), server=400),
    ParentRow("it goes back, by a server that is silent", is_back=range(200, 330), server=400,
              is_silent=True),
)


def by_hand() -> Iterator[str]:
    """A DS set is noted only once no server gives CDS, and no cache is ever without a chain."""
    for row in ROWS:
        try:
            yield from (f"{row.name}: {fault}" for fault in row_faults(row))
        except BrokenChain as broken:
            yield f"{row.name}: {broken}"


def row_faults(row: ParentRow) -> Iterator[str]:
    world = LateWorld()
    with folder(), living(world, ""):
        list(passing(world, 3600))
        begin(world)
        world.takes_after, world.is_back = row.takes_after, row.is_back
        said = []
        for _ in range(MOST):
            if lines()[-1] == f"done {ROLL}":
                break
            before, has_cds = of_ds(), world.gives_cds()
            said.append(typed_next(world, row))
            if has_cds and of_ds() != before:
                yield f"at {world.now} with CDS it notes {of_ds()}: {said[-1]}"
            world.passes(EVERY)
        if lines()[-1] != f"done {ROLL}" or not any(COUNTS in it for it in said):
            yield f"it comes to {lines()[-1]}: {said}"


def of_ds() -> list[str]:
    """The notes that all servers of the parent have the DS set."""
    noted = Path(f"{ZONE}.notes").read_text().splitlines()
    return [it for it in noted if it.startswith("everywhere ds ")]


def begin(world: World) -> None:
    """Starts a roll to a new KSK."""
    (old,) = (it.split(" ")[1] for it in lines() if it.startswith("add-ksk "))
    world.runs(["keygen", f"{ZONE}.", "ksk", "13"], within=Path())
    known = {it.split(" ")[1] for it in lines() if it.startswith("add-")}
    (new,) = {path.name for path in Path().glob("K*.key")} - known
    typed(["call", SCRIPT, f"add {new}"], world.now)
    typed(["call", SCRIPT, f"start {ROLL} {old} {new} now"], world.now)
    act(world)


def act(world: World, *options: str) -> str:
    said, _ = typed(["act", SCRIPT, *PARENTS, *options], world.now)
    world.loads()
    world.caches()
    return said


def typed_next(world: LateWorld, row: ParentRow) -> str:
    """What a person types now, by what `status` and `watch` say: what that prints."""
    status_now, _ = typed(["status", SCRIPT, "--json"], world.now)
    (roll,) = json.loads(status_now)[0]["rolls"]
    if roll["next"].startswith("wait"):
        said, status = typed(["call", SCRIPT, f"{roll['next']} {ROLL} now"], world.now)
        return said if status else said + act(world)
    said, _ = typed(["watch", SCRIPT, *SERVERS, "--call"], world.now)
    is_in = world.since is not None and "CDS" in world.zone.given["ns1"]
    if COUNTS in said and is_in and world.now >= world.since + row.person:
        world.zone.delays["ns2"] = row.server
        if row.is_silent:
            world.zone.is_off.add("ns2")
        said += act(world, "--no-cds")
    if not world.gives_cds():
        world.zone.is_off.clear()
    return said


def turned() -> Iterator[str]:
    """A parent that goes back as CDS leaves hasn't the DS set, though it gave that before."""
    world, row = LateWorld(), ParentRow("it turns", person=DAY)
    with folder(), living(world, ""):
        list(passing(world, 3600))
        begin(world)
        while COUNTS not in typed_next(world, row):
            world.passes(EVERY)
        before, world.turns = of_ds(), True
        said, _ = typed(["watch", SCRIPT, *SERVERS], world.now)
        if world.turns or of_ds() != before:
            yield f"it notes {of_ds()}: {said}"


CHECKS = (by_hand, turned)
