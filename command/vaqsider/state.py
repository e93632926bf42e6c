"""What all servers give now, beside what is due: also with no roll in progress. It says whether a
resolver may find no chain of trust now."""

from __future__ import annotations

from argparse import Namespace
from collections.abc import Iterable, Iterator, Sequence
from dataclasses import asdict, dataclass
from pathlib import Path

import keyset
from keyset import Action, Notes

from . import chains, comparing, looking, looks, parents, words
from .asking import Server, dns
from .comparing import DueSets
from .errors import BROKEN, DUE, OK, WARNING, Failure
from .looking import Lack, Look, Places
from .zone_status import ZoneStatus

KINDS = ("cds", "dnskey", "ds", "ns", "zone")
HEAD = ("SERVER", "DNSKEY", "DS", "SIGNED UNTIL", "SERIAL", "CDS")
RIGHT, LACKS, OUT, IN = "right", "lacks", "out", "in"


@dataclass(frozen=True)
class ServerRow:
    """What one server gives: a set is right or lacks something. What isn't asked of it is None."""

    server: str
    dnskey: str | None = None
    ds: str | None = None
    until: int | None = None
    serial: int | None = None
    cds: str | None = None

    def cells(self) -> tuple[object, ...]:
        until = None if self.until is None else words.moment(self.until)
        return self.server, self.dnskey, self.ds, until, self.serial, self.cds


@dataclass(frozen=True)
class State:
    """A look at all servers, with its rows, what they lack, and where there is no chain."""

    zone_status: ZoneStatus
    look: Look
    rows: list[ServerRow]
    lacking: list[Lack]
    broken: list[str]

    @property
    def status(self) -> int:
        return BROKEN if self.broken else DUE if self.lacking else OK

    def text(self) -> Iterator[str]:
        yield from words.table([HEAD, *(row.cells() for row in self.rows)])
        yield from self.texts()
        yield from self.broken
        if not self.status:
            yield "all servers have what is due"

    def texts(self) -> list[str]:
        """What is lacking, each once."""
        return list(dict.fromkeys(map(str, self.lacking)))

    def as_json(self) -> dict[str, object]:
        return {"rows": list(map(asdict, self.rows)), "lacking": list(map(asdict, self.lacking)),
                "broken": self.broken}

    def keep(self, script: str | Path, lines: list[str], notes: Notes) -> None:
        """Notes what it saw of the parent's TTLs, and keeps it beside the script. These are the
        notes as they were before."""
        if notes.lines:
            parents.note(notes, lines, self.zone_status, self.look)
        looks.keep(script, self.last_look(len(lines)))

    def last_look(self, lines: int) -> looks.LastLook:
        """What is kept of it, if the script has so many lines."""
        first = min(_signed(self.look), key=lambda it: it.end, default=None)
        until = None if first is None else first.end
        renew = None if first is None else first.end - (first.end - first.begin) // 4
        servers = len({it.server for it in self.lacking})
        moment, texts = int(self.look.now), self.texts()
        return looks.LastLook(moment, lines, servers, texts, self.broken, until, renew)


def of(zone_status: ZoneStatus, folders: Sequence[str | Path], args: Namespace, now: float,
       may_have_cds: bool = False) -> State:
    """The state of a zone's servers, by its status and the key files in these folders."""
    due = DueSets.of(zone_status, folders)
    kinds = [kind for kind in KINDS if kind != "ds" or due.zone.strip(".")]
    look = looking.look(due, kinds, Places.of(due.zone, args), now)
    may_have_cds = may_have_cds or zone_status.asks(Action.CREATE_CDS_RRSET)
    lacking = look.lacking([kind for kind in kinds if kind != "cds"])
    lacking += _of_cds(look, may_have_cds) + list(_late(look))
    rows = [_row(look, server, lacking) for server in _servers(look)]
    return State(zone_status, look, rows, sorted(set(lacking)), list(chains.broken(look)))


def agreed(
    lines: list[str], folders: Iterable[str | Path], args: Namespace, now: float
) -> State:
    """The state of a zone that is signed already, whose script begins with these lines. If its
    servers don't agree with them, or gave higher TTLs than the notes would begin with, that is a
    failure. Some signers always publish CDS: it may be in, if it is of these keys."""
    zone_status = ZoneStatus.of(keyset.status(lines))
    zone_state = of(zone_status, list(folders), args, now, may_have_cds=True)
    faults = [*zone_state.texts(), *zone_state.broken]
    for kind, ttl in zip(("ds", "dnskey", "zone"), args.before or ()):
        if zone_state.look.ttl(kind) > ttl:
            given = zone_state.look.ttl(kind)
            faults.append(f"--before says {ttl} for {kind}, and servers give a TTL of {given}")
    if faults:
        text = "so these keys don't come in, unless you say --although"
        raise Failure("\n".join([*faults, text]), WARNING)
    return zone_state


def _servers(look: Look) -> list[Server]:
    """Those of the zone, then those of the parent."""
    of_zone = {server for kind, _, server in look.answers if kind == "zone"}
    return [*sorted(of_zone), *sorted({server for _, _, server in look.answers} - of_zone)]


def _row(look: Look, server: Server, lacking: list[Lack]) -> ServerRow:
    asked = {kind for kind, _, of in look.answers if of == server}
    lacks = {it.kind for it in lacking if it.server in ("", str(server))}
    said = {kind: LACKS if kind in lacks else RIGHT for kind in asked}
    if "zone" not in asked:
        return ServerRow(str(server), ds=said["ds"])
    soa = look.answers["zone", "SOA", server]
    gives = [look.answers["cds", type_, server].records for type_ in ("CDS", "CDNSKEY")]
    cds = LACKS if "cds" in lacks else IN if any(gives) else OUT
    until = min((it.end for it in _signed(look, server)), default=None)
    serial = soa.records[0].serial if soa.records else None
    return ServerRow(str(server), said["dnskey"], said.get("ds"), until, serial, cds)


def _signed(look: Look, only: Server | None = None) -> Iterator[comparing.SignatureSpan]:
    """How the sets of servers are signed by the keys that have to."""
    sets = look.due.published
    signers = {"dnskey": sets.signers, "zone": sets.zone, "ns": sets.zone}
    for (kind, _, server), answer in look.answers.items():
        if kind in signers and only in (None, server):
            found = (comparing.signed(look.due.zone, answer, key, look.now)
                     for key in look.due.named(signers[kind]))
            yield from (it for it in found if not it.faults)


def _of_cds(look: Look, may_be_in: bool) -> list[Lack]:
    """CDS and CDNSKEY have to be out, or those of the DS set that is due."""
    lacks: list[Lack] = []
    for (kind, type_, server), answer in look.answers.items():
        if kind == "cds":
            compare = comparing.cds_lacks if may_be_in else comparing.lacks
            texts = compare(look.due, type_, answer, look.now)
            lacks += (Lack("cds", str(server), text) for text in texts)
    return lacks


def _late(look: Look) -> Iterator[Lack]:
    """The servers whose serial is below that of another one (RFC 1982)."""
    serials = {server: dns.serial.Serial(answer.records[0].serial)
               for (kind, _, server), answer in look.answers.items()
               if kind == "zone" and answer.records}
    for server, serial in serials.items():
        later = [other for other in serials.values() if other > serial]
        if later:
            text = f"serial {serial.value}, and another server has {later[0].value}"
            yield Lack("zone", str(server), text)
