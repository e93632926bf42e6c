"""Zone files: what a signed one has to have, and whether it has that.

Files are read here line by line, each a record in full, as the tools of BIND and ldns write them.
Only the sets at the top are read by dnspython: of a whole zone of 20,000 names it needs half a
minute."""

from __future__ import annotations

import re
import sys
from dataclasses import dataclass, field
from pathlib import Path
from typing import Any, Iterable, Iterator, NamedTuple

from .errors import BROKEN, UNAVAILABLE, Failure
from .signing import Nsec3, Tools, run

try:
    import dns.exception
    import dns.rdata
    import dns.rdataclass
    import dns.rdatatype
except ImportError:
    text = f"python3-dnspython is missing for {sys.executable}: install it to read zones"
    raise Failure(text, UNAVAILABLE) from None

# The data of a record. dnspython has a class for each type, whose members are those of that type.
Record = Any
FULL = re.compile(r"(\S+\.|\.)\s+(\d+)\s+IN\s+(\S+)\s*(.*)")
# What a signer makes, and what comes from the script's keys.
MADE = {"RRSIG", "NSEC", "NSEC3", "NSEC3PARAM"}
KEYS = ("DNSKEY", "CDS", "CDNSKEY")


class PartialRecord(Failure):
    """A line that isn't a record in full."""

    def __init__(self, text: str) -> None:
        super().__init__(text, BROKEN)


class ZoneRecord(NamedTuple):
    """A record."""

    owner: str
    ttl: int
    kind: str
    data: str

    def __str__(self) -> str:
        return f"{self.owner}\t{self.ttl}\tIN\t{self.kind}\t{self.data}\n"


class KeyId(NamedTuple):
    """A key as a signature names it."""

    algorithm: int
    tag: int


def rows(path: Path) -> Iterator[ZoneRecord]:
    """The records of a file that has each in full, on a line of its own."""
    with open(path, encoding="latin-1", newline="\n") as lines:
        for line in lines:
            if match := FULL.match(line):
                owner, ttl, kind, data = match.groups()
                yield ZoneRecord(owner, int(ttl), kind, data)
            elif line.strip() and not line.startswith(";"):
                raise PartialRecord(f"{path}: {line.strip()[:60]}")


def in_full(path: Path, origin: str, tools: Tools, folder: Path) -> Path:
    """A copy of a zone file in which each record is in full, written by the signer's tool."""
    given, copy = path, folder / f"{path.name[:200]}.full"
    text = path.read_bytes()
    if not tools.knows_origin:
        given = folder / f"{path.name[:200]}.given"
        given.write_bytes(b"$ORIGIN %s\n%s\n" % (origin.encode(), text))
    with open(copy, "xb") as file:
        run(tools.reads(origin, given), stdout=file)
    return copy


def parsed(kind: str, data: str) -> Record:
    """The data of a record, as dnspython has it, so that two ways to write it are equal."""
    try:
        return dns.rdata.from_text(dns.rdataclass.IN, dns.rdatatype.from_text(kind), data)
    except (dns.exception.DNSException, ValueError) as error:
        raise PartialRecord(f"{kind} {data[:60]}: {str(error).strip()}") from None


def covered(data: str) -> tuple[str, KeyId]:
    """Which type a signature covers, and by which key it is."""
    kind, algorithm, _, _, _, _, tag, _ = data.split(None, 7)
    return kind, KeyId(int(algorithm), int(tag))


@dataclass
class ZoneFile:
    """What a file has: the sets at its top, and which keys have signed each set."""

    origin: str
    path: Path
    top: dict[str, list[ZoneRecord]] = field(default_factory=dict)
    signed: dict[tuple[str, str], set[KeyId]] = field(default_factory=dict)
    opt_out: bool = False

    @classmethod
    def of(cls, origin: str, path: Path) -> ZoneFile:
        """Reads a file in which each record is in full."""
        zone = cls(origin, path)
        try:
            for row in rows(path):
                zone._take(row)
            if len(zone.top.get("SOA", ())) == 1:
                _ = zone.serial, zone.nsec3
                return zone
        except (ValueError, IndexError):
            raise PartialRecord(f"{path}: a record has not the form of its type") from None
        raise PartialRecord(f"{path}: it has no SOA record of {origin}, or more than one")

    def _take(self, row: ZoneRecord) -> None:
        if row.kind == "RRSIG":
            kind, by = covered(row.data)
            self.signed.setdefault((row.owner.lower(), kind), set()).add(by)
        elif row.kind == "NSEC3":
            self.opt_out |= row.data.split(None, 2)[1] == "1"
        if row.owner.lower() == self.origin.lower():
            self.top.setdefault(row.kind, []).append(row)

    @property
    def soa(self) -> ZoneRecord:
        return self.top["SOA"][0]

    @property
    def serial(self) -> int:
        return int(self.soa.data.split()[2])

    @property
    def nsec3(self) -> Nsec3 | None:
        """How the zone's NSEC3 records are made, if it has such."""
        found = self.top.get("NSEC3PARAM")
        if not found:
            return None
        algorithm, _, iterations, salt = found[0].data.split()
        return Nsec3(int(algorithm), int(self.opt_out), int(iterations), salt)

    def data(self, kind: str) -> set[Record]:
        """The data of a set at the top."""
        return {parsed(kind, row.data) for row in self.top.get(kind, ())}

    def signatures(self, kind: str) -> list[ZoneRecord]:
        """The signatures of a set at the top."""
        return [row for row in self.top.get("RRSIG", ()) if covered(row.data)[0] == kind]


@dataclass(frozen=True)
class SetSigners:
    """Which keys sign the DNSKEY set, CDS and CDNSKEY, and the rest of a zone."""

    dnskey: frozenset[KeyId]
    cds: frozenset[KeyId]
    zone: frozenset[KeyId]

    def of(self, kind: str) -> frozenset[KeyId]:
        """Those of the sets of a type."""
        return {"DNSKEY": self.dnskey, "CDS": self.cds, "CDNSKEY": self.cds}.get(kind, self.zone)


@dataclass(frozen=True)
class DueZone:
    """What the next version has to have: its serial, its sets of keys, and who signs which set."""

    origin: str
    serial: int
    sets: dict[str, list[ZoneRecord]]
    by: SetSigners

    def whole(self, records: Iterable[ZoneRecord]) -> Iterator[ZoneRecord]:
        """The unsigned zone with its next serial, and with the sets of keys."""
        for row in records:
            if row.kind == "SOA" and row.owner.lower() == self.origin.lower():
                mname, rname, _, *rest = row.data.split()
                row = row._replace(data=" ".join([mname, rname, str(self.serial), *rest]))
            if row.kind not in MADE:
                yield row
        for kind in KEYS:
            yield from self.sets[kind]

    def without_others(self, records: Iterable[ZoneRecord]) -> Iterator[ZoneRecord]:
        """The signed zone without the signatures that aren't due."""
        for row in records:
            if row.kind == "RRSIG":
                kind, by = covered(row.data)
                if by not in self.by.of(kind):
                    continue
            yield row

    def faults(self, zone: ZoneFile) -> Iterator[str]:
        """What a signed file has otherwise than it has to. (Whether the signatures are right, and
        whether none is lacking, the verifier says.)"""
        if zone.serial != self.serial:
            yield f"its serial is {zone.serial}, not {self.serial}"
        for kind in KEYS:
            if zone.data(kind) != {parsed(kind, row.data) for row in self.sets[kind]}:
                yield f"its {kind} set isn't that of the script's keys"
        top = self.origin.lower()
        for kind in ("SOA", *(kind for kind in KEYS if self.sets[kind])):
            if self.by.of(kind) and (top, kind) not in zone.signed:
                yield f"{top} {kind} isn't signed"
        for (owner, kind), found in zone.signed.items():
            if found != self.by.of(kind):
                yield f"{owner} {kind} is signed by {_tags(found)}, not {_tags(self.by.of(kind))}"

    def refuse(self, zone: ZoneFile) -> None:
        """Says the first faults of a signed file, if it has any."""
        found = [fault for _, fault in zip(range(3), self.faults(zone))]
        if found:
            raise Failure(f"the signed zone is wrong: {'; '.join(found)}", UNAVAILABLE)


def _tags(keys: Iterable[KeyId]) -> str:
    return ",".join(str(by.tag) for by in sorted(keys)) or "no key"


def write(path: Path, records: Iterable[ZoneRecord]) -> None:
    """Makes a file that wasn't there."""
    with open(path, "x", encoding="latin-1", newline="\n") as file:
        file.writelines(map(str, records))


def ttls(records: Iterable[ZoneRecord]) -> dict[str, int]:
    """The highest TTL of the DNSKEY set, and that of all others, which is also that of answers that
    there is no such set."""
    highest = {True: 0, False: 0}
    for row in records:
        is_dnskey = row.kind == "DNSKEY" or row.kind == "RRSIG" and row.data.startswith("DNSKEY ")
        highest[is_dnskey] = max(highest[is_dnskey], row.ttl)
    return {"dnskey": highest[True] or highest[False], "zone": highest[False]}
