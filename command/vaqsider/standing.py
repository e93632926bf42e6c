"""The signed zone that stands in its place: whether it is what is due, and when its signatures run
low. A signer that runs is asked what it has."""

from __future__ import annotations

import calendar
import time
from dataclasses import dataclass, field
from pathlib import Path
from typing import TYPE_CHECKING

from .arguments import file_name
from .policies import Policy
from .signers import Sets
from .zonefile import KeyId, PartialRecord, covered, parsed, rows

if TYPE_CHECKING:
    from dns.rdtypes.ANY.DNSKEY import DNSKEY

    from .zone_status import ZoneStatus


@dataclass
class Standing:
    """What the signed file has at its top. `until` is when its first signature expires, other than
    those of the DNSKEY set, which are in `by_key`."""

    keys: set[KeyId] = field(default_factory=set)
    signed: dict[str, set[KeyId]] = field(default_factory=dict)
    has_cds: bool = False
    until: int | None = None
    by_key: dict[KeyId, int] = field(default_factory=dict)

    @classmethod
    def of(cls, path: Path, zone: str) -> Standing | None:
        """What a file has, or None if there is none that can be read here."""
        standing, top = cls(), f"{zone.rstrip('.')}.".lower()
        try:
            for row in rows(path):
                if row.kind == "RRSIG":
                    standing._sign(row.data, row.owner.lower() == top)
                elif row.owner.lower() == top and row.kind == "DNSKEY":
                    key = parsed("DNSKEY", row.data)
                    standing.keys.add(KeyId(key.algorithm, _tag(key)))
                elif row.owner.lower() == top and row.kind in ("CDS", "CDNSKEY"):
                    standing.has_cds = True
        except (PartialRecord, OSError, ValueError, IndexError):
            return None
        return standing

    @classmethod
    def of_sets(cls, sets: Sets | None) -> Standing:
        """What a signer that runs has in its database. It renews signatures by itself."""
        sets = sets or Sets()
        keys, signers, zone = ({KeyId(key.algorithm, key.tag) for key in of}
                               for of in (sets.dnskey, sets.signers, sets.zone))
        return cls(keys, {"DNSKEY": signers, "SOA": zone}, bool(sets.cds))

    def _sign(self, data: str, is_top: bool) -> None:
        kind, by = covered(data)
        end = calendar.timegm(time.strptime(data.split(None, 5)[4], "%Y%m%d%H%M%S"))
        if is_top:
            self.signed.setdefault(kind, set()).add(by)
        if kind == "DNSKEY":
            self.by_key[by] = min(end, self.by_key.get(by, end))
        else:
            self.until = end if self.until is None else min(self.until, end)

    def expires(self, away: set[KeyId]) -> int | None:
        """When its first signature expires, without those of the DNSKEY set by keys that are away:
        nobody can renew these here."""
        ends = [end for by, end in self.by_key.items() if by not in away]
        return min([*ends, *([] if self.until is None else [self.until])], default=None)

    def is_due(self, zone_status: ZoneStatus) -> bool:
        """Whether its sets are those that a status asks for. CDS is another question."""
        of = {key.reference: KeyId(key.algorithm, key.tag) for key in zone_status.keys}
        sets = zone_status.published
        due = tuple({of[name] for name in names}
                    for names in (sets.dnskey, sets.signers, sets.zone))
        signers = self.signed.get("DNSKEY", set()), self.signed.get("SOA", set())
        return (self.keys, *signers) == due


def _tag(key: DNSKEY) -> int:
    import dns.dnssec

    return dns.dnssec.key_id(key)


@dataclass(frozen=True)
class ZonePaths:
    """Where the unsigned zone of a script is, and the signed one, as an act has them."""

    unsigned: Path
    signed: Path

    @classmethod
    def of(cls, script: str | Path, zone: str, policy: Policy) -> ZonePaths:
        unsigned = Path(policy.zone_file or Path(script).parent / f"{file_name(zone)}.zone")
        return cls(unsigned, Path(policy.out or f"{unsigned}.signed"))
