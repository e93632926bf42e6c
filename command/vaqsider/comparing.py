"""Compares whole records: what servers give, with the key files of the keys that are due."""

from __future__ import annotations

from argparse import Namespace
from dataclasses import dataclass
from pathlib import Path
from typing import TYPE_CHECKING, Callable, Iterable, Iterator, Sequence, cast

from . import keyfiles, words
from .asking import Answer, Record, dns
from .errors import Failure

if TYPE_CHECKING:
    from dns.dnssectypes import DSDigest

    from keyset import Published

    from .zone_status import ZoneStatus

# The type that has the signatures of each kind, and what else is asked for: CDS has to be out.
TYPES = {
    "dnskey": ["DNSKEY"], "zone": ["SOA"], "ns": ["NS"], "ds": ["DS"], "cds": ["CDS", "CDNSKEY"],
}
# The types of digests that validators know: SHA-1, SHA-256, SHA-384.
DIGESTS = (1, 2, 4)
# What CDS and CDNSKEY say if the DS set has to go (RFC 8078).
DELETION = ("0 0 0 00", "0 3 0 AA==")


@dataclass(frozen=True)
class DueKey:
    """A key of the script with its DNSKEY record, or None if it has no file here: it is of another
    signer."""

    reference: str
    tag: int
    algorithm: int
    record: Record | None = None

    def is_of(self, record: Record) -> bool:
        """Whether a DNSKEY record is this key, as far as is known of it."""
        if self.record is None:
            return (dns.dnssec.key_id(record), record.algorithm) == (self.tag, self.algorithm)
        return bool(record == self.record)

    def ds(self, digest_type: int, zone: str) -> Record | None:
        """Its DS record with a digest of this type, or None if that isn't known."""
        return ds_of(self.record, digest_type, zone) if self.record else None


def dnskey_of(file: keyfiles.KeyFile) -> Record:
    """The DNSKEY record of a key file."""
    return dns.rdata.from_text("IN", "DNSKEY", file.data)


def ds_of(record: Record, digest_type: int, zone: str) -> Record | None:
    """The DS record of a DNSKEY record, or None if digests of this type aren't known."""
    try:
        # (It takes a number too, and refuses one that it doesn't know.)
        return dns.dnssec.make_ds(dns.name.from_text(zone), record,
                                  cast("DSDigest", digest_type), validating=True)
    except (dns.dnssec.UnsupportedAlgorithm, dns.dnssec.DeniedByPolicy):
        return None


@dataclass(frozen=True)
class DueSets:
    """What has to be published: the keys of each set. `faults` are key files that are missing."""

    zone: str
    published: Published
    keys: dict[str, DueKey]
    known: frozenset[tuple[int, int]]
    is_shared: bool
    faults: tuple[str, ...]

    @classmethod
    def of(cls, zone_status: ZoneStatus, folders: Sequence[str | Path]) -> DueSets:
        """What a status says, with the key files in these folders."""
        keys: dict[str, DueKey]
        faults: list[str]
        keys, faults = {}, []
        for key in zone_status.keys_in_sets():
            record = None
            try:
                record = dnskey_of(keyfiles.find(key, folders))
            except Failure as failure:
                if key.kind != "public":
                    faults.append(str(failure))
            keys[key.reference] = DueKey(key.reference, key.tag, key.algorithm, record)
        known = frozenset((key.tag, key.algorithm) for key in zone_status.keys)
        is_shared = any(key.kind == "public" for key in zone_status.keys)
        return cls(zone_status.zone, zone_status.published, keys, known, is_shared, tuple(faults))

    def named(self, references: Iterable[str]) -> list[DueKey]:
        """The keys of these references."""
        return [self.keys[name] for name in references]


def folders_of(args: Namespace) -> list[str | Path]:
    """Where the key files are: as the command line says, or beside the script."""
    return args.keys or [Path(args.SCRIPT).parent]


def lacks(due: DueSets, type_: str, answer: Answer, now: float) -> list[str]:
    """What an answer lacks, in words."""
    if answer.fault:
        return [answer.fault]
    return list(COMPARED[type_](due, type_, answer, now))


def _of_cds(due: DueSets, type_: str, answer: Answer, now: float) -> Iterator[str]:
    if answer.records:
        yield f"gives {type_} still"


def cds_lacks(due: DueSets, type_: str, answer: Answer, now: float) -> list[str]:
    """What is wrong with CDS or CDNSKEY records while they may be in. Those of another signer
    aren't known."""
    keys = [key.record for key in due.named(due.published.ds) if key.record]
    right = [it.to_text() for it in keys]
    if type_ == "CDS":
        made = (ds_of(it, digest, due.zone) for it in keys for digest in DIGESTS)
        right = [it.to_text() for it in made if it is not None]
    given = () if due.is_shared else answer.records
    wrong = [it for it in given if it.to_text() not in (right or DELETION)]
    return [answer.fault] if answer.fault else [f"{type_} {it}, which isn't due" for it in wrong]


def _of_dnskey(due: DueSets, type_: str, answer: Answer, now: float) -> Iterator[str]:
    wanted, given = due.named(due.published.dnskey), answer.records
    yield from _of_tags("DNSKEY", map(dns.dnssec.key_id, given), (key.tag for key in wanted))
    if sorted(map(dns.dnssec.key_id, given)) == sorted(key.tag for key in wanted):
        for key in wanted:
            if not any(map(key.is_of, given)):
                yield f"DNSKEY {key.tag} isn't that of {key.reference}"
    for key in due.named(due.published.signers):
        yield from signed(due.zone, answer, key, now).faults


def _of_zone(due: DueSets, type_: str, answer: Answer, now: float) -> Iterator[str]:
    wanted = due.named(due.published.zone)
    by = {(it.key_tag, it.algorithm) for it in answer.signatures}
    if by != {(key.tag, key.algorithm) for key in wanted}:
        tags = {tag for tag, _ in by}
        what = "" if type_ == "SOA" else f"{type_} "
        yield f"{what}signed by {_listed(tags)}, not {_listed(key.tag for key in wanted)}"
    else:
        yield from (fault for key in wanted for fault in signed(due.zone, answer, key, now).faults)
    if not answer.records:
        yield f"no {type_} record"


def _of_ds(due: DueSets, type_: str, answer: Answer, now: float) -> Iterator[str]:
    wanted, given = due.named(due.published.ds), list(answer.records)
    if due.is_shared:
        # The other signer's keys with a DS aren't in the script.
        given = [it for it in given if (it.key_tag, it.algorithm) in due.known
                 or it.key_tag in {key.tag for key in wanted}]
    yield from _of_tags("DS", {it.key_tag for it in given}, (key.tag for key in wanted))
    for record in given:
        for key in (key for key in wanted if key.tag == record.key_tag):
            right = key.ds(record.digest_type, due.zone)
            if key.record and record != right:
                yield f"DS {_short(record)} isn't that of {key.reference}: {_why(record, right)}"


def _short(record: Record) -> str:
    return f"{record.key_tag} {record.algorithm} {record.digest_type}"


def _why(record: Record, right: Record | None) -> str:
    if right is None:
        return "its digest type isn't known"
    is_algorithm = record.algorithm != right.algorithm
    return f"its algorithm isn't {right.algorithm}" if is_algorithm else "another digest"


def _of_tags(what: str, given: Iterable[int], wanted: Iterable[int]) -> Iterator[str]:
    given, wanted = sorted(given), sorted(wanted)
    if given != wanted:
        yield f"{what} {_listed(given)}, not {_listed(wanted)}"


def _listed(tags: Iterable[int]) -> str:
    return ",".join(map(str, sorted(tags))) or "none"


COMPARED: dict[str, Callable[[DueSets, str, Answer, float], Iterator[str]]] = {
    "DNSKEY": _of_dnskey, "SOA": _of_zone, "NS": _of_zone, "DS": _of_ds,
    "CDS": _of_cds, "CDNSKEY": _of_cds,
}


@dataclass(frozen=True)
class SignatureSpan:
    """How a set is signed by a key: from when on and until when, or what is wrong."""

    begin: int = 0
    end: int = 0
    faults: tuple[str, ...] = ()


def signed(zone: str, answer: Answer, key: DueKey, now: float) -> SignatureSpan:
    """How an answer's set is signed by a key: by the signature that lasts longest."""
    of = [it for it in answer.signatures if (it.key_tag, it.algorithm) == (key.tag, key.algorithm)]
    faults = [f"no signature by {key.tag}"]
    for signature in sorted(of, key=lambda it: int(it.expiration), reverse=True):
        fault = _fault(zone, answer, signature, key, now)
        if not fault:
            return SignatureSpan(signature.inception, signature.expiration)
        faults.append(fault)
    return SignatureSpan(faults=tuple(faults[-1:]))


def _fault(zone: str, answer: Answer, signature: Record, key: DueKey, now: float) -> str | None:
    """Why a signature isn't valid now, in words."""
    what = f"the signature of {signature.type_covered.name} by {key.tag}"
    if signature.expiration < now:
        return f"{what} has expired at {words.moment(signature.expiration)}"
    if signature.inception > now:
        return f"{what} isn't valid before {words.moment(signature.inception)}"
    if key.record is None:
        return f"{what} can't be checked: there is no key file"
    return None if fits(zone, answer.records, signature, key.record, now) else f"{what} is false"


def fits(
    zone: str, records: Sequence[Record], signature: Record, record: Record, now: float
) -> bool:
    """Whether a signature is one of these records by this DNSKEY record, and valid now."""
    name = dns.name.from_text(zone)
    keys = {name: dns.rdataset.from_rdata_list(0, [record])}
    try:
        rrset = dns.rrset.from_rdata_list(name, 0, records)
        # (dnspython gives it no types.)
        dns.dnssec.validate_rrsig(  # type: ignore[no-untyped-call]
            rrset, signature, keys, now=now)
    except (ValueError, dns.exception.DNSException):
        return False
    return True
