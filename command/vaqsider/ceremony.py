"""`ceremony`: a key whose private half isn't here signs for months ahead. It writes which DNSKEY
sets have to be signed, from when until when, with the bytes that each signature is of (RFC 4034,
section 3.1.8.1). It takes the signatures back, each of which has to be right; an act puts in the
one that is valid."""

from __future__ import annotations

import base64
import json
import os
import struct
from argparse import Namespace
from dataclasses import asdict, dataclass, fields
from pathlib import Path
from typing import Iterable, Iterator, cast

import dns.dnssec
import dns.exception
import dns.name
import dns.rdataclass
import dns.rdatatype
import dns.rrset
from dns.rdtypes.ANY.RRSIG import RRSIG

from keyset import Notes

from . import keyfiles, place, plan, status, zonefile
from .errors import USAGE, WARNING, Failure
from .zone_status import ZoneStatus
from .zonefile import KeyId, ZoneRecord, parsed

IN, DNSKEY = dns.rdataclass.IN, dns.rdatatype.DNSKEY
# From how long before their first moment signatures are valid, in seconds, and their file's suffix.
BEFORE, SUFFIX = 3600, ".signatures"


@dataclass(frozen=True)
class SignatureRequest:
    """A signature that is asked for: of which DNSKEY set, by which key, and its validity."""

    zone: str
    key: str
    tag: int
    algorithm: int
    ttl: int
    inception: int
    expiration: int
    dnskey: tuple[str, ...]

    def rrset(self) -> dns.rrset.RRset:
        records = [parsed("DNSKEY", data) for data in self.dnskey]
        return dns.rrset.from_rdata_list(dns.name.from_text(self.zone), self.ttl, records)

    def rrsig(self, signature: bytes = b"") -> RRSIG:
        """The record that has this signature."""
        name = dns.name.from_text(self.zone).canonicalize()
        return RRSIG(  # type: ignore[no-untyped-call]  # dnspython gives it no types
            IN, dns.rdatatype.RRSIG, DNSKEY, self.algorithm, len(name) - 1, self.ttl,
            self.expiration, self.inception, self.tag, name, signature)

    def signs(self) -> bytes:
        """What the signature is of: its record without it, and the records in canonical order."""
        rrset = self.rrset()
        # (A name gives bytes, unless it writes them to a file.)
        head = cast(bytes, rrset.name.canonicalize().to_wire()) + struct.pack(
            "!HHI", DNSKEY, IN, self.ttl)
        wires = sorted(record.to_digestable() for record in rrset)
        return self.rrsig().to_digestable() + b"".join(
            head + struct.pack("!H", len(wire)) + wire for wire in wires)

    def as_json(self) -> dict[str, object]:
        """What is written of it, with an empty place for the signature."""
        signs = base64.b64encode(self.signs()).decode()
        return {**asdict(self), "signs": signs, "signature": ""}


@dataclass(frozen=True)
class Period:
    """A DNSKEY set, by references, with its signers, from when until when it is published."""

    dnskey: frozenset[str]
    signers: frozenset[str]
    begin: int
    end: int


def periods(lines: list[str], zone_status: ZoneStatus, args: Namespace, now: int) -> list[Period]:
    """The sets of the time that is asked for: the one that is due, and those of planned rolls."""
    course = plan.Plan(lines, now, *plan.assumed(args.SCRIPT, args.ttls, args.delays, now))
    for line in args.first or ():
        course.call(line)
    for words in args.roll or ():
        roll, old, new = _roll(words)
        course.roll(roll, old, new)
    last = max(now + int(args.span), course.moment)
    steps = [(now, zone_status.published), *((it.moment, it.published) for it in course.steps)]
    ends = [*(moment for moment, _ in steps[1:]), last]
    by_sets: dict[tuple[frozenset[str], frozenset[str]], Period] = {}
    for (begin, published), end in zip(steps, ends):
        sets = frozenset(published.dnskey), frozenset(published.signers)
        by_sets[sets] = Period(*sets, by_sets[sets].begin if sets in by_sets else begin, end)
    return list(by_sets.values())


def _roll(words: str) -> list[str]:
    fields = words.split()
    if len(fields) != 3:
        raise Failure(f"--roll: say 'ROLL OLD NEW', not '{words}'", USAGE)
    return fields


def windows(one: Period, lifetime: int) -> Iterator[tuple[int, int]]:
    """The validities of signatures that follow one another: the next begins at half of the time of
    one. They go on for a lifetime after the planned end, for a step may come later."""
    half = lifetime // 2
    for begin in range(max(0, one.begin - BEFORE), one.end + half, half):
        yield begin, begin + lifetime


def asked(args: Namespace, now: int) -> list[SignatureRequest]:
    """Each signature that keys have to make which aren't here."""
    lines, zone_status = status.read(args.SCRIPT, now)
    of = periods(lines, zone_status, args, now)
    if args.lifetime < 2 * BEFORE:
        raise Failure(f"--lifetime: signatures have to be valid for {2 * BEFORE} seconds at least",
                      USAGE)
    files, origin = KeyFiles(args), zone_status.origin
    return [request for one in of for request in _of(one, files, origin, args)]


class KeyFiles:
    """The key files that references name."""

    def __init__(self, args: Namespace) -> None:
        self.folders = args.keys or [Path(args.SCRIPT).parent]

    def __getitem__(self, reference: str) -> keyfiles.KeyFile:
        name = reference.rpartition("/")[2].removesuffix(".key")
        paths = [Path(folder) / f"{name}.key" for folder in self.folders]
        found = next(filter(Path.is_file, paths), paths[0])
        return keyfiles.read(found)


def _of(one: Period, files: KeyFiles, origin: str, args: Namespace) -> Iterator[SignatureRequest]:
    of = {name: files[name] for name in sorted(one.dnskey | one.signers)}
    records = tuple(sorted(of[name].data for name in one.dnskey))
    ttl = args.dnskey_ttl
    ttl = max((it.ttl for it in of.values()), default=0) if ttl is None else ttl
    if not ttl:
        raise Failure("--dnskey-ttl: say the TTL of the DNSKEY set, for no key file has one", USAGE)
    for name in sorted(one.signers):
        file = of[name]
        if not file.private.is_file():
            for inception, expiration in windows(one, args.lifetime):
                yield SignatureRequest(origin, name, file.tag, file.algorithm, ttl, inception,
                                       expiration, records)


# Taking back


def path_of(script: str | Path) -> Path:
    return Path(script).with_suffix(SUFFIX)


def take(args: Namespace, now: int) -> list[ZoneRecord]:
    """Keeps the signatures of a file, if all of them are right. Gives those that are new."""
    Notes(args.SCRIPT)
    _, zone_status = status.read(args.SCRIPT, now)
    origin = zone_status.origin
    try:
        rows = [_taken(number, one, signature, origin, KeyFiles(args))
                for number, one, signature in _signed_in(args.take)]
    except (KeyError, TypeError, ValueError, AttributeError) as error:
        raise Failure(f"{args.take}: it isn't what a ceremony has written: {error!r}",
                      WARNING) from None
    kept = [row for row in signatures(args.SCRIPT) if now < _expires(row)]
    new = [row for row in dict.fromkeys(rows) if row not in kept and now < _expires(row)]
    _write(path_of(args.SCRIPT), [*kept, *new])
    return new


def _signed_in(path: str) -> Iterator[tuple[int, SignatureRequest, str]]:
    """The requests of a file that have a signature, each with its number and that."""
    file = json.loads(Path(path).read_text(encoding="utf-8"))
    for number, members in enumerate(file["signatures"], start=1):
        if members["signature"]:
            known = {field.name: members[field.name] for field in fields(SignatureRequest)}
            yield number, SignatureRequest(**known), members["signature"]


def _taken(number: int, one: SignatureRequest, signature: str, origin: str,
           files: KeyFiles) -> ZoneRecord:
    """The record of a signature, which is right by the key file that its key names."""
    file = files[one.key]
    rrsig = one.rrsig(base64.b64decode(signature, validate=True))
    name = dns.name.from_text(origin)
    keys = {name: dns.rrset.from_rdata(name, one.ttl, parsed("DNSKEY", file.data))}
    try:
        dns.dnssec.validate_rrsig(  # type: ignore[no-untyped-call]  # dnspython gives no types
            one.rrset(), rrsig, keys, now=one.inception)
    except dns.exception.DNSException as error:
        text = f"signature {number}, by {one.key}, isn't right: {error}"
        raise Failure(text, WARNING) from None
    return ZoneRecord(origin, one.ttl, "RRSIG", str(rrsig))


def _expires(row: ZoneRecord) -> int:
    return int(parsed("RRSIG", row.data).expiration)


def signatures(script: str | Path) -> list[ZoneRecord]:
    """The signatures of the DNSKEY set that ceremonies have made."""
    path = path_of(script)
    return list(zonefile.rows(path)) if path.is_file() else []


def _write(path: Path, rows: list[ZoneRecord]) -> None:
    """The file of signatures, whole or as it was."""
    draft = path.with_name(f".{path.name}.{os.getpid()}.draft")
    with open(draft, "x", encoding="ascii") as file:
        file.writelines(map(str, rows))
        file.flush()
        os.fsync(file.fileno())
    place.put(draft, path)


def valid(taken: Iterable[ZoneRecord], zone: str, dnskey: list[str], file: keyfiles.KeyFile,
          now: float) -> Iterator[ZoneRecord]:
    """The signatures of a DNSKEY set, of this data, by a key, that are valid at this moment."""
    name = dns.name.from_text(zone)
    for row in taken:
        due = dns.rrset.from_rdata_list(name, row.ttl, [parsed("DNSKEY", it) for it in dnskey])
        if fits(row, due, file, now):
            yield row


def fits(row: ZoneRecord, due: dns.rrset.RRset, file: keyfiles.KeyFile, now: float) -> bool:
    """Whether a signature is of this DNSKEY set, by this key, and valid now."""
    rrsig = parsed("RRSIG", row.data)
    if KeyId(rrsig.algorithm, rrsig.key_tag) != KeyId(file.algorithm, file.tag):
        return False
    keys = {due.name: dns.rrset.from_rdata(due.name, due.ttl, parsed("DNSKEY", file.data))}
    try:
        dns.dnssec.validate_rrsig(  # type: ignore[no-untyped-call]  # dnspython gives no types
            due, rrsig, keys, now=now)
        return True
    except dns.exception.DNSException:
        return False
