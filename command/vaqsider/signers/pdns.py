"""PowerDNS signs while it answers, by keys in its database. Each is published or not, and active or
not: `pdnsutil` says so, and so does its API (pdns_api.py). A key of an algorithm with the SEP flag
signs the DNSKEY set, and another the zone; if active keys of an algorithm are of one kind only,
each signs all.

CDS and CDNSKEY are records of the database, which PowerDNS gives if it has `direct-dnskey=yes`. It
has no other way to give them for just the keys that are due."""

from __future__ import annotations

import re
from dataclasses import dataclass
from pathlib import Path
from typing import Iterable, Iterator

import dns.dnssec
import dns.name

from ..errors import UNAVAILABLE, Failure
from ..signing import Nsec3
from ..zonefile import parsed
from . import DELETION, Key, Sets, by_flags, lacks_by_flags
from .daemon import SignerStep, is_here, said

# A key as `pdnsutil show-zone` has it, and the record of the line after it.
ID = re.compile(r"ID = (?P<id>\d+) \((KSK|ZSK|CSK)\), flags = (?P<flags>\d+), tag = \d+, "
                r"algo = (?P<algorithm>\d+), bits = \d+\s+(?P<active>Active|Inactive)\s+"
                r"(?P<published>Published|Unpublished)\s+\(.*\)\s*")
RECORD = re.compile(r"(?:KSK|ZSK|CSK) DNSKEY = \S+ IN DNSKEY (?P<data>\d+ 3 \d+ [^;]+?)\s*;.*")
# A record as `pdnsutil list-zone` has it.
LISTED = re.compile(r"(?P<owner>\S+)\t(?P<ttl>\d+)\tIN\t(?P<kind>\S+)\t(?P<data>.*)")
PRESIGNED = "Zone is presigned"
# What has PowerDNS give CDS for all its KSKs: a zone's metadata, or a setting for all zones.
OWN_CDS = ("PUBLISH-CDS", "PUBLISH-CDNSKEY")
METADATA = re.compile(r"\t(?P<kind>[A-Z0-9-]+)\t(?P<value>.*)")
SETTING = re.compile(r"^(?P<name>[a-z0-9-]+)=(?P<value>.*)$", re.MULTILINE)


@dataclass(frozen=True)
class PdnsKey:
    """A key that PowerDNS has."""

    id: str
    key: Key
    is_active: bool
    is_published: bool


@dataclass(frozen=True)
class StoredRecord:
    """A record of its database."""

    owner: str
    ttl: int
    kind: str
    data: str


class PowerDns:
    """PowerDNS, however it is asked: by its flags the same keys sign."""

    name, options = "pdns", ("nsec3",)

    def __init__(self, origin: str, nsec3: str | None = None) -> None:
        self.zone, self.nsec3 = origin.rstrip(".") or ".", nsec3

    # What is there

    def held(self) -> list[PdnsKey]:
        """The keys of the database."""
        raise NotImplementedError

    def records(self) -> list[StoredRecord]:
        """The records of the zone."""
        raise NotImplementedError

    def private(self, held: PdnsKey) -> str:
        """The private half of a key, as BIND has it."""
        raise NotImplementedError

    def metadata(self) -> set[str]:
        """The kinds of metadata that the zone has."""
        raise NotImplementedError

    def settings(self) -> dict[str, str]:
        """The settings of PowerDNS."""
        raise NotImplementedError

    def _expect_no_own_cds(self) -> None:
        """PowerDNS gives just the CDS that is due."""
        settings = self.settings()
        own = [kind for kind in OWN_CDS if kind in self.metadata()]
        own += [name for name in (f"default-{kind.lower()}" for kind in OWN_CDS)
                if settings.get(name)]
        if own:
            raise Failure(f"PowerDNS gives CDS of its own, by {', '.join(own)}: 'pdnsutil "
                          f"unset-publish-cds {self.zone}', 'pdnsutil unset-publish-cdnskey "
                          f"{self.zone}', and no default-publish- in pdns.conf", UNAVAILABLE)

    def top(self, kind: str) -> list[StoredRecord]:
        name = self.zone.lower()
        return [it for it in self.records()
                if it.kind == kind and (it.owner.lower().rstrip(".") or ".") == name]

    def soa(self) -> StoredRecord:
        found = self.top("SOA")
        if len(found) != 1:
            raise Failure(f"PowerDNS has no SOA record of {self.zone}", UNAVAILABLE)
        return found[0]

    def now(self, known: list[Key]) -> Sets:
        held = self.held()
        self._expect_no_own_cds()
        names = {key: key for key in known}
        of = [(it, names.get(it.key, it.key)) for it in held]
        signers, zone = by_flags(key for it, key in of if it.is_active)
        dnskey = frozenset(key for it, key in of if it.is_published)
        return Sets(dnskey, signers, zone, self._cds([*known, *(key for _, key in of)]))

    def _cds(self, keys: list[Key]) -> frozenset[Key]:
        """For which keys CDS and CDNSKEY are in. What is of no key stays what it is, and so does
        one of both without the other, as a crash between them leaves it."""
        of = {it.data: it for it in reversed(keys)}
        given = (Key.of(row.data) for row in self.top("CDNSKEY"))
        cdnskey = {of.get(key.data, key) for key in given}
        cds = {self._of_cds(row.data, keys) for row in self.top("CDS")}
        alone = {Key(f"0 0 {key.algorithm} AA==", f"{key} by one of CDS and CDNSKEY alone")
                 for key in cds ^ cdnskey}
        return frozenset(cds & cdnskey | alone)

    def _of_cds(self, data: str, keys: list[Key]) -> Key:
        record = parsed("CDS", data)
        if record.algorithm == 0:
            return Key(DELETION)
        name = dns.name.from_text(self.zone)
        for key in (it for it in keys if it.tag == record.key_tag):
            made = dns.dnssec.make_ds(name, parsed("DNSKEY", key.data), record.digest_type)
            if made.digest == record.digest:
                return key
        return Key(f"0 3 {record.algorithm} AA==", f"CDS {data}")

    def fits(self, key: Key) -> bool:
        return is_here(key.file) or any(it.key == key for it in self.held())

    def lacks(self, wanted: Sets) -> Iterator[str]:
        yield from lacks_by_flags("PowerDNS", wanted)

    def ttls(self) -> dict[str, int]:
        """PowerDNS gives the DNSKEY set, and answers that there is none, with the SOA record's
        minimum."""
        minimum = int(self.soa().data.split()[-1])
        highest = max(it.ttl for it in self.records())
        return {"dnskey": minimum, "zone": max(minimum, highest)}

    # What has to be done

    def publish(self, now: Sets, wanted: Sets, _: Path) -> Iterator[SignerStep]:
        ids = {it.key: it for it in self.held()}
        active = now.signers | now.zone
        due = wanted.signers | wanted.zone
        yield from map(self.imported, _sorted(wanted.keys - ids.keys()))
        yield from (self._changed("publish", it) for it in _sorted(wanted.dnskey - now.dnskey))
        yield from (self._changed("activate", it) for it in _sorted(due - active))
        yield from (self._changed("deactivate", it) for it in _sorted(active - due))
        yield from (self._changed("unpublish", it) for it in _sorted(now.dnskey - wanted.dnskey))
        if now.cds != wanted.cds:
            yield from self._cds_steps(wanted.cds)

    def imported(self, key: Key) -> SignerStep:
        """A key comes in, neither published nor active."""
        raise NotImplementedError

    def flagged(self, verb: str, held: PdnsKey) -> SignerStep:
        """A key of the database is activated, deactivated, published or unpublished."""
        raise NotImplementedError

    def _changed(self, verb: str, key: Key) -> SignerStep:
        def late() -> SignerStep:
            found = next((it for it in self.held() if it.key == key), None)
            if found is None:
                raise Failure(f"PowerDNS has lost {key}", UNAVAILABLE)
            return self.flagged(verb, found)

        unknown = PdnsKey(f"ID of {key}", key, False, False)
        return SignerStep(self.flagged(verb, unknown).words, late)

    def _cds_steps(self, keys: frozenset[Key]) -> Iterator[SignerStep]:
        """CDNSKEY and CDS for these keys, with the digest that CDS has to have (RFC 8624)."""
        if not keys:
            yield from self.placed({"CDS": [], "CDNSKEY": []}, 0)
            return
        if self.settings().get("direct-dnskey") != "yes":
            raise Failure("PowerDNS gives CDS to secondaries only with direct-dnskey=yes in "
                          "pdns.conf: add it, and restart PowerDNS", UNAVAILABLE)
        name = dns.name.from_text(self.zone)
        data = {"CDNSKEY": [it.data for it in _sorted(keys)], "CDS": [
            "0 0 0 00" if it.data == DELETION else
            str(dns.dnssec.make_ds(name, parsed("DNSKEY", it.data), "SHA256"))
            for it in _sorted(keys)
        ]}
        yield from self.placed(data, int(self.soa().data.split()[-1]))

    def placed(self, data: dict[str, list[str]], ttl: int) -> Iterator[SignerStep]:
        """The sets of the zone's name have these records, or go."""
        raise NotImplementedError

    def params(self) -> str | None:
        """The parameters of NSEC3 that an act is to give, if it is to give any; '' for NSEC."""
        if self.nsec3 is None or self.nsec3 == "no":
            return None if self.nsec3 is None else ""
        how = Nsec3.of(self.nsec3)
        return f"{how.algorithm} {how.flags} {how.iterations} {how.salt}"

    def renew(self) -> Iterator[SignerStep]:
        """A higher serial, for PowerDNS signs anew each week under the same; and the server learns
        that its caches are old, and notifies secondaries."""
        raise NotImplementedError


class Pdnsutil(PowerDns):
    """PowerDNS by `pdnsutil`, with the settings in a folder."""

    def __init__(self, origin: str, config: str | None, nsec3: str | None = None) -> None:
        super().__init__(origin, nsec3)
        if self.zone.startswith("-"):
            raise Failure(f"pdnsutil takes {self.zone} for an option")
        self.config = [f"--config-dir={config}"] if config else []

    def words(self, *words: str) -> tuple[str, ...]:
        return ("pdnsutil", *self.config, *words)

    def step(self, *words: str) -> SignerStep:
        return SignerStep(self.words(*words))

    def held(self) -> list[PdnsKey]:
        text = said(self.words("show-zone", self.zone))
        if PRESIGNED in text:
            raise presigned(self.zone)
        lines, held = iter(text.splitlines()), []
        for line in lines:
            if not line.startswith("ID = "):
                continue
            record = RECORD.fullmatch(next(lines, ""))
            found = ID.fullmatch(line)
            if not (found and record):
                raise Failure(f"pdnsutil show-zone: a line that isn't known: {line}", UNAVAILABLE)
            held.append(PdnsKey(found["id"], Key.of(record["data"]), found["active"] == "Active",
                                found["published"] == "Published"))
        if "keys:" not in text and "Zone is not actively secured" not in text:
            raise Failure("pdnsutil show-zone: it says nothing of keys", UNAVAILABLE)
        return held

    def records(self) -> list[StoredRecord]:
        found = map(LISTED.fullmatch, said(self.words("list-zone", self.zone)).splitlines())
        return [StoredRecord(it["owner"], int(it["ttl"]), it["kind"], it["data"])
                for it in found if it]

    def private(self, held: PdnsKey) -> str:
        return said(self.words("export-zone-key", self.zone, held.id))

    def imported(self, key: Key) -> SignerStep:
        kind, private = "ksk" if key.is_sep else "zsk", str(key.at_hand().private.resolve())
        return self.step("import-zone-key", self.zone, private, "inactive", kind, "unpublished")

    def flagged(self, verb: str, held: PdnsKey) -> SignerStep:
        return self.step(f"{verb}-zone-key", self.zone, held.id)

    def placed(self, data: dict[str, list[str]], ttl: int) -> Iterator[SignerStep]:
        for kind, rows in data.items():
            yield self.step("replace-rrset", self.zone, "@", kind, str(ttl), *rows) if rows else \
                self.step("delete-rrset", self.zone, "@", kind)

    def metadata(self) -> set[str]:
        lines = said(self.words("show-zone", self.zone)).splitlines()
        return {it["kind"] for it in map(METADATA.fullmatch, lines) if it}

    def settings(self) -> dict[str, str]:
        text = said(("pdns_control", *self.config, "current-config"))
        return {it["name"]: it["value"] for it in SETTING.finditer(text)}

    def renew(self) -> Iterator[SignerStep]:
        params = self.params()
        if params is not None:
            yield self.step("set-nsec3", self.zone, params) if params else \
                self.step("unset-nsec3", self.zone)
        yield self.step("increase-serial", self.zone)
        yield self.step("rectify-zone", self.zone)
        yield SignerStep(("pdns_control", *self.config, "purge", f"{self.zone}$"))
        yield SignerStep(("pdns_control", *self.config, "notify", self.zone))


def presigned(zone: str) -> Failure:
    return Failure(f"PowerDNS has {zone} with signatures of another signer (presigned): 'pdnsutil "
                   "unset-presigned' first", UNAVAILABLE)


def _sorted(keys: Iterable[Key]) -> list[Key]:
    return sorted(keys, key=str)
