"""The sets that are made of keys, for what a status says: DNSKEY, CDS and CDNSKEY, the DS records
of the parent; and which keys sign which set."""

from __future__ import annotations

import contextlib
from pathlib import Path
from typing import TYPE_CHECKING, Iterable, Iterator, Sequence

import dns.dnssec
import dns.name

from . import keyfiles
from .errors import UNAVAILABLE, Failure
from .signers import DELETION, Key, Sets
from .zonefile import KeyId, ZoneFile, ZoneRecord, parsed

if TYPE_CHECKING:
    from .zone_status import ZoneStatus

# The types of a DS record's digest, by their numbers there.
DIGESTS = {2: "SHA256", 4: "SHA384"}
# CDS and CDNSKEY that ask the parent to remove the DS set (RFC 8078, section 4).
DELETE = {"CDS": ["0 0 0 00"], "CDNSKEY": [DELETION]}


class KeySets:
    """The key files of all sets of a status."""

    def __init__(self, zone_status: ZoneStatus, folders: Sequence[str | Path],
                 taken: Iterable[ZoneRecord] = ()) -> None:
        self.published, self.origin = zone_status.published, zone_status.origin
        keys = zone_status.keys_in_sets()
        self.files = {key.reference: keyfiles.find(key, folders) for key in keys}
        self.known = {KeyId(key.algorithm, key.tag) for key in zone_status.keys}
        self._keys, self._folders = zone_status.keys, folders
        # The signatures of the DNSKEY set that ceremonies have made.
        self.taken = list(taken)
        self.has_ds = {key.reference for key in keys if key.stamps["ds_visible"] is not None}

    def dnskey_files(self) -> list[keyfiles.KeyFile]:
        return [self.files[name] for name in self.published.dnskey]

    def ds_files(self) -> list[keyfiles.KeyFile]:
        return [self.files[name] for name in self.published.ds]

    def every(self) -> dict[str, keyfiles.KeyFile]:
        """The files of all keys of the script, also of those that have left, if they are there."""
        files = dict(self.files)
        for key in (key for key in self._keys if key.reference not in files):
            with contextlib.suppress(Failure):
                files[key.reference] = keyfiles.find(key, self._folders)
        return files

    def by(self, names: Iterable[str]) -> frozenset[KeyId]:
        """These keys as signatures name them."""
        return frozenset(KeyId(self.files[name].algorithm, self.files[name].tag) for name in names)

    def ttl(self) -> int:
        """The highest TTL in the key files of the DNSKEY set."""
        return max((file.ttl for file in self.dnskey_files()), default=0)

    def dnskey(self, ttl: int) -> list[ZoneRecord]:
        """The DNSKEY set that is due."""
        return self._rows("DNSKEY", ttl, [file.data for file in self.dnskey_files()])

    def ds(self, digests: Iterable[int]) -> list[str]:
        """The data of the DS records that are due."""
        name = dns.name.from_text(self.origin)
        keys = [parsed("DNSKEY", file.data) for file in self.ds_files()]
        made = (dns.dnssec.make_ds(name, key, DIGESTS[it]) for key in keys for it in digests)
        return list(map(str, made))

    def cds(self, ttl: int, digests: Iterable[int]) -> dict[str, list[ZoneRecord]]:
        """CDS and CDNSKEY for the DS set that is due, or those that ask to remove it."""
        data = {"CDS": self.ds(digests), "CDNSKEY": [file.data for file in self.ds_files()]}
        of = data if self.published.ds else DELETE
        return {kind: self._rows(kind, ttl, texts) for kind, texts in of.items()}

    def sets(self, has_cds: bool) -> Sets:
        """What is due, for a signer."""
        keys = {name: Key.of(file.data, name, file) for name, file in self.files.items()}
        return Sets.of(self.published, keys, has_cds)

    def _rows(self, kind: str, ttl: int, data: list[str]) -> list[ZoneRecord]:
        return [ZoneRecord(self.origin, ttl, kind, text) for text in data]

    def in_last(self, last: ZoneFile | None) -> set[KeyId]:
        """The keys of the last version."""
        keys = last.data("DNSKEY") if last else ()
        return {KeyId(key.algorithm, dns.dnssec.key_id(key)) for key in keys}

    def is_away(self, name: str) -> bool:
        """Whether the private half of a key isn't here."""
        return not self.files[name].private.is_file()

    def here(self) -> list[str]:
        """The keys that sign now. Those that sign the zone have to be here."""
        zone = self.published.zone
        for name in filter(self.is_away, zone):
            text = f"{self.files[name].private} isn't here, and {name} has to sign the zone"
            raise Failure(text, UNAVAILABLE)
        names = dict.fromkeys([*self.published.signers, *zone])
        return [name for name in names if not self.is_away(name)]

    def cds_signer(self) -> list[str]:
        """The key of `signers=` that signs CDS and CDNSKEY, if it is here: one that has a DS at the
        parent now, or before the first DS one that gets it."""
        signers = self.published.signers
        has_ds = [name for name in signers if name in self.has_ds]
        gets_it = [name for name in signers if name in self.published.ds]
        able = has_ds or gets_it or signers
        return [name for name in able if not self.is_away(name)][:1]

    def kept(self, last: ZoneFile | None, now: float) -> dict[str, ZoneRecord]:
        """The last signatures of the DNSKEY set by keys that are away. They have to be valid, and
        of the set that is due."""
        away = filter(self.is_away, self.published.signers)
        return {name: self._last_by(name, last, now) for name in away}

    def _last_by(self, name: str, last: ZoneFile | None, now: float) -> ZoneRecord:
        """The signature that is valid for the longest, of those of ceremonies too."""
        reason = f"{self.files[name].private} isn't here"
        valid = list(self._of_ceremonies(name, now))
        due = {parsed("DNSKEY", file.data) for file in self.dnskey_files()}
        has_signed = last is not None and last.data("DNSKEY") == due
        if not valid and not has_signed:
            raise Failure(f"{reason}, and {name} has not signed this DNSKEY set", UNAVAILABLE)
        by = self.by([name])
        for row in last.signatures("DNSKEY") if last is not None and has_signed else ():
            data = parsed("RRSIG", row.data)
            if KeyId(data.algorithm, data.key_tag) in by and now < data.expiration:
                valid.append(row)
        if not valid:
            raise Failure(f"{reason}, and no signature of {name} is valid any more", UNAVAILABLE)
        return max(valid, key=lambda row: int(parsed("RRSIG", row.data).expiration))

    def _of_ceremonies(self, name: str, now: float) -> Iterator[ZoneRecord]:
        """The signatures of the DNSKEY set that is due, by a key that is away, which are valid."""
        if not self.taken:
            return
        from . import ceremony

        data = [file.data for file in self.dnskey_files()]
        yield from ceremony.valid(self.taken, self.origin, data, self.files[name], now)
