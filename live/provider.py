"""A provider that signs a zone and serves it, as in docs/OPERATORS.md."""

import asyncio
import time
from dataclasses import replace

from asking import data_of, tags_of, watch
from keys import ZoneSigner, make_key
from script import Script, rounded_down
from zone import Notes

KINDS = {"K": "ksk", "Z": "zsk", "C": "csk"}
UPDATES = {"UpdateDnskeyRrset": "dnskey", "UpdateRrsig": "zone"}


class Provider:
    """Signs a zone by a script of its own, and serves it. If a zone has two providers, each puts
    its letter before the references of its keys."""

    def __init__(self, zone, servers, letter=""):
        self.zone, self.servers, self.letter = zone, servers, letter
        self.begin_script()
        self.keys, self.notes = {}, Notes(zone.least)
        self.ttls = zone.ttls_of.get(letter, zone.ttls)
        self.signing = ZoneSigner(zone.folder, zone.name, zone.letters, letter)
        self.version = zone.first
        self.versions, self.publishing = {}, asyncio.Lock()
        # Whether the DNSKEY TTL must not rise.
        self.is_steady = False
        self.is_nsec3 = False
        self.note_version()
        zone.providers.append(self)

    def begin_script(self):
        self.script = Script(self.zone.world.keyset, self.zone.name.rstrip("."))

    # Keys

    async def make(self, *refs, algorithm=13):
        """Makes keys whose references begin with the letter of their kind, and adds them."""
        for ref in refs:
            kind, ref = KINDS[ref[0]], f"{self.letter}{ref}"
            key = await make_key(self.zone.folder, self.zone.name, ref, kind, algorithm)
            self.keys[ref] = key
            self.call(f"add-{kind} {ref} - {algorithm} {key.tag} {rounded_down()} yes")

    def named(self, *refs):
        """References as the script has them."""
        return ",".join(f"{self.letter}{ref}" for ref in refs) or "-"

    def is_own(self, key):
        return key.ref.startswith(self.letter)

    async def take_in(self, *keys):
        """Publishes keys of the other signer in this signer's DNSKEY set."""
        for key in keys:
            self.add_public(key)
        await self.publish("dnskey")
        await self.watch()

    def add_public(self, key):
        self.keys[key.ref] = key
        now = rounded_down()
        self.call(f"add-public {key.ref} {key.algorithm} {key.tag} {now} yes")
        self.call(f"set-present {key.ref} yes {now}")

    async def take_out(self, *keys):
        """Takes keys of the other signer out of this signer's DNSKEY set."""
        for key in keys:
            self.call(f"set-present {key.ref} no {rounded_down()}")
        await self.publish("dnskey")
        await self.watch()

    def keys_of(self, kind):
        """The keys of a set that has to be published."""
        return tuple(self.keys[ref] for ref in self.script.sets[kind])

    def call(self, line, may_break=False):
        return self.script.call(line, may_break)

    # Publishing

    def note_version(self):
        """Notes the TTLs of what is published (rule 1). A zone without a DNSKEY set answers that
        there is none."""
        version = self.version
        self.versions[version.serial] = version
        dnskey = version.dnskey_ttl if version.dnskey else version.longest
        self.notes.published("dnskey", dnskey, version.serial)
        self.notes.published("zone", version.longest, version.serial)

    async def publish(self, *kinds):
        """Publishes a version of the zone. If the DNSKEY set or the signatures of the zone are
        named, the version has those of the script now."""
        async with self.publishing:
            changes = {}
            if "dnskey" in kinds:
                changes.update(dnskey=self.keys_of("dnskey"), signers=self.keys_of("signers"))
            if "zone" in kinds:
                changes.update(zone=self.keys_of("zone"))
            next_one = replace(self.version, **changes)
            self.version = replace(
                next_one, serial=next(self.zone.serials), ttl=self.ttls.zone,
                dnskey_ttl=self.ttls.dnskey, negative=self.ttls.negative, cds=self.zone.cds,
                cds_signers=self.cds_signers(next_one), changing=self.changing(next_one),
                is_nsec3=self.is_nsec3,
            )
            self.note_version()
            text = await self.signing.text(self.version)
            self.zone.world.fleet.publish(self.servers, self.zone.name, text)

    def able(self, version):
        """The keys of `signers=` that aren't lost, first those that have a DS now."""
        able = [key for key in version.signers if not key.lost]
        return sorted(able, key=lambda key: key.ds not in self.zone.ds())

    def cds_signers(self, version):
        """The key of `signers=` that signs CDS and CDNSKEY (rule 3): one that has a DS now, by
        which the parent checks them, or before the first DS one that gets it. None, if it is
        lost."""
        signers, ds = self.able(version), self.zone.ds()
        has_one = any(key.ds in ds for key in version.signers)
        return tuple(key for key in signers if key.ds in ds or not has_one)[:1]

    def changing(self, version):
        """The keys that sign what changes in the zone: those of `zone=`, and in the place of each
        lost one a KSK of its algorithm."""
        keys = [key for key in version.zone if not key.lost]
        lost = {key.algorithm for key in version.zone if key.lost}
        able = [key for key in self.able(version)[::-1] if key not in keys]
        in_place = {key.algorithm: key for key in able if key.algorithm in lost}
        return *keys, *in_place.values()

    def can_sign_cds(self):
        """Whether each signer has a key that can sign CDS by rule 3."""
        return all(one.cds_signers(one.version) for one in (self, *self.others()))

    async def act(self, actions):
        """Does what an answer asks: publishes it in one version, and has the DS set changed."""
        kinds = [kind for action, kind in UPDATES.items() if action in actions]
        before = self.zone.cds
        if "CreateCdsRrset" in actions:
            await self.take_cds_out()
            # Without a key that can sign them the parent gets its DS set by another way.
            if self.can_sign_cds():
                self.zone.cds = self.zone.ds_keys()
        # (At `RemoveCdsRrset` they are out already.)
        is_of_cds = self.zone.cds != before
        if kinds or is_of_cds:
            await self.publish(*kinds)
        if is_of_cds:
            for other in self.others():
                await other.publish()
        if "UpdateDsRrset" in actions:
            await self.zone.change_ds(self.zone.ds_keys())

    def others(self):
        """The other signers whose zone is signed."""
        return [
            provider for provider in self.zone.providers
            if provider is not self and provider.version.dnskey
        ]

    async def take_cds_out(self):
        """Takes CDS and CDNSKEY out, and watches until no server gives them any more (rule 3)."""
        if self.zone.cds is None:
            return
        self.zone.cds = None
        for provider in (self, *self.others()):
            await provider.publish()
        for provider in (self, *self.others()):
            await provider.watch()

    # Watching

    async def watch(self):
        """Watches until all servers give the present version, or a later one: its serial number
        with the signatures of the zone, and the DNSKEY set with a signature by each key of
        `signers=`."""
        serial, name, port = self.version.serial, self.zone.name, self.zone.world.port
        for kind, is_there, what in (
            ("SOA", self.is_version, f"version {serial}"),
            ("DNSKEY", self.are_keys, "the new DNSKEY set"),
        ):
            for address in self.servers:
                await watch(
                    [address], port, name, kind, lambda answer: is_there(answer, serial)
                    or self.has_lost(address, kind, answer), what,
                )
        self.notes.everywhere("dnskey", serial)
        self.notes.everywhere("zone", serial)

    def is_version(self, answer, serial):
        """Whether an answer has this version or a later one, with the signatures of the zone."""
        given = [int(text.split()[2]) for text in data_of(answer, "SOA")]
        # (A server that another provider had may still give a version of that provider.)
        version = self.versions.get(given[0]) if given else None
        return version and version.serial >= serial and (
            {key.tag for key in version.changing} == tags_of(answer, "SOA")
        )

    def are_keys(self, answer, serial):
        """Whether an answer has the DNSKEY set of this version or a later one, with its
        signatures."""
        keys, tags = data_of(answer, "DNSKEY"), tags_of(answer, "DNSKEY")
        return any(
            {key.dnskey for key in version.dnskey} == keys
            and {key.tag for key in version.signers} <= tags
            for number, version in self.versions.items() if number >= serial
        )

    def has_lost(self, address, kind, answer):
        """Whether a server has become the other signer's meanwhile, and gives what that one has
        signed."""
        tags = tags_of(answer, kind)
        own = {key.tag for key in self.keys.values() if self.is_own(key)}
        return address not in self.servers and bool(tags) and not tags & own

    async def watch_other(self):
        """Watches until the other's servers give a DNSKEY set with all ZSKs and CSKs of this one
        that are in its own set (rule 2 of two signers)."""
        own = {key.dnskey for key in self.version.dnskey if self.is_own(key) and key.kind != "ksk"}
        for other in self.others():
            await watch(
                other.servers, self.zone.world.port, self.zone.name, "DNSKEY",
                lambda answer: own <= data_of(answer, "DNSKEY"), "the keys of the other",
            )

    # TTLs

    def highest(self, kind, moment):
        """The TTL of rule 1. The DNSKEY sets of the other signer count like its own."""
        if kind == "ds":
            return self.zone.notes.highest("ds", moment)
        counted = self.zone.providers if kind == "dnskey" else [self]
        return max(provider.notes.highest(kind, moment) for provider in counted)

    def longest_held(self):
        """The highest TTL of its sets that caches may hold, now that no server gives them."""
        for kind in ("dnskey", "zone"):
            self.notes.everywhere(kind, self.version.serial + 1)
        return max(self.notes.highest(kind, time.time()) for kind in ("dnskey", "zone"))

    def sum_of_ds_and_dnskey(self, moment):
        """The TTL to report if a validator may check a DNSKEY set by an old DS set once more. The
        present DNSKEY set counts too, and one that is on its way."""
        present = [
            max(ttl, self.zone.least) for provider in self.zone.providers
            for ttl in (provider.version.dnskey_ttl, provider.ttls.dnskey)
        ]
        return self.highest("ds", moment) + max(self.highest("dnskey", moment), *present)
