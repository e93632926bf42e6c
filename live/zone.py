"""A zone of the test: what its providers share, and what caches may hold of it."""

import asyncio
import itertools
import time
from dataclasses import dataclass
from typing import Optional

from asking import PATIENCE, ask, data_of, is_signed_by_ds
from keys import ZoneVersion
from parent import NEGATIVE
from places import CHILD
from processes import SceneFailure

# The CDS record that asks to delete the DS set (RFC 8078, section 4).
DELETE = "0 0 0 00"


@dataclass
class PublishedSet:
    """The TTL of a set that was published, and since when no server gives it."""

    ttl: int
    number: int
    gone: Optional[float] = None


class Notes:
    """The notes of rule 1, by the kind of the set. A cache keeps each set for `least` seconds at
    least."""

    def __init__(self, least=0):
        self.held, self.least = {"dnskey": [], "zone": [], "ds": []}, least

    def published(self, kind, ttl, number):
        self.held[kind].append(PublishedSet(max(ttl, self.least), number))

    def everywhere(self, kind, number):
        """Notes that all servers give the version of this number, and none an older one."""
        for held in self.held[kind]:
            if held.number < number and held.gone is None:
                held.gone = time.time()

    def highest(self, kind, moment):
        """The highest TTL of the sets that a cache may hold at this moment, and that servers have
        ceased to give; with the second more that a cache may count."""
        lasting = (
            (held.ttl + 1, held.gone) for held in self.held[kind] if held.gone
        )
        return max((ttl for ttl, gone in lasting if gone + ttl > moment), default=0)


@dataclass
class Ttls:
    """The TTLs of the sets that are published next."""

    zone: int
    dnskey: int
    ds: int
    # The TTL of answers that there is no such set, if it is another.
    negative: int = 0

    @classmethod
    def any(cls, dice):
        return cls(*(dice.randint(2, 4) for _ in range(3)))


class Zone:
    """One zone with its servers, its parent, its providers and its clients."""

    def __init__(self, world, name, providers, dice):
        self.world, self.name, self.dice = world, name, dice
        self.servers = [address for provider in providers for address in CHILD[provider]]
        # Each of two signers chooses TTLs of its own. Those of a single one are the zone's.
        self.ttls = Ttls.any(dice)
        # The unsigned version that its servers begin with. A scene may change the TTLs after it.
        self.first = ZoneVersion(1, self.ttls.zone, self.ttls.dnskey)
        self.ttls_of = {letter: Ttls.any(dice) for letter in providers}
        self.providers, self.letters = [], providers
        self.least, self.serials = 0, itertools.count(2)
        self.notes, self.ds_number = Notes(), 0
        self.notes.published("ds", NEGATIVE, 0)
        self.cds, self.turn, self.at_parent = None, asyncio.Lock(), asyncio.Lock()
        self.reads_cds, self.is_at_work, self.wanted = dice.random() < 0.5, False, set()
        # For how many seconds at most the parent is at work on a request.
        self.slowest = 1
        self.folder = world.folder / f"keys-{name.rstrip('.')}"
        self.folder.mkdir()

    def ds_keys(self):
        """The keys of the `ds=` of all signers."""
        return tuple(key for provider in self.providers for key in provider.keys_of("ds"))

    def longest(self):
        """The highest TTL that is published."""
        every = [self.ttls, *(provider.ttls for provider in self.providers)]
        return max(self.least, *(ttl for ttls in every for ttl in vars(ttls).values()))

    def counts_least(self, least):
        """From now on the TTLs of rule 1 are no less than this."""
        self.least, self.notes = least, Notes(least)
        self.notes.published("ds", NEGATIVE, 0)

    def is_secure(self, ttl=0):
        """From now on all answers have to be validated, once caches have lost what they hold from
        before: that there is no DS, and then what they took until then, which may have this TTL."""
        longest = max(self.longest(), ttl)
        self.clients.secure_from = time.time() + NEGATIVE + 1 + longest + 1

    # The parent

    async def change_ds(self, keys):
        """Has the parent's DS set changed to these keys. The parent reads CDS now and then. If it
        doesn't or can't, it gets the change by another way, after a while."""
        self.wanted = {key.ds for key in keys}
        if not (self.reads_cds and self.cds is not None and self.ds()):
            await self.work()
            await self.publish_ds(self.wanted)

    def ds(self):
        """The DS set of the parent."""
        return set(self.world.parent.ds.get(self.name, ((), 0))[0])

    async def publish_ds(self, data=None):
        """The parent publishes a DS set. Without data it is the present one, with the new TTL."""
        async with self.at_parent:
            ttl = self.ttls.ds if data is None or data else NEGATIVE
            await self.world.parent.change(self.name, data, ttl)
            self.ds_number += 1
            self.notes.published("ds", ttl, self.ds_number)

    async def watch_ds(self):
        """Watches until the parent has acted, and all its servers give the new DS set."""
        until = time.monotonic() + PATIENCE
        while self.ds() != self.wanted:
            if self.reading.done():
                self.reading.result()
            if time.monotonic() > until:
                raise SceneFailure(f"the parent doesn't take {self.wanted} from CDS of {self.name}")
            await asyncio.sleep(0.1)
        async with self.at_parent:
            number = self.ds_number
        await self.world.parent.watch(self.name)
        self.notes.everywhere("ds", number)

    async def read_cds(self):
        """The parent reads CDS of one of the servers now and then. It takes them if a key signs
        them that is in the DS set and in the DNSKEY set (RFC 7344, section 4.1), and is at work on
        that for a while."""
        while True:
            await asyncio.sleep(self.dice.uniform(0.3, 1.5))
            servers = [address for provider in self.providers for address in provider.servers]
            if not (self.reads_cds and self.ds() and servers):
                continue
            data = await self.taken(self.dice.choice(servers))
            if data is not None and data != self.ds():
                self.is_at_work = True
                await self.work()
                await self.publish_ds(data)
                self.is_at_work = False

    async def work(self):
        """The parent is at work on a request."""
        await asyncio.sleep(self.slowest * self.dice.uniform(0, 1))

    async def taken(self, server):
        """The data of CDS that the parent takes from a server, or None. There are none if the entry
        deletes."""
        cds, keys = [
            await ask(server, self.world.port, self.name, kind) for kind in ("CDS", "DNSKEY")
        ]
        data = data_of(cds, "CDS") if cds and keys else set()
        is_taken = data and is_signed_by_ds(cds, "CDS", keys, self.ds())
        return data - {DELETE} if is_taken else None
