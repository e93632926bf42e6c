"""The honest scenes of one signer. In none of them may a client get a SERVFAIL."""

import asyncio
import itertools
import time
from dataclasses import replace

from asking import ask
from places import CACHE, LEAST, LEAST_CACHE, LEAST_TTL, RESOLVERS
from provider import Provider
from rolls import ALGORITHM, CSK, DOUBLE_DS, DOUBLE_SIGNATURE, KSK, ZSK, Roll
from script import rounded_down

# For each roll the old keys, the new ones, and those that then replace the new ones.
KEYS = {
    KSK: (["K1"], ["K2"], ["K3"]),
    DOUBLE_DS: (["K1"], ["K2"], ["K3"]),
    ZSK: (["Z1"], ["Z2"], ["Z3"]),
    DOUBLE_SIGNATURE: (["Z1"], ["Z2"], ["Z3"]),
    CSK: (["K1", "Z1"], ["C2"], ["C3"]),
    ALGORITHM: (["K1", "Z1"], ["K2", "Z2"], ["K3", "Z3"]),
}


async def first_keys(zone, *refs, algorithm=13):
    """A provider with its first keys: docs/RUNBOOKS.md, "The first keys"."""
    provider = Provider(zone, zone.servers)
    await provider.make(*refs, algorithm=algorithm)
    await Roll(provider, ALGORITHM).whole([], refs)
    zone.is_secure()
    return provider


async def keys_again(provider, *refs, algorithm=13):
    """First keys of a zone that went unsigned, until no cache holds an older set."""
    await provider.make(*refs, algorithm=algorithm)
    await Roll(provider, ALGORITHM).whole([], refs)
    provider.zone.is_secure()
    await asyncio.sleep(provider.zone.longest() + 4)


async def roll_twice(provider, name, algorithms):
    """A roll, and then the same roll to new keys again. An algorithm roll goes by these."""
    old = KEYS[name][0]
    for new, algorithm in zip(KEYS[name][1:], algorithms):
        await provider.make(*new, algorithm=algorithm if name == ALGORITHM else 13)
        await Roll(provider, name).whole(old, new)
        old = new


def one_roll(name):
    async def scene(zone):
        await roll_twice(await first_keys(zone, "K1", "Z1"), name, (8, 15))

    return scene


async def csks(zone):
    """From a CSK to a KSK and a ZSK, and back."""
    provider = await first_keys(zone, "C1")
    await provider.make("K1", "Z1", "C2")
    await Roll(provider, CSK).whole(["C1"], ["K1", "Z1"])
    await Roll(provider, CSK).whole(["K1", "Z1"], ["C2"])


def beside(ksk_roll, zsk_roll):
    """A KSK roll beside a ZSK roll."""

    async def scene(zone):
        provider = await first_keys(zone, "K1", "Z1")
        await provider.make("K2", "Z2")
        await asyncio.gather(
            Roll(provider, ksk_roll).whole(["K1"], ["K2"]),
            Roll(provider, zsk_roll).whole(["Z1"], ["Z2"]),
        )

    return scene


async def slow_parent(zone):
    """The parent is slow, and CDS is out through rolls of the ZSK beside a roll of the KSK."""
    provider = await first_keys(zone, "K1", "Z1")
    zone.slowest = 30
    await provider.make("K2", "Z2", "Z3")

    async def zsks():
        await Roll(provider, ZSK).whole(["Z1"], ["Z2"])
        await Roll(provider, DOUBLE_SIGNATURE).whole(["Z2"], ["Z3"])

    await asyncio.gather(Roll(provider, DOUBLE_DS).whole(["K1"], ["K2"]), zsks())


def ended_early(name):
    """A roll that is ended early, after all is published or before, and begun again."""

    async def scene(zone):
        provider = await first_keys(zone, "K1", "Z1")
        old, new, third = KEYS[name]
        algorithm = 15 if name == ALGORITHM else 13
        await provider.make(*new, algorithm=algorithm)
        roll = Roll(provider, name)
        await roll.start(old, new)
        await asyncio.sleep(zone.dice.uniform(0, 2))
        await roll.abort()
        for ref in new:
            provider.call(f"set-stale {ref}")
            provider.call(f"delete {ref}")
        await provider.make(*third, algorithm=algorithm)
        await Roll(provider, name).whole(old, third)

    return scene


# Rolls in a row, each with the keys that leave and those that come.
ROW = (
    (KSK, "K1", "K2"), (ZSK, "Z1", "Z2"), (KSK, "K2", "K3"), (DOUBLE_DS, "K3", "K4"),
    (DOUBLE_SIGNATURE, "Z2", "Z3"), (ALGORITHM, "K4 Z3", "K5 Z5"), (CSK, "K5 Z5", "C6"),
    (ALGORITHM, "C6", "K7 Z7"), (ZSK, "Z7", "Z8"),
)


def in_a_row(kind):
    """Roll after roll, each at once after the one before. Sets of one kind have a much longer TTL
    than all others."""

    async def scene(zone):
        for each in ("zone", "dnskey", "ds"):
            setattr(zone.ttls, each, 10 if each == kind else 1)
        provider = await first_keys(zone, "K1", "Z1")
        algorithm = 13
        for name, old, new in ROW:
            algorithm = 28 - algorithm if name == ALGORITHM else algorithm
            await provider.make(*new.split(), algorithm=algorithm)
            await Roll(provider, name).whole(old.split(), new.split())

    return scene


async def least_ttl(zone):
    """Clients ask a resolver too whose cache keeps all sets longer than their TTL. That counts."""
    zone.counts_least(LEAST_TTL)
    await with_least_ttl(zone)


async def with_least_ttl(zone):
    await zone.clients.begin_to_ask("unbound-least-ttl", LEAST)
    zone.ttls.zone = zone.ttls.dnskey = zone.ttls.ds = 1
    provider = await first_keys(zone, "K1", "Z1")
    await asyncio.sleep(LEAST_TTL)
    await is_cached_anew(provider, LEAST_CACHE)
    for name in (ZSK, KSK, ALGORITHM):
        old, new, _ = KEYS[name] if name != ALGORITHM else (["K2", "Z2"], ["C3"], None)
        await provider.make(*new, algorithm=15 if name == ALGORITHM else 13)
        await Roll(provider, name).whole(old, new)


async def both_algorithms(zone):
    """A zone of two algorithms, each with a KSK and a ZSK, which roll one at a time. Then one of
    the algorithms gives way to a third."""
    provider = Provider(zone, zone.servers)
    await provider.make("K1", "Z1")
    await provider.make("K2", "Z2", algorithm=15)
    await Roll(provider, ALGORITHM).whole([], ["K1", "Z1", "K2", "Z2"])
    zone.is_secure()
    for name, old, new, algorithm in (
        (KSK, "K1", "K3", 13), (ZSK, "Z2", "Z4", 15), (DOUBLE_DS, "K2", "K4", 15),
        (DOUBLE_SIGNATURE, "Z1", "Z3", 13), (ALGORITHM, "K3 Z3", "K5 Z5", 8),
    ):
        await provider.make(*new.split(), algorithm=algorithm)
        await Roll(provider, name).whole(old.split(), new.split())
    await go_unsigned(provider, "K4", "Z4", "K5", "Z5")


# Rolls that are ended early, each with its new keys, the roll that comes at once after it, and the
# old and the new keys of that.
THEN = (
    (KSK, "K2", ALGORITHM, "K1 Z1", "K3 Z3"), (ALGORITHM, "K4 Z4", CSK, "K3 Z3", "C5"),
    (CSK, "K6 Z6", ALGORITHM, "C5", "K7 Z7"), (DOUBLE_DS, "K8", KSK, "K7", "K9"),
    (ZSK, "Z10", DOUBLE_SIGNATURE, "Z7", "Z11"), (DOUBLE_SIGNATURE, "Z12", ZSK, "Z11", "Z13"),
)


async def early_then_another(zone):
    """Each roll is ended early, and another roll comes at once after it."""
    provider = await first_keys(zone, "K1", "Z1")
    old, algorithm = ["K1", "Z1"], 13
    for ended, kept, name, leaving, coming in THEN:
        other = 28 - algorithm
        await provider.make(*kept.split(), algorithm=other if ended == ALGORITHM else algorithm)
        roll = Roll(provider, ended)
        kinds = {ref[0] for ref in kept.split()} if ended != CSK else set("KZC")
        await roll.start([ref for ref in old if ref[0] in kinds], kept.split())
        await asyncio.sleep(zone.dice.uniform(0, 2))
        await roll.abort()
        algorithm = other if name == ALGORITHM else algorithm
        await provider.make(*coming.split(), algorithm=algorithm)
        await Roll(provider, name).whole(leaving.split(), coming.split())
        old = [ref for ref in old if ref not in leaving.split()] + coming.split()


def start_unsigned(provider, *old):
    """docs/EMERGENCY.md, "Going unsigned", step 1: nothing is published, and the first report is
    made at once."""
    used = {key.tag for key in provider.keys.values()}
    free = next(tag for tag in range(65536) if tag not in used)
    old = provider.named(*old)
    algorithm = provider.keys[old.split(",")[0]].algorithm
    provider.call(f"add-csk none - {algorithm} {free} {rounded_down()} yes")
    provider.call(f"start algorithm-roll {old} none {rounded_down()}")
    provider.call("set-stale none")
    provider.call(f"report1 algorithm-roll 0 {rounded_down()}")
    roll = Roll(provider, ALGORITHM)
    roll.old = old
    return roll


async def hold_back(roll):
    """Step 4: the sum of the DS TTL and the DNSKEY TTL passes before the second wait."""
    await asyncio.sleep(roll.moment + roll.reported - time.time())


async def is_cached_anew(provider, cache=CACHE):
    """Waits until a cache has just got the DNSKEY set again. So it keeps that set for long after
    no server gives it."""
    zone = provider.zone
    ttl = LEAST_TTL if cache == LEAST_CACHE else provider.version.dnskey_ttl
    while True:
        answer = await ask(cache, zone.world.port, zone.name, "DNSKEY", True)
        if answer and any(rrset.ttl >= ttl - 1 for rrset in answer.answer):
            return
        await asyncio.sleep(0.2)


async def go_unsigned(provider, *old):
    provider.zone.clients.secure_from = float("inf")
    roll = start_unsigned(provider, *old)
    # 2. The DS set goes, by the entry that deletes.
    await roll.wait(1)
    # 3. The sum of the DS TTL and the DNSKEY TTL.
    await roll.report(2)
    await hold_back(roll)
    await is_cached_anew(provider)
    # 5. All goes.
    await roll.wait(2)
    await roll.done()
    for ref in (*map(provider.named, old), "none"):
        provider.call(f"delete {ref}")


async def unsigned(zone):
    """Unsigned, and at once back with other keys, while caches hold the old DNSKEY set. Then
    unsigned again."""
    zone.ttls.dnskey, zone.ttls.zone = 20, 2
    provider = await first_keys(zone, "K1", "Z1")
    await go_unsigned(provider, "K1", "Z1")
    zone.ttls.dnskey = 2
    await keys_again(provider, "C1", algorithm=15)
    await go_unsigned(provider, "C1")


async def first_keys_ended_early(zone):
    """First keys with a longer DNSKEY TTL, ended early while caches hold their DNSKEY set, and then
    other first keys."""
    provider = Provider(zone, zone.servers)
    zone.ttls.dnskey, zone.ttls.zone = 20, 2
    await provider.make("K1", "Z1")
    roll = Roll(provider, ALGORITHM)
    await roll.start([], ["K1", "Z1"])
    await is_cached_anew(provider)
    await roll.abort()
    for ref in ("K1", "Z1"):
        provider.call(f"set-stale {ref}")
        provider.call(f"delete {ref}")
    zone.ttls.dnskey = 2
    await keys_again(provider, "K2", "Z2")


async def ended_early_beside(zone):
    """A KSK roll and a ZSK roll side by side. First one is ended early, then the other."""
    provider = await first_keys(zone, "K1", "Z1")
    for ended, other, old, new, third in (
        (Roll(provider, KSK), Roll(provider, DOUBLE_SIGNATURE), "K1", "K2", "Z2"),
        (Roll(provider, ZSK), Roll(provider, DOUBLE_DS), "Z2", "Z3", "K3"),
    ):
        await provider.make(new, third)
        await ended.start([old], [new])
        going = asyncio.ensure_future(
            other.whole(["Z1"] if third == "Z2" else ["K1"], [third])
        )
        await asyncio.sleep(zone.dice.uniform(0, 2))
        await ended.abort()
        await going


class RollOfRaisedTtls(Roll):
    """Just before each report all TTLs rise. They fall again after it."""

    async def report(self, number, ttl=None):
        ttls = self.provider.ttls
        low = replace(ttls)
        ttls.zone, ttls.dnskey, ttls.ds = (HIGH + ttl for ttl in (low.zone, low.dnskey, low.ds))
        await self.provider.publish()
        await self.zone.publish_ds()
        await asyncio.sleep(1)
        await super().report(number, ttl)
        ttls.zone, ttls.dnskey, ttls.ds = low.zone, low.dnskey, low.ds
        await self.provider.publish()
        await self.zone.publish_ds()


HIGH = 6


async def raised_ttls(zone):
    """Rolls in which TTLs rise just before each report. The DS TTL is longer than all others."""
    zone.ttls.ds = 9
    provider = await first_keys(zone, "K1", "Z1")
    await provider.make("K2", "Z2", "C3")
    await RollOfRaisedTtls(provider, DOUBLE_DS).whole(["K1"], ["K2"])
    await RollOfRaisedTtls(provider, ZSK).whole(["Z1"], ["Z2"])
    await RollOfRaisedTtls(provider, CSK).whole(["K2", "Z2"], ["C3"])


async def nsec3(zone):
    """Answers that there is no such set have the highest TTL. During a roll they go from NSEC to
    NSEC3 and back."""
    zone.ttls.negative = 9
    provider = await first_keys(zone, "K1", "Z1")
    await provider.make("Z2", "K2", "Z3", algorithm=13)
    for roll, old, new in ((ZSK, ["Z1"], ["Z2"]), (CSK, ["K1", "Z2"], ["K2", "Z3"])):
        roll = Roll(provider, roll)
        await roll.start(old, new)
        provider.is_nsec3 = not provider.is_nsec3
        await provider.publish()
        await provider.watch()
        await roll.finish()


class RollOfRestarts(Roll):
    """In each phase a resolver restarts with an empty cache."""

    resolvers = itertools.cycle(RESOLVERS)

    async def report(self, number, ttl=None):
        await self.restart()
        await super().report(number, ttl)
        await self.restart()

    async def restart(self):
        await self.zone.world.resolvers.restart(next(self.resolvers))


async def restarted(zone):
    """Rolls of the KSK and the ZSK, and then of the algorithm, while resolvers restart."""
    provider = await first_keys(zone, "K1", "Z1")
    await provider.make("K2", "Z2")
    await asyncio.gather(
        RollOfRestarts(provider, KSK).whole(["K1"], ["K2"]),
        Roll(provider, ZSK).whole(["Z1"], ["Z2"]),
    )
    await provider.make("C3", algorithm=15)
    await RollOfRestarts(provider, ALGORITHM).whole(["K2", "Z2"], ["C3"])


LONG = {
    **{f"in-a-row-long-{kind}": in_a_row(kind) for kind in ("ds", "dnskey", "zone")},
    "least-ttl": least_ttl,
    "both-algorithms": both_algorithms,
    "early-then-another": early_then_another,
}

HONEST = {
    "raised-ttls": raised_ttls,
    "nsec3": nsec3,
    "first-keys-ended-early": first_keys_ended_early,
    "ended-early-beside": ended_early_beside,
    **{name: one_roll(name) for name in KEYS},
    "csks": csks,
    "slow-parent": slow_parent,
    "ksk-beside-zsk": beside(KSK, ZSK),
    "double-ds-beside-double-signature": beside(DOUBLE_DS, DOUBLE_SIGNATURE),
    **{f"{name}-ended-early": ended_early(name) for name in KEYS},
    "unsigned": unsigned,
}
