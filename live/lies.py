"""Scenes with one lie. Each has to show failures, else the honest scenes prove nothing."""

import asyncio
import time

from emergencies import reported
from lost import zsk_beside
from one_signer import KEYS, first_keys, with_least_ttl
from rolls import ALGORITHM, DOUBLE_DS, DOUBLE_SIGNATURE, KSK, ZSK, Roll, spoken_of
from script import rounded_down
from two_signers import (
    both_perform, end_in_step, in_step_keys, providers, shared, start_in_step,
)

AHEAD = 100_000


class RollAheadOfTheClock(Roll):
    """Each wait is made at once, with a moment far ahead of the clock."""

    async def wait(self, number):
        await self.make(lambda: f"wait{number} {self.name} {rounded_down() + AHEAD}")
        await self.perform()


class RollOfTtl0(Roll):
    """Each report has a TTL of 0."""

    async def report(self, number, ttl=None):
        await super().report(number, 0)


class RollBeforePublishing(Roll):
    """The first report is made when nothing is published yet; all is published at the first
    wait."""

    async def start(self, old, new):
        await self.started(old, new)

    async def wait(self, number):
        late = self.actions if number == 1 else []
        await self.accepted(number)
        self.actions = [*late, *self.actions]
        await self.perform()


class RollWithTheOriginalsWait(Roll):
    """The original takes the second wait of a Double-DS roll for over at once, as if the old DNSKEY
    set had a TTL of 0 (docs/DIFFERENCES.md)."""

    async def report(self, number, ttl=None):
        await super().report(number, 0 if number == 2 else ttl)


class RollWithoutTheOther(Roll):
    """The TTLs of the other signer's DNSKEY sets are left out."""

    def ttl(self, number, moment):
        kinds = spoken_of(self.actions)
        return max(self.provider.notes.highest(kind, moment) for kind in kinds)


LIES = {
    "wait-ahead-of-the-clock": RollAheadOfTheClock,
    "ttl-of-0": RollOfTtl0,
    "report-before-publishing": RollBeforePublishing,
}
# The TTL of the set that caches have to hold for the lie to show: if the operator waits for that
# set too, and if not.
LONG, LONGER = 20, 60


def long_kind(name, roll):
    """The kind of the set whose old version breaks the zone because of a lie."""
    if roll is RollWithTheOriginalsWait:
        return "dnskey"
    if name == DOUBLE_DS:
        return "ds"
    is_of_ds = name not in (ZSK, DOUBLE_SIGNATURE) and roll is not RollBeforePublishing
    return "ds" if is_of_ds else "dnskey"


def lying(name, roll):
    """Rolls with a lie, in a zone with TTLs that let it show."""

    async def scene(zone):
        zone.reads_cds = False
        zone.ttls.zone, zone.ttls.dnskey, zone.ttls.ds = 3, 2, 2
        long = LONG if roll is RollBeforePublishing else LONGER
        setattr(zone.ttls, long_kind(name, roll), long)
        provider = await first_keys(zone, "K1", "Z1")
        old, *more = KEYS[name]
        for new, algorithm in zip(more, (15, 13)):
            await provider.make(*new, algorithm=algorithm if name == ALGORITHM else 13)
            await roll(provider, name).whole(old, new)
            old = new

    return scene


async def ttl_of_the_other(zone):
    a, b = await in_step_keys(zone, "K1", "Z1")
    # (Until each resolver has come to B's servers once, whichever it likes best.)
    a.ttls.dnskey, b.ttls.dnskey = 2, 2 * LONGER
    await b.publish()
    await b.watch()
    await asyncio.sleep(LONGER / 2)
    await a.make("Z2")
    await b.take_in(*shared(a, ["Z2"]))
    await RollWithoutTheOther(a, ZSK).whole(["Z1"], ["Z2"])


async def ds_of_one_signer(zone):
    """A's first keys don't go in step with B: its DS is published while B's zone is unsigned."""
    a, _ = providers(zone)
    await a.make("K1", "Z1")
    await Roll(a, ALGORITHM).whole([], ["K1", "Z1"])


async def ends_before_who_leaves(zone):
    """A leaves in the middle of a change of the algorithm, and B ends it while A has its DS."""
    signers = await in_step_keys(zone, "K1", "Z1")
    for signer in signers:
        await signer.make("K2", "Z2", algorithm=15)
    rolls = await start_in_step(signers, ["K1", "Z1"], ["K2", "Z2"])
    await both_perform(rolls)
    await asyncio.gather(*(roll.report(1) for roll in rolls))
    await rolls[1].wait(1)
    await rolls[1].report(2)
    await end_in_step(rolls[1:])


async def least_ttl_left_out(zone):
    """A resolver's cache keeps all sets longer than their TTL, and that isn't counted."""
    await with_least_ttl(zone)


async def lost_before_its_signatures(zone):
    """A new ZSK is lost when the first wait is accepted, before it has signed the zone, and the
    calls are made to the end, as if it had."""
    provider = await first_keys(zone, "K1", "Z1")
    await provider.make("Z2")
    roll = Roll(provider, ZSK)
    await roll.start(["Z1"], ["Z2"])
    await roll.report(1)
    await roll.accepted(1)
    await provider.watch()
    await roll.report(2)
    await roll.wait(2)
    await asyncio.sleep(zone.longest())


# How long a resolver may repeat that something is bogus (Unbound, `val-bogus-ttl`).
BOGUS = 60


async def taken_back(zone):
    """docs/EMERGENCY.md, "A false line was accepted": a first wait was accepted because of a digit
    too many, and acted upon. Its line is removed, and what it has published. Then the roll goes on,
    and nobody sees a fault."""
    # (Caches hold the DNSKEY set of the first keys until after the false change.)
    zone.ttls.zone, zone.ttls.dnskey, zone.ttls.ds = 3, LONGER, 2
    roll = await reported(zone, KSK)
    await take_back(roll)
    zone.clients.mended = time.time() + zone.ttls.ds + BOGUS
    for call in (roll.wait(1), roll.report(2), roll.wait(2), roll.done()):
        await call
    await asyncio.sleep(zone.clients.mended - time.time())
    await roll.provider.make("Z2")
    await Roll(roll.provider, ZSK).whole(["Z1"], ["Z2"])


async def take_back(roll):
    """Accepts a false first wait and acts upon it, and then removes both."""
    provider, script = roll.provider, roll.provider.script
    before = len(script.lines), script.sets
    await roll.make(lambda: f"wait1 {KSK} {rounded_down()}0")
    await roll.perform()
    await asyncio.sleep(2)
    # (The parent has ended the false change.)
    del script.lines[before[0]:]
    script.sets = before[1]
    await provider.act(["CreateCdsRrset", "UpdateDsRrset"])
    await roll.zone.watch_ds()
    await provider.take_cds_out()


async def signatures_not_renewed(zone):
    provider = await first_keys(zone, "K1", "Z1")
    provider.signing.lifetime = 10
    await provider.publish()
    await asyncio.sleep(12)


LYING = {
    **{f"{name}-{lie}": lying(name, roll) for lie, roll in LIES.items() for name in KEYS},
    f"{DOUBLE_DS}-wait-of-the-original": lying(DOUBLE_DS, RollWithTheOriginalsWait),
    "signatures-not-renewed": signatures_not_renewed,
    "least-ttl-left-out": least_ttl_left_out,
    "lost-before-its-signatures": lost_before_its_signatures,
    "lost-zsk-whose-ksk-leaves": zsk_beside(DOUBLE_DS, stays=False),
    "false-line-taken-back": taken_back,
}
LYING_TWO = {
    "two-ttl-of-the-other-left-out": ttl_of_the_other,
    "two-ds-of-one-signer-too-early": ds_of_one_signer,
    "two-ends-in-step-before-who-leaves": ends_before_who_leaves,
}
