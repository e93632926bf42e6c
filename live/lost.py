"""Honest scenes: docs/EMERGENCY.md, "A private key is lost"."""

import asyncio

from emergencies import before_roll, new_algorithm, replaced, reported
from one_signer import KEYS, first_keys, go_unsigned, keys_again
from rolls import ALGORITHM, CSK, DOUBLE_DS, DOUBLE_SIGNATURE, KSK, ZSK, Roll

# What the key of each kind, by the letter of its reference, would have to sign.
SIGNS = {"K": {"UpdateDnskeyRrset"}, "Z": {"UpdateRrsig"}, "C": {"UpdateDnskeyRrset"}}


async def roll_lost(provider, ref, new, algorithm=13):
    """By the rows of a KSK, a ZSK and a CSK, when no roll is in progress."""
    if ref[0] == "C":
        await go_unsigned(provider, ref)
        return
    await provider.make(new, algorithm=algorithm)
    await Roll(provider, DOUBLE_DS if ref[0] == "K" else ZSK).whole([ref], [new])


def lost(ref):
    """A private key is lost, when no roll is in progress. The zone of a lost CSK comes back."""

    async def scene(zone):
        provider = await first_keys(zone, *(["C1"] if ref == "C1" else ["K1", "Z1"]))
        await asyncio.sleep(zone.longest() + 4)
        provider.keys[ref].lost = True
        await roll_lost(provider, ref, f"{ref[0]}2")
        if ref == "C1":
            await keys_again(provider, "C3")

    return scene


def in_mid_roll(name, ref):
    """A new key is lost after the first wait. The calls are made to the end, and the set that it
    would have to sign stays as it is. Then comes a third key."""

    async def scene(zone):
        roll = await reported(zone, name)
        provider = roll.provider
        await roll.wait(1)
        provider.keys[ref].lost = True
        await roll.report(2)
        await roll.accepted(2)
        roll.actions = [action for action in roll.actions if action not in SIGNS[ref[0]]]
        await roll.perform()
        await roll.done()
        await roll_lost(provider, ref, f"{ref[0]}3", new_algorithm(name))

    return scene


def old_key(name, ref, new=None):
    """An old key is lost when the new keys are published, and the roll goes on. A zone whose CSK is
    lost doesn't change until its signatures leave."""

    async def scene(zone):
        of_csk = ref == "C1"
        provider = await first_keys(zone, *(["C1"] if of_csk else ["K1", "Z1"]))
        old = ["C1"] if of_csk else KEYS[name][0]
        coming = new or KEYS[name][1]
        await provider.make(*coming, algorithm=new_algorithm(name))
        roll = Roll(provider, name)
        await roll.start(old, coming)
        provider.keys[ref].lost = True
        if not of_csk:
            await provider.publish()
            await provider.watch()
        await roll.finish()
        for gone in old:
            provider.call(f"delete {gone}")

    return scene


async def ended_early(zone):
    """The KSK is lost, and the Double-DS roll to another is ended early, and begun anew."""
    provider = await first_keys(zone, "K1", "Z1")
    provider.keys["K1"].lost = True
    await provider.make("K2", "K3")
    roll = Roll(provider, DOUBLE_DS)
    await roll.start(["K1"], ["K2"])
    await roll.abort()
    await Roll(provider, DOUBLE_DS).whole(["K1"], ["K3"])


def before_publishing(name, ref):
    """An old key is lost before anything of the start is published. The roll is ended early."""

    async def scene(zone):
        roll, old, new = await before_roll(zone, name)
        provider = roll.provider
        await roll.started(old, new)
        provider.keys[ref].lost = True
        await roll.abort()
        await roll_lost(provider, ref, f"{ref[0]}4")

    return scene


def after_wait(name):
    """A new key is lost when the first wait is accepted, and nothing is published for it. Its line
    is taken out, and another key comes in the place of the lost one."""

    async def scene(zone):
        roll, (old, new, third) = await reported(zone, name), KEYS[name]
        provider, script = roll.provider, roll.provider.script
        lines, sets, actions = list(script.lines), script.sets, roll.actions
        await roll.accepted(1)
        provider.keys[new[0]].lost = True
        script.lines, script.sets, roll.actions = lines, sets, actions
        await replaced(roll, old, new[0], third[0])

    return scene


def ksk_beside(name):
    """The KSK is lost during a roll of ZSKs, which doesn't change the DNSKEY set until the first
    wait of the Double-DS roll."""

    async def scene(zone):
        provider = await first_keys(zone, "K1", "Z1")
        await provider.make("Z2", "K2")
        zsk, ksk = Roll(provider, name), Roll(provider, DOUBLE_DS)
        await zsk.start(["Z1"], ["Z2"])
        provider.keys["K1"].lost = True
        await zsk.report(1)
        if name == ZSK:
            await zsk.wait(1)
            await zsk.report(2)
        await ksk.start(["K1"], ["K2"])
        await ksk.report(1)
        await ksk.wait(1)
        if name == DOUBLE_SIGNATURE:
            await zsk.wait(1)
            await zsk.report(2)
        await asyncio.gather(ends(zsk), ends(ksk, 2))

    return scene


async def ends(roll, *reports):
    for number in reports:
        await roll.report(number)
    await roll.wait(2)
    await roll.done()


def zsk_beside(name, stays=True):
    """The ZSK is lost during a roll of KSKs. The old KSK, which signs in its place, stays until the
    second wait of the ZSK roll, unless there is a lie."""

    async def scene(zone):
        zone.ttls.zone = 8 if stays else 30
        provider = await first_keys(zone, "K1", "Z1")
        await provider.make("K2", "Z2")
        ksk, zsk = Roll(provider, name), Roll(provider, ZSK)
        await ksk.start(["K1"], ["K2"])
        await ksk.report(1)
        provider.keys["Z1"].lost = True
        await provider.publish()
        await provider.watch()
        if name == KSK or not stays:
            await ksk.wait(1)
            await ksk.report(2)
        await zsk.whole(["Z1"], ["Z2"])
        if name == DOUBLE_DS and stays:
            await ksk.wait(1)
            await ksk.report(2)
        await ends(ksk)

    return scene


HONEST = {
    **{f"lost-{kind}": lost(ref) for kind, ref in (("ksk", "K1"), ("zsk", "Z1"), ("csk", "C1"))},
    "lost-ksk-ended-early": ended_early,
    **{
        f"{name}-new-{kind}-lost-later": in_mid_roll(name, ref)
        for name, kind, ref in (
            (KSK, "ksk", "K2"), (DOUBLE_DS, "ksk", "K2"), (ZSK, "zsk", "Z2"),
            (DOUBLE_SIGNATURE, "zsk", "Z2"), (CSK, "csk", "C2"), (ALGORITHM, "ksk", "K2"),
            (ALGORITHM, "zsk", "Z2"),
        )
    },
    **{
        f"{name}-old-key-lost": old_key(name, ref)
        for name, ref in (
            (KSK, "K1"), (DOUBLE_DS, "K1"), (ZSK, "Z1"), (DOUBLE_SIGNATURE, "Z1"), (CSK, "Z1"),
            (ALGORITHM, "Z1"),
        )
    },
    **{f"{name}-old-ksk-lost": old_key(name, "K1") for name in (CSK, ALGORITHM)},
    **{f"{name}-old-csk-lost": old_key(name, "C1", ["C2"]) for name in (CSK, ALGORITHM)},
    **{
        f"{name}-old-{kind}-lost-before": before_publishing(name, ref)
        for name, kind, ref in (
            (KSK, "ksk", "K1"), (DOUBLE_SIGNATURE, "zsk", "Z1"), (ALGORITHM, "ksk", "K1"),
            (ALGORITHM, "zsk", "Z1"),
        )
    },
    **{f"{name}-new-key-lost-at-wait": after_wait(name) for name in (DOUBLE_DS, ZSK, CSK)},
    **{f"lost-ksk-beside-{name}": ksk_beside(name) for name in (ZSK, DOUBLE_SIGNATURE)},
    **{f"lost-zsk-beside-{name}": zsk_beside(name) for name in (KSK, DOUBLE_DS)},
}
