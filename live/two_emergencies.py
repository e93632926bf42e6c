"""Honest scenes of two signers: keys that are lost, new scripts, who joins or leaves in the middle
of something."""

import asyncio

from emergencies import begin_signed, bring_in
from one_signer import KEYS, hold_back, start_unsigned
from provider import Provider
from rolls import ALGORITHM, CSK, DOUBLE_DS, KSK, ZSK, Roll
from two_signers import (
    alone, both_perform, change_in_step, end_in_step, in_step_keys, is_named, join, leave,
    roll_of_one, shared, start_in_step,
)


async def lost_ksk(zone):
    """A's KSK is lost. Meanwhile B rolls its KSK, for which CDS can't be signed by A."""
    a, b = await in_step_keys(zone, "K1", "Z1")
    a.keys["AK1"].lost = True
    await asyncio.gather(
        roll_of_one(a, b, DOUBLE_DS, ["K1"], ["K2"]), roll_of_one(b, a, KSK, ["K1"], ["K2"])
    )
    await roll_of_one(b, a, ZSK, ["Z1"], ["Z2"])


def lost_zone_key(*refs):
    """A's ZSK or CSK is lost. A leaves, and joins again with new keys."""

    async def scene(zone):
        a, b = await in_step_keys(zone, *refs)
        a.keys[f"A{refs[-1]}"].lost = True
        await leave(a, b)
        again = [f"{ref[0]}3" for ref in refs]
        await join(b, [refs[-1]], again, letter="A")

    return scene


async def joins_twice(zone):
    """B's first keys are ended early, and B joins with other keys."""
    a = await alone(zone, "K1", "Z1")
    b = Provider(zone, [], "B")
    await b.make("K1", "Z1")
    for key in shared(a, ["Z1"]):
        b.add_public(key)
    roll = Roll(b, ALGORITHM)
    await roll.started([], ["K1", "Z1"])
    await b.act(roll.actions)
    await a.take_in(*shared(b, ["Z1"]))
    await roll.watch()
    await roll.abort()
    await a.take_out(*shared(b, ["Z1"]))
    for ref in ("BK1", "BZ1"):
        b.call(f"set-stale {ref}")
    await roll_of_one(a, b, ZSK, ["Z1"], ["Z2"])
    await b.make("K2", "Z2")
    await a.take_in(*shared(b, ["Z2"]))
    await Roll(b, ALGORITHM).whole([], ["K2", "Z2"])
    await is_named(a, b)
    await roll_of_one(b, a, KSK, ["K2"], ["K3"])


async def of_two_kinds(zone):
    """A has a CSK, and B a KSK and a ZSK. Each rolls all its keys."""
    a = await alone(zone, "C1")
    b = await join(a, ["C1"], ["K1", "Z1"])
    await asyncio.gather(
        roll_of_one(a, b, CSK, ["C1"], ["C2"]), roll_of_one(b, a, ZSK, ["Z1"], ["Z2"])
    )
    await roll_of_one(b, a, DOUBLE_DS, ["K1"], ["K2"])
    await roll_of_one(b, a, CSK, ["K2", "Z2"], ["C3"])
    await leave(b, a)
    await roll_of_one(a, b, CSK, ["C2"], ["K3", "Z3"])


def leaves_in_algorithm_roll(is_halfway):
    """A leaves in the middle of a change of the algorithm that both make in step. Then B goes on
    with it alone."""

    async def scene(zone):
        signers = a, b = await in_step_keys(zone, "K1", "Z1")
        for signer in signers:
            await signer.make("K2", "Z2", algorithm=15)
        rolls = await start_in_step(signers, ["K1", "Z1"], ["K2", "Z2"])
        await both_perform(rolls)
        await asyncio.gather(*(roll.report(1) for roll in rolls))
        if is_halfway:
            await change_in_step(rolls)
            await rolls[1].report(2)
        await leave(a, b)
        if not is_halfway:
            await rolls[1].wait(1)
            await rolls[1].report(2)
        await end_in_step(rolls[1:])

    return scene


def leaves_in_own_roll(name, old, new):
    """A leaves in the middle of its own roll, which stays where it is. Then B rolls its KSK."""

    async def scene(zone):
        a, b = await in_step_keys(zone, "K1", "Z1")
        await a.make(*new)
        await b.take_in(*shared(a, new))
        roll = Roll(a, name)
        await roll.start(old, new)
        await roll.report(1)
        await roll.wait(1)
        await leave(a, b)
        await roll_of_one(b, a, KSK, ["K1"], ["K2"])

    return scene


async def unsigned_in_mid_roll(zone):
    """Both go unsigned in step. A roll of A can't be ended: A does it by setters."""
    signers = a, b = await in_step_keys(zone, "K1", "Z1")
    await asyncio.sleep(zone.longest() + 4)
    await a.make("K2")
    roll = Roll(a, KSK)
    await roll.start(["K1"], ["K2"])
    await roll.report(1)
    zone.clients.secure_from = float("inf")
    leaving = start_unsigned(b, "K1", "Z1")
    for ref in a.script.sets["ds"]:
        a.call(f"set-at-parent {ref} no", may_break=True)
    await leaving.wait(1)
    await leaving.report(2)
    await hold_back(leaving)
    for ref in ("AK1", "AK2", "AZ1"):
        a.call(f"set-stale {ref}", may_break=True)
    await leaving.accepted(2)
    for signer in signers:
        await signer.act(leaving.actions)
    for signer in signers:
        await signer.watch()


def stolen_new_key(name):
    """A's new key is stolen after its first report, and another one takes its place, also in the
    DNSKEY set of B. Then A begins a new script."""

    async def scene(zone):
        a, b = await in_step_keys(zone, "K1", "Z1")
        old, (new,), (third,) = KEYS[name]
        await a.make(new, third)
        await b.take_in(*shared(a, [new]))
        roll = Roll(a, name)
        await roll.start(old, [new])
        await roll.report(1)
        a.call(f"set-stale {a.named(new)}")
        await b.take_out(*shared(a, [new]))
        await b.take_in(*shared(a, [third]))
        roll.may_break = True
        await bring_in(roll, a.named(third))
        for call in (roll.wait(1), roll.report(2), roll.wait(2), roll.done()):
            await call
        await b.take_out(*shared(a, old))
        await asyncio.sleep(zone.longest() + 1)
        begin_anew(a, b, ["Z1"], ["K1", third] if name == ZSK else [third])
        await roll_of_one(a, b, name, [third], [f"{third[0]}4"])

    return scene


def begin_anew(signer, other, of_other, refs):
    """A new script takes the place of a signer's."""
    signer.begin_script()
    for key in shared(other, of_other):
        signer.add_public(key)
    begin_signed(signer, [signer.named(ref) for ref in refs])


async def new_scripts(zone):
    """A new script takes the place of each script. Then each rolls, the other's ZSK in its set."""
    signers = a, b = await in_step_keys(zone, "K1", "Z1")
    await asyncio.sleep(zone.longest() + 1)
    for signer, other in (signers, signers[::-1]):
        begin_anew(signer, other, ["Z1"], ["K1", "Z1"])
    await asyncio.gather(
        roll_of_one(a, b, ZSK, ["Z1"], ["Z2"]), roll_of_one(b, a, KSK, ["K1"], ["K2"])
    )


HONEST = {
    "two-lost-ksk": lost_ksk,
    "two-lost-zsk": lost_zone_key("K1", "Z1"),
    "two-lost-csk": lost_zone_key("C1"),
    "two-joins-twice": joins_twice,
    "two-kinds": of_two_kinds,
    "two-leaves-in-zsk-roll": leaves_in_own_roll(ZSK, ["Z1"], ["Z2"]),
    "two-leaves-in-csk-roll": leaves_in_own_roll(CSK, ["K1", "Z1"], ["C2"]),
    "two-unsigned-in-mid-roll": unsigned_in_mid_roll,
    "two-new-scripts": new_scripts,
    **{f"two-{name}-stolen-new-key": stolen_new_key(name) for name in (ZSK, CSK)},
    "two-leaves-in-algorithm-roll": leaves_in_algorithm_roll(False),
    "two-leaves-late-in-algorithm-roll": leaves_in_algorithm_roll(True),
}
