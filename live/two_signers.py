"""The scenes of two signers: docs/OPERATORS.md, "A zone with two signers", and docs/RUNBOOKS.md,
"Two signers"."""

import asyncio

from emergencies import restless
from one_signer import KEYS, hold_back, start_unsigned
from places import CHILD
from provider import Provider
from rolls import ALGORITHM, CSK, DOUBLE_DS, KSK, ZSK, Roll


def providers(zone):
    return [Provider(zone, CHILD[letter], letter) for letter in "AB"]


def shared(provider, refs):
    """Those of some of its keys that the other publishes too."""
    keys = [provider.keys[f"{provider.letter}{ref}"] for ref in refs]
    return [key for key in keys if key.kind != "ksk"]


async def in_step(signers, old, new):
    """Both make an `algorithm-roll`. Each makes a call only when both have made the one before."""
    await go_on_in_step(await start_in_step(signers, old, new))
    for signer, other in (signers, signers[::-1]):
        keys = shared(signer, old)
        if keys and signer.version.dnskey:
            await other.take_out(*keys)


async def start_in_step(signers, old, new):
    rolls = [Roll(signer, ALGORITHM) for signer in signers]
    for signer, other in (signers, signers[::-1]):
        for key in shared(signer, new):
            other.add_public(key)
    for roll in rolls:
        await roll.started(old, new)
    return rolls


async def algorithms_ended_early(zone):
    """Both end a change of the algorithm early, in step, and begin it again."""
    signers = await in_step_keys(zone, "K1", "Z1")
    for signer in signers:
        await signer.make("K2", "Z2", "K3", "Z3", algorithm=15)
    rolls = await start_in_step(signers, ["K1", "Z1"], ["K2", "Z2"])
    await both_perform(rolls)
    for roll in rolls:
        await roll.make(lambda: f"abort {ALGORITHM}")
    await both_perform(rolls)
    for signer, other in (signers, signers[::-1]):
        await other.take_out(*shared(signer, ["Z2"]))
    await in_step(signers, ["K1", "Z1"], ["K3", "Z3"])


async def go_on_in_step(rolls):
    await both_perform(rolls)
    await asyncio.gather(*(roll.report(1) for roll in rolls))
    await change_in_step(rolls)
    await asyncio.gather(*(roll.report(2) for roll in rolls))
    await end_in_step(rolls)


async def both_perform(rolls):
    """Both do what the last answers ask. Then both watch."""
    for roll in rolls:
        await roll.provider.act(roll.actions)
    for roll in rolls:
        await roll.watch()


async def change_in_step(rolls):
    """After both waits are accepted, the parent makes one change for both."""
    await rolls[0].accepted(1)
    # (It is the turn of both.)
    rolls[1].has_turn = True
    await rolls[1].accepted(1)
    rolls[1].has_turn = False
    await rolls[0].perform()


async def end_in_step(rolls):
    for roll in rolls:
        await roll.accepted(2)
    await both_perform(rolls)
    for roll in rolls:
        await roll.done()


async def in_step_keys(zone, *refs, algorithm=13):
    """Two signers with first keys that go in step."""
    signers = providers(zone)
    for signer in signers:
        await signer.make(*refs, algorithm=algorithm)
    await in_step(signers, (), refs)
    zone.is_secure()
    return signers


async def roll_of_one(signer, other, name, old, new):
    """A roll of one signer. The other publishes its new ZSKs and CSKs before the first report, and
    its old ones until after the second wait (rule 1 of two signers)."""
    await signer.make(*new)
    if keys := shared(signer, new):
        await other.take_in(*keys)
    leaving = shared(signer, old)
    await Roll(signer, name).whole(old, new)
    if leaving:
        await other.take_out(*leaving)


async def in_step_and_unsigned(zone):
    """First keys in step. Then both go unsigned in step, and come back with other keys."""
    signers = await in_step_keys(zone, "K1", "Z1")
    await asyncio.sleep(zone.longest() + 4)
    await unsigned_in_step(signers, "K1", "Z1")
    for signer in signers:
        await signer.make("C1", algorithm=15)
    await in_step(signers, (), ["C1"])
    zone.is_secure()
    await asyncio.sleep(zone.longest() + 4)


async def unsigned_in_step(signers, *old):
    """docs/EMERGENCY.md, "Going unsigned", by both in step."""
    zone = signers[0].zone
    zone.clients.secure_from = float("inf")
    rolls = [start_unsigned(signer, *old) for signer in signers]
    await change_in_step(rolls)
    await asyncio.gather(*(roll.report(2) for roll in rolls))
    await asyncio.gather(*(hold_back(roll) for roll in rolls))
    await end_in_step(rolls)
    for signer in signers:
        for ref in (*map(signer.named, old), "none"):
            signer.call(f"delete {ref}")


async def rolls_of_each(zone):
    """Each rolls its KSK and its ZSK, one after the other."""
    a, b = await in_step_keys(zone, "K1", "Z1")
    await roll_of_one(a, b, ZSK, ["Z1"], ["Z2"])
    await roll_of_one(b, a, KSK, ["K1"], ["K2"])
    await roll_of_one(a, b, DOUBLE_DS, ["K1"], ["K2"])
    await roll_of_one(b, a, ZSK, ["Z1"], ["Z2"])


async def csk_rolls_of_each(zone):
    """Each goes from a KSK and a ZSK to a CSK."""
    a, b = await in_step_keys(zone, "K1", "Z1")
    await roll_of_one(a, b, CSK, ["K1", "Z1"], ["C2"])
    await roll_of_one(b, a, CSK, ["K1", "Z1"], ["C2"])
    await roll_of_one(a, b, CSK, ["C2"], ["K3", "Z3"])


def at_once(of_a, of_b):
    """Both roll at once."""

    async def scene(zone):
        a, b = await in_step_keys(zone, "K1", "Z1")
        refs = {KSK: "K", DOUBLE_DS: "K", ZSK: "Z"}
        await asyncio.gather(*(
            roll_of_one(signer, other, name, [f"{refs[name]}1"], [f"{refs[name]}2"])
            for signer, other, name in ((a, b, of_a), (b, a, of_b))
        ))

    return scene


async def algorithms(zone):
    """Both change the algorithm, in step."""
    signers = await in_step_keys(zone, "K1", "Z1")
    for signer in signers:
        await signer.make("K2", "Z2", algorithm=15)
    await in_step(signers, ["K1", "Z1"], ["K2", "Z2"])


async def alone(zone, *refs):
    """A, which has all servers. A signer that the NS sets don't name has no servers here: the ones
    at its addresses give the other's versions."""
    a = Provider(zone, zone.servers, "A")
    await a.make(*refs)
    await Roll(a, ALGORITHM).whole([], refs)
    zone.is_secure()
    return a


async def join_and_leave(zone):
    """B joins A, each rolls its ZSK, A leaves, and B rolls its KSK."""
    a = await alone(zone, "K1", "Z1")
    b = await join(a, ["Z1"], ["K1", "Z1"])
    await roll_of_one(b, a, ZSK, ["Z1"], ["Z2"])
    await roll_of_one(a, b, ZSK, ["Z1"], ["Z2"])
    await leave(a, b)
    await roll_of_one(b, a, KSK, ["K1"], ["K2"])


async def rolls_while_joining(zone):
    """A rolls its KSK and its ZSK while B joins."""
    a = await alone(zone, "K1", "Z1")
    await a.make("K2")
    await asyncio.gather(
        Roll(a, KSK).whole(["K1"], ["K2"]),
        join(a, ["Z1"], ["K1", "Z1"], lambda b: roll_of_one(a, b, ZSK, ["Z1"], ["Z2"])),
    )


async def leaves_in_mid_roll(zone):
    """A leaves in the middle of its own KSK roll, while B rolls its KSK and its ZSK."""
    a, b = await in_step_keys(zone, "K1", "Z1")
    await a.make("K2")
    roll = Roll(a, KSK)
    await roll.start(["K1"], ["K2"])
    await roll.report(1)
    await roll.wait(1)
    await b.make("K2", "Z2")
    await a.take_in(*shared(b, ["Z2"]))

    async def leaves():
        await asyncio.sleep(zone.dice.uniform(0, 6))
        await leave(a, b)

    await asyncio.gather(
        leaves(), Roll(b, KSK).whole(["K1"], ["K2"]), Roll(b, ZSK).whole(["Z1"], ["Z2"])
    )


async def csk_joins_and_leaves(zone):
    """B joins with a CSK, while TTLs rise and fall, and leaves again."""
    a = await alone(zone, "C1")
    async with restless(a):
        b = await join(a, ["C1"], ["C1"])
        async with restless(b):
            await roll_of_one(b, a, CSK, ["C1"], ["C2"])
        await leave(b, a)
        await roll_of_one(a, b, CSK, ["C1"], ["K2", "Z2"])


async def join(a, of_a, refs, meanwhile=None, letter="B"):
    """The table "B joins". The rolls beside it begin once each signer has the other's keys."""
    zone = a.zone
    b = Provider(zone, [], letter)
    await b.make(*refs)
    for key in shared(a, of_a):
        b.add_public(key)
    roll = Roll(b, ALGORITHM)
    await roll.started([], refs)
    await b.act(roll.actions)
    await a.take_in(*shared(b, refs))
    await roll.watch()
    going = meanwhile and asyncio.ensure_future(meanwhile(b))
    await roll.finish()
    await is_named(a, b)
    if going:
        await going
    return b


async def is_named(a, b):
    """The NS sets name the servers of who joins only after its second wait."""
    a.servers, b.servers = CHILD[a.letter], CHILD[b.letter]
    await b.publish()
    await b.watch()


async def leave(a, b):
    """The table "A leaves"."""
    zone = a.zone
    # The old NS sets leave the caches.
    await asyncio.sleep(max(a.ttls.zone, b.ttls.zone))
    a.servers, b.servers = [], zone.servers
    await b.publish()
    await b.watch()
    await asyncio.sleep(a.longest_held())
    async with zone.turn:
        zone.providers.remove(a)
        zone.cds = zone.ds_keys()
        await b.publish()
        await b.watch()
        await zone.change_ds(zone.ds_keys())
        await zone.watch_ds()
        await b.take_cds_out()
    await b.take_out(*(key for key in b.version.dnskey if not b.is_own(key)))


async def changing_ttls(zone):
    """Both roll at once while their TTLs rise and fall."""
    a, b = await in_step_keys(zone, "K1", "Z1")
    async with restless(a), restless(b):
        await asyncio.gather(
            roll_of_one(a, b, ZSK, ["Z1"], ["Z2"]), roll_of_one(b, a, KSK, ["K1"], ["K2"])
        )
        await asyncio.gather(
            roll_of_one(a, b, KSK, ["K1"], ["K2"]), roll_of_one(b, a, ZSK, ["Z1"], ["Z2"])
        )


def ended_early(name):
    """A roll of A is ended early, and begun again with another key, while B rolls its KSK."""

    async def scene(zone):
        a, b = await in_step_keys(zone, "K1", "Z1")
        await b.make("K2")
        await asyncio.gather(
            early_and_anew(a, b, name), Roll(b, KSK).whole(["K1"], ["K2"])
        )

    return scene


async def early_and_anew(a, b, name):
    old, new, third = KEYS[name]
    await a.make(*new)
    keys = shared(a, new)
    if keys:
        await b.take_in(*keys)
    roll = Roll(a, name)
    await roll.start(old, new)
    await roll.abort()
    for ref in new:
        a.call(f"set-stale {a.named(ref)}")
    if keys:
        await b.take_out(*keys)
    await roll_of_one(a, b, name, old, third)


HONEST = {
    "two-changing-ttls": changing_ttls,
    **{f"two-{name}-ended-early": ended_early(name) for name in (ZSK, DOUBLE_DS, CSK)},
    "two-in-step-and-unsigned": in_step_and_unsigned,
    "two-rolls-of-each": rolls_of_each,
    "two-csk-rolls-of-each": csk_rolls_of_each,
    "two-zsk-rolls-at-once": at_once(ZSK, ZSK),
    "two-ksk-rolls-at-once": at_once(KSK, DOUBLE_DS),
    "two-ksk-and-zsk-roll-at-once": at_once(KSK, ZSK),
    "two-algorithms": algorithms,
    "two-algorithms-ended-early": algorithms_ended_early,
    "two-join-and-leave": join_and_leave,
    "two-csk-joins-and-leaves": csk_joins_and_leaves,
    "two-rolls-while-joining": rolls_while_joining,
    "two-leaves-in-mid-roll": leaves_in_mid_roll,
}
