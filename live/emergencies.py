"""Honest scenes: from docs/EMERGENCY.md, with TTLs that change in mid-roll, with new scripts. Those
of lost keys are in lost.py."""

import asyncio
from contextlib import asynccontextmanager

from one_signer import KEYS, first_keys, go_unsigned, keys_again, roll_twice
from processes import SceneFailure
from provider import Provider
from rolls import ALGORITHM, CSK, DOUBLE_DS, DOUBLE_SIGNATURE, KSK, ZSK, Roll, at_moment
from script import CallRefusal, rounded_down, rounded_up

# For each roll the setters that bring in another new key, and those of its stamps.
REPLACING = {
    KSK: (("set-present", "set-signer"), ("set-visible",)),
    DOUBLE_DS: (("set-at-parent",), ("set-ds-visible",)),
    ZSK: (("set-present",), ("set-visible",)),
    DOUBLE_SIGNATURE: (("set-present", "set-signer"), ("set-visible", "set-rrsig-visible")),
    CSK: (("set-present", "set-signer"), ("set-visible", "set-rrsig-visible")),
    ALGORITHM: (("set-present", "set-signer"), ("set-visible", "set-rrsig-visible")),
}

# A CSK leaves, or there is no key before.
FROM_CSK = ["C1"], ["K2", "Z2"], ["K3", "Z3"]
FIRST = [], ["K1", "Z1"], ["K3", "Z3"]
# The keys that a new script brings in, when the old one is lost after the first wait of a roll.
LEFT = {
    KSK: ("K2", "Z1"), DOUBLE_DS: ("K2", "Z1"), ZSK: ("K1", "Z2"), CSK: ("C2",),
    ALGORITHM: ("K2", "Z1", "Z2"),
}


def new_algorithm(name):
    return 15 if name == ALGORITHM else 13


async def before_roll(zone, name):
    """A roll that can start, after the first keys, with its old keys and its new ones."""
    provider = await first_keys(zone, "K1", "Z1")
    old, new, _ = KEYS[name]
    await provider.make(*new, algorithm=new_algorithm(name))
    return Roll(provider, name), old, new


async def reported(zone, name):
    """A roll that has come to its first wait."""
    roll, old, new = await before_roll(zone, name)
    await roll.start(old, new)
    await roll.report(1)
    return roll


def stolen_new_key(name, number=0, keys=None):
    """ "Another new key in mid-roll": a new key is stolen after the first report, and another one
    replaces it."""

    async def scene(zone):
        old, new, third = keys or KEYS[name]
        provider = Provider(zone, zone.servers)
        if old:
            provider = await first_keys(zone, *(old if keys else ["K1", "Z1"]))
        await provider.make(*new, algorithm=new_algorithm(name))
        roll = Roll(provider, name)
        await roll.start(old, new)
        await roll.report(1)
        await replaced(roll, old, new[number], third[number])

    return scene


async def replaced(roll, old, stolen, other):
    """Another new key comes in the place of a stolen or lost one. Then a new script begins."""
    provider = roll.provider
    provider.call(f"set-stale {stolen}")
    await provider.make(other, algorithm=provider.keys[stolen].algorithm)
    roll.may_break = True
    await bring_in(roll, other)
    for call in (roll.wait(1), roll.report(2), roll.wait(2), roll.done()):
        await call
    if not old:
        provider.zone.is_secure()
    for ref in (*old, stolen):
        provider.call(f"delete {ref}", may_break=True)
    await new_script(provider)


async def bring_in(roll, ref):
    """Brings a key in by setters, and stamps it with the moment that a report would have. If rule 1
    gives a higher TTL by now, the moment is later by the difference."""
    provider, (setters, stamps) = roll.provider, REPLACING[roll.name]
    for setter in setters:
        moment = f" {rounded_down()}" if setter == "set-present" else ""
        provider.call(f"{setter} {ref} yes{moment}")
    if roll.name == DOUBLE_DS:
        await provider.act(["CreateCdsRrset", "UpdateDsRrset"])
    else:
        await provider.publish("dnskey", "zone")
    await roll.watch()
    moment = rounded_up()
    moment += max(0, roll.ttl(1, moment) - roll.reported)
    await at_moment(moment)
    for stamp in stamps:
        provider.call(f"{stamp} {ref} {moment}")


async def new_script(provider, refs=None):
    """docs/OPERATORS.md, "A zone that is signed already": a script replaces another, once all sets
    have been the same for longer than the highest TTL. Then comes its first roll."""
    refs = refs or provider.script.sets["dnskey"]
    await asyncio.sleep(provider.zone.longest() + 1)
    provider.begin_script()
    begin_signed(provider, refs)
    algorithm = provider.keys[refs[0]].algorithm
    kind = "C" if len(refs) == 1 else "Z"
    await provider.make(f"{kind}9", algorithm=algorithm)
    await Roll(provider, CSK if kind == "C" else ZSK).whole([refs[-1]], [f"{kind}9"])


def begin_signed(provider, refs):
    """A new script of a zone that these keys sign already."""
    now = rounded_down()
    for ref in refs:
        key = provider.keys[ref]
        provider.call(f"add-{key.kind} {ref} - {key.algorithm} {key.tag} {now} yes")
    provider.call(f"start {ALGORITHM} - {','.join(refs)} {now}")
    for number in (1, 2):
        provider.call(f"report{number} {ALGORITHM} 0 {now}")
        provider.call(f"wait{number} {ALGORITHM} {now}")
    provider.call(f"done {ALGORITHM}")


async def halfway(zone, name):
    """A roll that has come to its second report."""
    roll = await reported(zone, name)
    await roll.wait(1)
    return roll.provider


def lines_lost(name, *refs):
    """The script is lost in mid-roll. All stays as it is, and a new script begins with these
    keys. The others leave later."""

    async def scene(zone):
        await new_script(await halfway(zone, name), refs)

    return scene


def comes_back(name, old, new):
    """The old key comes back at the end of a roll, as if it was new."""

    async def scene(zone):
        provider = await first_keys(zone, "K1", "Z1")
        await provider.make(new)
        await Roll(provider, name).whole([old], [new])
        key = provider.keys[old]
        provider.call(f"add-{key.kind} {old} - {key.algorithm} {key.tag} {rounded_down()} yes")
        await Roll(provider, name).whole([new], [old])

    return scene


def unsigned_in_mid_roll(name):
    """A roll in progress can't be ended, and the zone goes unsigned by setters. Then a new script
    begins with first keys."""

    async def scene(zone):
        provider = await halfway(zone, name)
        await unsigned_by_setters(provider)

    return scene


async def unsigned_by_setters(provider):
    zone, sets = provider.zone, provider.script.sets
    zone.clients.secure_from = float("inf")
    for ref in sets["ds"]:
        provider.call(f"set-at-parent {ref} no", may_break=True)
    await provider.act(["CreateCdsRrset", "UpdateDsRrset"])
    await zone.watch_ds()
    await provider.take_cds_out()
    await asyncio.sleep(provider.sum_of_ds_and_dnskey(rounded_up()) + 1)
    for ref in {*sets["dnskey"], *sets["zone"]}:
        provider.call(f"set-stale {ref}", may_break=True)
    await provider.act(["RemoveCdsRrset", "UpdateDnskeyRrset", "UpdateRrsig"])
    await provider.watch()
    provider.begin_script()
    await keys_again(provider, "K5", "Z5")


async def unsigned_before_first_wait(zone):
    """The same, with the DS of the old key only."""
    roll = await reported(zone, KSK)
    await unsigned_by_setters(roll.provider)


def unsigned_after_early_end(name):
    """A roll is ended early, and the zone goes unsigned at once."""

    async def scene(zone):
        roll, old, new = await before_roll(zone, name)
        await roll.start(old, new)
        await roll.abort()
        # (No other change of the DS set is asked for while the parent is at work on the first.)
        while zone.is_at_work:
            await asyncio.sleep(0.1)
        await go_unsigned(roll.provider, "K1", "Z1")

    return scene


async def lost_ds(zone):
    """The whole DS set is lost during a roll, and is set again before its report."""
    roll, old, new = await before_roll(zone, KSK)
    zone.reads_cds = False
    await roll.start(old, new)
    await roll.report(1)
    await roll.accepted(1)
    zone.clients.secure_from = float("inf")
    await roll.provider.act(roll.actions)
    await zone.change_ds(())
    await zone.watch_ds()
    await asyncio.sleep(3)
    await zone.change_ds(zone.ds_keys())
    await roll.watch()
    for call in (roll.report(2), roll.wait(2), roll.done()):
        await call


async def false_lines(zone):
    """ "A false line was accepted": a report with a digit too many is mended, and a wait for which
    nothing was published is removed."""
    roll = await reported(zone, KSK)
    script = roll.provider.script
    true = script.lines[-1]
    script.lines[-1] = f"{true}0"
    try:
        await roll.make(lambda: f"wait1 {KSK} {rounded_down()}")
        raise SceneFailure("the false moment made no difference")
    except CallRefusal:
        script.lines[-1] = true
    script.call(f"wait1 {KSK} {rounded_down()}0")
    script.lines.pop()
    for call in (roll.wait(1), roll.report(2), roll.wait(2), roll.done()):
        await call
    roll.provider.call("delete K1")


async def signatures_expire(zone):
    """Signatures that are valid for some seconds are renewed in time, also while a roll waits."""
    provider = await first_keys(zone, "K1", "Z1")
    async with renewed(provider):
        for name in (KSK, ZSK):
            old, new, _ = KEYS[name]
            await provider.make(*new)
            await Roll(provider, name).whole(old, new)


LIFETIME = 24


@asynccontextmanager
async def renewed(provider):
    """Renews the signatures while the old ones are still valid for longer than the TTL and the
    slowest server together."""
    provider.signing.lifetime = LIFETIME

    async def go_on():
        while True:
            await provider.publish()
            await asyncio.sleep(LIFETIME / 4)

    task = asyncio.ensure_future(go_on())
    try:
        yield
    finally:
        task.cancel()
        provider.signing.lifetime = 24 * 3600
        await provider.publish()


@asynccontextmanager
async def restless(provider):
    """In every phase sets get new signatures, and TTLs rise and fall. Only the DNSKEY TTL doesn't
    rise when the guide forbids it."""

    async def go_on():
        zone, dice = provider.zone, provider.zone.dice
        while True:
            await asyncio.sleep(dice.uniform(0.5, 4))
            dnskey = dice.randint(1, 7)
            if not provider.is_steady or dnskey < provider.ttls.dnskey:
                provider.ttls.dnskey = dnskey
            provider.ttls.zone, provider.ttls.ds = dice.randint(1, 7), dice.randint(1, 7)
            await provider.publish()
            if dice.random() < 0.5 and zone.ds():
                await zone.publish_ds()

    task = asyncio.ensure_future(go_on())
    try:
        yield
    finally:
        task.cancel()


def with_changing_ttls(name):
    async def scene(zone):
        provider = await first_keys(zone, "K1", "Z1")
        async with restless(provider):
            await roll_twice(provider, name, (15, 13))

    return scene


HONEST = {
    **{f"{name}-stolen-new-key": stolen_new_key(name) for name in KEYS},
    "algorithm-roll-stolen-new-zsk": stolen_new_key(ALGORITHM, 1),
    **{
        f"from-csk-stolen-new-{kind}": stolen_new_key(CSK, number, FROM_CSK)
        for number, kind in enumerate(("ksk", "zsk"))
    },
    "first-keys-stolen-new-key": stolen_new_key(ALGORITHM, 0, FIRST),
    **{f"{name}-lines-lost": lines_lost(name, *refs) for name, refs in LEFT.items()},
    "ksk-roll-old-key-comes-back": comes_back(KSK, "K1", "K2"),
    "zsk-roll-old-key-comes-back": comes_back(ZSK, "Z1", "Z2"),
    **{f"{name}-unsigned-in-mid-roll": unsigned_in_mid_roll(name) for name in LEFT},
    **{f"{name}-unsigned-after-early-end": unsigned_after_early_end(name)
       for name in (DOUBLE_DS, ALGORITHM)},
    "unsigned-by-setters": unsigned_before_first_wait,
    "lost-ds": lost_ds,
    "false-lines": false_lines,
    "signatures-expire": signatures_expire,
    **{f"{name}-changing-ttls": with_changing_ttls(name) for name in KEYS},
}
