"""Scenes of each signer: the tools of BIND and ldns, PowerDNS, Knot, named and a hook sign the
zone, and the operator types only the command. Before each act that ends well another one is broken
off: a command of the signer fails, or the act is killed."""

import asyncio
import itertools
import json
import re
import signal
import sys
import time

from by_command import DS_TTL, DUE, KSK, OK, TTL, UNAVAILABLE, ZSK, Operator
from dnspython import dns
from from_bind import is_signed
from keys import run
from knot_signers import KnotByPkcs11, KnotSigner
from pdns_signers import PdnsByApi, PdnsOfItsOwnKeys
from processes import SceneFailure, end, outcome
from signers import BindTools, HookSigner, LdnsTools, NamedSigner

# The algorithm of the keys after an algorithm roll.
OTHER = "14"
# An act without tools is killed after so many seconds, and the next one so many later.
SOON, LATER = 0.2, 0.3
# An old key of named signs beside the new one until it leaves: a watch says so of the NS set, and
# reports nothing less for that.
BESIDE, LACK = "NS signed by", re.compile(r"127\.\S+: ")


class SignerOperator(Operator):
    """An operator whose signer runs. What it gives goes to the servers, as by transfers."""

    def __init__(self, zone, serial=1):
        super().__init__(zone, serial)
        self.signer, self.path, self.algorithm = None, "", "13"
        # Whether acts are broken off before each command of the signer, or before any of them.
        self.is_thorough = False

    def environment(self):
        variables = super().environment()
        variables.update(self.signer.environment() if self.signer else {})
        path = f"{self.path}:{variables['PATH']}" if self.path else variables["PATH"]
        return {**variables, "PATH": path}

    async def key(self, *flag):
        """A new key: of the signer, or a file without times, for named would use it at once."""
        algorithm = self.algorithm
        name = await self.signer.key(*flag, algorithm=algorithm) if self.signer else None
        if name is None:
            name = await super().key(*flag, algorithm=algorithm)
            await run(self.folder, "dnssec-settime", *NamedSigner.times_of_keys, name)
        return name

    def words_of_act(self):
        if self.signer is None:
            return super().words_of_act()
        options = [*self.signer.options(), *self.signer.files()]
        return ["act", self.script, *options, *self.parents(), "--json"]

    async def act(self, *how):
        """Acts, after acts that ended between two commands of the signer."""
        if self.signer is None:
            return await super().act(*how)
        await self.broken_off(*how)
        done = json.loads(await self.type(*self.words_of_act(), *how))
        self.signer.serves = True
        await self.compare(done["cds"])
        return [record.partition(" DS ")[2].lower() for record in done["ds"]]

    async def typed(self, *words):
        """Types a word of the command, and gives how it ends and what it prints."""
        status, out, err = await outcome(
            sys.executable, "-m", "vaqsider", *map(str, words), cwd=self.folder,
            env=self.environment(),
        )
        return status, out or err

    async def watch(self, *how, ends=(OK,), **more):
        is_named = self.signer is not None and self.signer.name == NamedSigner.name
        output = await super().watch(*how, ends=(*ends, DUE) if is_named else ends, **more)
        wrong = [it for it in output.splitlines() if LACK.match(it) and BESIDE not in it]
        if wrong and DUE not in ends:
            raise SceneFailure(f"watch says {output}")
        return output

    async def broken_off(self, *how):
        """Acts that are broken off: before each command of the signer, or before any of them."""
        break_off, most = (self.failing, 20) if self.signer.tools else (self.killed, 10)
        if self.is_thorough:
            for at in itertools.count(1):
                if not await break_off(at, *how):
                    return
        await break_off(self.zone.dice.randint(1, most), *how)

    async def failing(self, at, *how):
        """An act in which the command of this number fails. Whether it came to that."""
        made = self.signer.failing()
        (made / "at").write_text(str(at))
        (made / "count").write_text("")
        self.path = str(made)
        try:
            await self.type(*self.words_of_act(), *how, ends=(0, UNAVAILABLE))
        finally:
            self.path = ""
        if self.signer.serves:
            await self.give()
        return (made / "count").read_text().count("x") >= at

    async def killed(self, at, *how):
        """An act that is killed at a moment. Whether it came to that."""
        process = await asyncio.create_subprocess_exec(
            sys.executable, "-m", "vaqsider", *map(str, [*self.words_of_act(), *how]),
            cwd=self.folder, env=self.environment(), stdout=asyncio.subprocess.DEVNULL,
            stderr=asyncio.subprocess.DEVNULL, start_new_session=True)
        is_killed = False
        try:
            await asyncio.wait_for(process.wait(), SOON + (at - 1) * LATER)
        except asyncio.TimeoutError:
            end(process, signal.SIGKILL)
            await process.wait()
            is_killed = True
        if self.signer.serves:
            await self.give()
        return is_killed

    async def give(self):
        """Gives the servers what the signer gives now, as a transfer does."""
        dns_zone = await self.signer.given()
        if dns_zone is None:
            raise SceneFailure(f"{self.signer.name} gives no zone")
        self.publish(dns_zone.to_text(relativize=False))
        return dns_zone

    async def compare(self, has_cds):
        """Compares with the status what the command says of the signer's database, what is in it,
        and what the signer gives; and CDS with what the act said of it."""
        said = await self.type(*self.words_of_act()[:-1], "--dry-run")
        sets = {word: [line.partition(": ")[2] for line in said.splitlines()
                       if line.startswith(f"{word}: ")] for word in ("now", "then")}
        if sets["now"] != sets["then"]:
            raise SceneFailure(f"the database of {self.signer.name}: {sets}")
        (status,) = json.loads(await self.type("status", self.script, "--json"))
        due = {kind: {tag_of(it) for it in names} for kind, names in status["published"].items()}
        del due["ds"]
        held, wanted = await self.signer.held(), (due["dnskey"], due["signers"] | due["zone"])
        if held not in (None, wanted):
            raise SceneFailure(f"the database of {self.signer.name} has {held}, not {wanted}")
        given = tags_given(await self.give())
        if given != {**due, "cds": has_cds}:
            raise SceneFailure(f"{self.signer.name} gives {given}, not {due}, CDS: {has_cds}")


def tag_of(name):
    return int(name.partition("+")[2].rpartition("+")[2].partition(".")[0])


def tags_given(dns_zone):
    """The keys of the DNSKEY set, those that sign it, and those that sign the SOA record; whether
    there is CDS."""
    def by(kind):
        found = dns_zone.get_rdataset(dns_zone.origin, "RRSIG", kind)
        return {it.key_tag for it in found or ()}

    keys = dns_zone.get_rdataset(dns_zone.origin, "DNSKEY") or ()
    both = {dns_zone.get_rdataset(dns_zone.origin, kind) is not None for kind in ("CDS", "CDNSKEY")}
    return {"dnskey": {dns.dnssec.key_id(it) for it in keys}, "signers": by("DNSKEY"),
            "zone": by("SOA"), "cds": both.pop() if len(both) == 1 else "only one of both"}


def rolls(maker):
    """A scene: first keys, each roll that the signer can, one that is ended early, and a new script
    that takes over what the signer has."""
    return with_signer(maker, each_roll)


def with_signer(maker, goes_on):
    """A scene of an operator whose signer runs until its end."""

    async def scene(zone):
        operator = SignerOperator(zone)
        operator.signer = maker(operator)
        try:
            await operator.signer.start(2)
            await goes_on(operator)
        finally:
            operator.signer.end()

    return scene


async def each_roll(operator):
    ksk, zsk = await operator.first_keys()
    operator.is_thorough = True
    zsk = await operator.replace("zsk-roll", zsk, ZSK)
    operator.is_thorough = False
    ksk = await operator.replace("ksk-roll", ksk, KSK)
    await end_early(operator, zsk)
    zsk = await operator.replace("zsk-double-signature-roll", zsk, ZSK)
    ksk = await operator.replace("ksk-double-ds-roll", ksk, KSK)
    ksk, zsk = await other_algorithm(operator, ksk, zsk)
    await csk(operator, ksk, zsk)
    await operator.type("check", operator.script)
    await again(operator)
    if not is_signed(await operator.signer.given(), operator.signer.denial):
        raise SceneFailure(f"{operator.zone.name} isn't signed with {operator.signer.denial}")


async def other_algorithm(operator, ksk, zsk):
    """A KSK and a ZSK of another algorithm take the places of these."""
    operator.algorithm = OTHER
    new = [await operator.key(*flag) for flag in (KSK, ZSK)]
    for key in new:
        await operator.call(f"add {key}")
    await operator.roll("algorithm-roll", f"{ksk},{zsk}", ",".join(new))
    for old in (ksk, zsk):
        await operator.call(f"delete {old}")
    return new


async def end_early(operator, zsk):
    """A ZSK roll is ended early, and its key deleted."""
    new = await operator.begin_roll("zsk-roll", zsk, ZSK)
    await operator.act()
    await operator.call("abort zsk-roll")
    await operator.act()
    await operator.watch()
    await operator.call(f"set-stale {new}")
    await operator.call(f"delete {new}")


async def csk(operator, ksk, zsk):
    """A CSK comes in by a roll, if the signer can do that. Else the plan says that it can't."""
    new, is_able = await operator.key(*KSK), operator.signer.rolls_to_csk
    await operator.call(f"add-csk {new}")
    await operator.type("plan", operator.script, "csk-roll", f"{ksk},{zsk}", new,
                        *operator.signer.options(), ends=(0,) if is_able else (1,))
    if is_able:
        await operator.roll("csk-roll", f"{ksk},{zsk}", new)


async def again(operator):
    """Another script takes the zone over, as it is in the signer's database, or as servers give it.
    Then a key rolls by it."""
    await is_everywhere(operator)
    (zone_status,) = json.loads(await operator.type("status", operator.script, "--json"))
    operator.script = operator.folder / "again.script"
    if operator.signer.source:
        await come(operator, words_of_import(operator))
    else:
        await by_hand(operator, zone_status)
    await operator.act()
    await is_right(operator)
    if operator.signer.rolls_to_csk:
        return
    await replace_one(operator, "zsk-roll")


async def by_hand(operator, zone_status):
    """The keys of the status come in by `init`."""
    used = sorted({name for kind in ("signers", "zone") for name in zone_status["published"][kind]})
    is_csk = zone_status["published"]["signers"] == zone_status["published"]["zone"]
    await operator.type("init", operator.zone.name, *used, *["--csk"] * is_csk, "--signed",
                        "--script", operator.script, "--before", DS_TTL, TTL, TTL,
                        *operator.named())


async def come(operator, words):
    """The import, again and again: first the other system may be in its own roll, then all has to
    stay the same for longer than every TTL. What that took is kept, in seconds."""
    began, looks = time.time(), []
    for _ in range(60):
        since = time.time()
        status, out = await operator.typed(*words)
        looks.append((status, time.time() - since))
        if status == OK and json.loads(out)["lines"]:
            if DUE not in dict(looks):
                raise SceneFailure("the script was made at the first look")
            took(operator, looks=len(looks), look=looks[-1][1], script=time.time() - began)
            return
        await asyncio.sleep(1)
    raise SceneFailure(f"the keys don't come in: {out}")


def took(operator, **seconds):
    """Keeps what a takeover took."""
    path = operator.folder / "takeover.json"
    times = json.loads(path.read_text()) if path.exists() else {}
    path.write_text(json.dumps({**times, **seconds}))


async def is_everywhere(operator):
    """The slowest server has taken the last version."""
    await asyncio.sleep(operator.zone.world.fleet.SLOWEST + 1)


async def is_right(operator):
    """All servers have what is due, as soon as the slowest one has taken it."""
    await is_everywhere(operator)
    await operator.watch("--state")


def words_of_import(operator, bind=None):
    """From BIND's policy, or from the signer that is there."""
    system = "bind" if bind else operator.signer.source
    source = ["--source", bind.folder] if bind else operator.signer.source_options()
    return ["import", system, operator.zone.name, *source, "--script", operator.script,
            "--before", DS_TTL, TTL, TTL, *operator.named(), "--json"]


async def replace_one(operator, roll):
    (zone_status,) = json.loads(await operator.type("status", operator.script, "--json"))
    kind, flag = ("zsk", ZSK) if roll == "zsk-roll" else ("ksk", KSK)
    old = next(it["reference"] for it in zone_status["keys"] if it["kind"] == kind)
    await operator.replace(roll, old, flag)


HONEST = {
    "signer-bind": rolls(BindTools),
    "signer-ldns": rolls(LdnsTools),
    "signer-pdns": rolls(PdnsOfItsOwnKeys),
    "signer-pdns-api": rolls(PdnsByApi),
    "signer-knot": rolls(KnotSigner),
    "signer-knot-pkcs11": rolls(KnotByPkcs11),
    "signer-bind-inline": rolls(NamedSigner),
    "signer-hook": rolls(HookSigner),
}
