"""Scenes in which another system has signed a zone by keys of its own: docs/COMING-FROM.md. Its
keys come in, its signer goes on by the command, and each key rolls. `takeover.json` in the folder
of the scene's keys says what that took."""

import asyncio
import json
import time

import running
from by_command import TTL, WARNING
from from_bind import is_signed, publish
from keys import run
from knot_signers import KnotSigner
from opendnssec import LEAVES, RESTS, KnotOfItsToken, OpenDnssec
from pdns_signers import Pdns, PdnsByApi
from processes import SceneFailure
from signers import BindTools, NamedSigner

PATIENCE = 30
# A serial that the signer from before, which goes on meanwhile, doesn't reach.
AHEAD = 1000
# The flags of a key that is in use, as serde writes them for the crate `domain`.
FLAGS = {"available": True, "old": False, "signer": True, "present": True, "at_parent": False}
STAMPS = dict.fromkeys(("creation", "published", "visible", "ds_visible", "rrsig_visible",
                        "withdrawn"))


class Dnst(BindTools):
    """The state of `dnst keyset`, and a zone signed by its keys. It isn't among Debian's packages:
    so the state is written here."""

    source = "dnst"

    async def make_own_keys(self):
        keys, folder = {}, self.operator.folder
        for kind, flag in (("Ksk", ("-f", "KSK")), ("Zsk", ())):
            name = (await run(folder, "dnssec-keygen", "-q", "-a", "13", *flag,
                              self.zone.name)).strip()
            flags = {**FLAGS, "at_parent": kind == "Ksk"}
            keys[f"{name}.key"] = {
                "privref": f"{name}.private", "decoupled": False, "keytype": {kind: flags},
                "algorithm": "ECDSAP256SHA256", "key_tag": int(name.rpartition("+")[2]),
                "timestamps": STAMPS}
        state = {"keyset": {"name": self.zone.name, "keys": keys, "rollstates": {}}}
        (folder / "keyset.json").write_text(json.dumps(state))
        await run(self.folder, "dnssec-signzone", "-q", "-S", "-K", str(folder), "-T", str(TTL),
                  "-P", "-O", "full", "-o", self.zone.name, "zone")

    def source_options(self):
        return ["--source", self.operator.folder / "keyset.json"]

    async def is_taken_over(self):
        """Nobody runs `dnst keyset cron` here."""


def takeover(maker):
    return running.with_signer(maker, taken_over)


async def taken_over(operator):
    signer = operator.signer
    await signer.make_own_keys()
    await publish(operator, await whole(signer))
    if hasattr(signer, "has_ds"):
        await operator.type(*running.words_of_import(operator), ends=(WARNING,))
        await signer.has_ds()
    await signer.is_taken_over()
    await running.come(operator, running.words_of_import(operator))
    await go_on(operator)
    await roll_each(operator)


async def go_on(operator):
    """The first act."""
    operator.signer.serves = True
    began = time.time()
    await operator.type(*operator.words_of_act())
    running.took(operator, act=time.time() - began)


async def roll_each(operator):
    await operator.compare(False)
    await running.is_right(operator)
    await running.replace_one(operator, "zsk-roll")
    await running.replace_one(operator, "ksk-roll")
    await operator.type("check", operator.script)


async def from_opendnssec(zone):
    """OpenDNSSEC signs, and its keys don't come in while it rolls one. Its enforcer stops, then
    Knot has the keys in its token, and only then its signer stops."""
    operator = running.SignerOperator(zone)
    operator.signer = before = OpenDnssec(operator)
    await before.start(2)
    await publish(operator, await whole(before))
    at_work = [asyncio.ensure_future(it)
               for it in (transferred(operator, before), before.renews())]
    try:
        await in_its_roll(operator, before)
        await running.come(operator, running.words_of_import(operator))
        await before.stop("enforcer")
        operator.signer = knot = KnotOfItsToken(operator)
        await knot.start_after(before, operator.served + AHEAD)
        await knot.take(operator.script)
        await go_on(operator)
    finally:
        for it in at_work:
            it.cancel()
    await operator.compare(False)
    await running.is_right(operator)
    await before.stop("signer")
    await roll_each(operator)


async def in_its_roll(operator, before):
    """No key comes in before the parent's DS is known, nor in a roll of OpenDNSSEC's."""
    words = running.words_of_import(operator)
    await operator.type(*words, ends=(WARNING,))
    await before.has_ds()
    began = time.time()
    await before.shows(RESTS, "--debug")
    running.took(operator, ds=time.time() - began)
    await before.rolls()
    await operator.type(*words, ends=(WARNING,))
    await before.shows(LEAVES, "--debug")
    await operator.type(*words, ends=(WARNING,))
    await before.shows(RESTS, "--debug")
    running.took(operator, ds_and_roll=time.time() - began)


async def transferred(operator, signer):
    """Servers take each version that a signer gives."""
    while True:
        dns_zone = await signer.given()
        operator.publish(dns_zone.to_text(relativize=False))
        await asyncio.sleep(0.5)


async def whole(signer):
    """The zone, once all of it is signed."""
    for _ in range(PATIENCE * 2):
        dns_zone = await signer.given()
        if dns_zone is not None and is_signed(dns_zone, "NSEC"):
            return dns_zone
        await asyncio.sleep(0.5)
    raise SceneFailure(f"{signer.name} doesn't sign {signer.zone.name}")


HONEST = {
    "takeover-pdns": takeover(Pdns),
    "takeover-pdns-api": takeover(PdnsByApi),
    "takeover-knot": takeover(KnotSigner),
    "takeover-bind-inline": takeover(NamedSigner),
    "takeover-dnst": takeover(Dnst),
    "takeover-opendnssec": from_opendnssec,
}
