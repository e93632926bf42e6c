"""What `import` reads of other systems, each as a row: which keys are in use, what of a roll is in
progress, and what private halves are called that stay where they are."""

from __future__ import annotations

import json
import re
from argparse import Namespace
from pathlib import Path
from unittest import mock

import dns.dnssec

from tests.command import signer_courses, stores, testkeys
from tests.command.terminal import STORED, folder
from vaqsider.errors import Failure
from vaqsider.signers import Key
from vaqsider.sources import bind, dnst, knot, opendnssec, pdns

ZONE = "example.com"
STATE = """; This is the state of key {tag}, for example.com.
Algorithm: 13
Length: 256
Lifetime: 0
KSK: {ksk}
ZSK: {zsk}
Generated: 20261127191516 (Fri Nov 27 19:15:16 2026)
Published: 20261127191516 (Fri Nov 27 19:15:16 2026)
Active: 20261127191516 (Fri Nov 27 19:15:16 2026)
DNSKEYChange: 20261127191516 (Fri Nov 27 19:15:16 2026)
{states}GoalState: {goal}
"""
ALL = {"DNSKEYState": "omnipresent", "KRRSIGState": "omnipresent", "ZRRSIGState": "omnipresent",
       "DSState": "omnipresent"}


def state(key: Key, kinds: str, goal: str = "omnipresent", **states: str) -> None:
    """A state file of BIND: `kinds` has K and Z."""
    fields = {**ALL, **states}
    has = {"KRRSIGState": "K", "DSState": "K", "ZRRSIGState": "Z"}
    lines = "".join(f"{name}: {value}\n" for name, value in fields.items()
                    if has.get(name, kinds[0]) in kinds)
    text = STATE.format(tag=key.tag, ksk="yes" if "K" in kinds else "no",
                        zsk="yes" if "Z" in kinds else "no", states=lines, goal=goal)
    key.file.path.with_suffix(".state").write_text(text)


def timed(key: Key, **times: int) -> None:
    rows = "".join(f"{name}: {at}\n" for name, at in times.items())
    key.file.private.write_text(f"Private-key-format: v1.3\nAlgorithm: 13\n{rows}")


def _of_bind(prepare):
    def take(keys):
        for name in ("K2", "Z2", "C3"):
            keys[name].file.path.unlink()
        prepare(keys)
        with stores.FakeBind(Path()).installed():
            return bind.inventory(ZONE, Namespace(source="."))

    return take


def _both(**states):
    def prepare(keys):
        state(keys["K1"], "K", **{it: at for it, at in states.items() if it in ALL})
        state(keys["Z1"], "Z", **{it: at for it, at in states.items() if it not in ALL})

    return prepare


def _by_times(**of_zsk):
    def prepare(keys):
        timed(keys["K1"], Publish=1, Activate=1)
        timed(keys["Z1"], **of_zsk)

    return prepare


def _of_power_dns(maker, ask, flags, how):
    """The keys of a fake database, of which `ask` takes the inventory."""
    def take(keys):
        fake = maker()
        for name, (active, published) in zip(("K1", "Z1", "K2"), flags):
            fake.keys.append({"key": keys[name], "active": active, "published": published})
        vars(fake).update(how)
        with fake.installed():
            return ask()

    return take


def _of_pdns(*flags, stay=False, **how):
    def ask():
        inventory = pdns.inventory(ZONE, Namespace(source=None, stay=stay))
        return inventory if stay else expect_private(inventory)

    return _of_power_dns(stores.FakePdns, ask, flags, how)


def _of_api(*flags, stay=False, **how):
    def ask():
        args = Namespace(source="http://pdns", store="secret", stay=stay)
        inventory = pdns.inventory_by_api(ZONE, args)
        return inventory if stay else expect_private(inventory)

    return _of_power_dns(stores.FakePdnsApi, ask, flags, how)


def expect_private(inventory):
    """Each key's private half comes out, and is its own."""
    texts = {it.private() for it in inventory.keys}
    if len(texts) != len(inventory.keys) or not all("PrivateKey: " in it for it in texts):
        raise Failure(f"private halves: {texts}")
    return inventory


def _of_knot(**times):
    def take(keys):
        fake = stores.FakeKnot()
        for name in ("K1", "Z1"):
            fake.does(["keymgr", "example.com.", "import-bind", str(keys[name].file.path)])
        for key in fake.keys.values():
            key.update(publish=1, active=1)
        fake.keys[f"id{keys['Z1'].tag}"].update(
            {name.replace("_", "-"): at for name, at in times.items()})
        with fake.installed():
            return knot.inventory(ZONE, Namespace(source=None, store=None))

    return take


# What OpenDNSSEC 2.1.12 prints, for tags of the test's keys; and what it prints of a ZSK that has
# left, that leaves, whose record servers don't give any more, and that it has only just made.
DEBUG, VERBOSE = ((STORED / "opendnssec" / it).read_text() for it in ("debug", "verbose"))
LEFT, LEAVES, NEW = (("hidden", "NA", "hidden"), ("unretentive", "NA", "hidden"),
                     ("hidden", "(null)", "(null)"))


def _of_ods(ds="omnipresent", zsk="omnipresent", old=LEFT, served=("K1", "Z1"), socket=None):
    def take(keys):
        def said(words, *_):
            where = ["--socket", socket] if socket else []
            if list(words[:-1]) != ["ods-enforcer", *where, "key", "list"]:
                return ""
            text = DEBUG if words[-1] == "--debug" else VERBOSE
            return text.format(ds=ds, zsk=zsk, old=old, k1=keys["K1"].tag, z1=keys["Z1"].tag)

        args = Namespace(source=socket, records=lambda: [Key.of(keys[it].data) for it in served])
        with mock.patch.object(opendnssec, "said", said):
            return opendnssec.inventory(ZONE, args)

    return take


def flags(**given: bool) -> dict:
    made = dict.fromkeys(("available", "old", "signer", "present", "at_parent"), False)
    return {**made, "available": True, "signer": True, "present": True, **given}


def _of_dnst(rolls=(), name=ZONE, wrapped=True, **of_zsk):
    """The JSON that serde makes of a key set of `domain`."""
    def take(keys):
        stamps = {"creation": {"secs": 1, "nanos": 0}, "published": None, "visible": None,
                  "ds_visible": None, "rrsig_visible": None, "withdrawn": None}
        kinds = {"K1": {"Ksk": flags(at_parent=True)}, "Z1": {"Zsk": flags(**of_zsk)},
                 "K2": {"Ksk": flags(signer=False, present=False)}}
        made = {"name": name, "rollstates": dict(rolls), "keys": {
            f"file://{Path(keys[it].file.path).resolve()}" if it == "K1" else
            keys[it].file.path.name: {
                "privref": None, "decoupled": False, "keytype": kind,
                "algorithm": "ECDSAP256SHA256", "key_tag": keys[it].tag, "timestamps": stamps,
            } for it, kind in kinds.items()
        }}
        Path("state.json").write_text(json.dumps({"keyset": made} if wrapped else made))
        return dnst.inventory(ZONE, Namespace(source="state.json"))

    return take


KZ = "K1:k Z1:z"
# A source, which of its keys are in use for what, and what it says of a roll in progress.
ROWS = (
    ("a policy of BIND", _of_bind(_both()), KZ, ""),
    ("a policy of BIND, with a CSK", _of_bind(lambda it: [
        state(it["K1"], "KZ"), it["Z1"].file.path.unlink()]), "K1:kz", ""),
    ("a DS that isn't there yet", _of_bind(_both(DSState="rumoured")), KZ, "-checkds"),
    ("a DNSKEY record that leaves", _of_bind(lambda it: [
        state(it["K1"], "K"), state(it["Z1"], "Z", "hidden", DNSKEYState="unretentive",
                                    ZRRSIGState="hidden")]), KZ, "is unretentive"),
    ("a key that is about to leave", _of_bind(lambda it: [
        state(it["K1"], "K"), state(it["Z1"], "Z", "hidden", DNSKEYState="omnipresent")]), KZ,
     "and is to be hidden"),
    ("a key that has left", _of_bind(lambda it: [
        state(it["K1"], "KZ"), state(it["Z1"], "Z", "hidden", DNSKEYState="hidden",
                                     ZRRSIGState="hidden")]), "K1:kz", ""),
    ("a state that isn't known", _of_bind(_both(DNSKEYState="odd")), None, "isn't known"),
    ("times of BIND", _of_bind(_by_times(Publish=1, Activate=1)), KZ, ""),
    ("a key that comes in", _of_bind(_by_times(Publish=2 * 10**9)), "K1:k", "comes in at"),
    ("a key that isn't active yet", _of_bind(_by_times(Publish=1)), KZ, "doesn't sign"),
    ("a key that is to leave", _of_bind(_by_times(Publish=1, Activate=1, Delete=2 * 10**9)), KZ,
     "is to leave (Delete)"),
    ("PowerDNS", _of_pdns((True, True), (True, True)), KZ, ""),
    ("PowerDNS with a CSK", _of_pdns((True, True)), "K1:kz", ""),
    ("PowerDNS's database", _of_pdns((True, True), (True, True), stay=True), KZ, ""),
    ("PowerDNS, in a roll", _of_pdns((True, True), (True, True), (False, True)), "K1:k K2: Z1:z",
     "published and not active"),
    ("PowerDNS, the other way", _of_pdns((True, True), (True, False)), KZ,
     "active and not published"),
    ("PowerDNS, an old key", _of_pdns((True, True), (True, True), (False, False)), KZ, ""),
    ("PowerDNS without keys", _of_pdns(), None, "has no keys"),
    ("another pdnsutil", _of_pdns((True, True), version="9"), None, "isn't known"),
    ("PowerDNS by its API", _of_api((True, True), (True, True)), KZ, ""),
    ("PowerDNS's database, by its API", _of_api((True, True), (True, True), stay=True), KZ, ""),
    ("PowerDNS by its API, in a roll", _of_api((True, True), (True, True), (False, True)),
     "K1:k K2: Z1:z", "published and not active"),
    ("PowerDNS by its API, another version", _of_api((True, True), lacks=("dnskey",)), None,
     "isn't known"),
    ("PowerDNS by its API, no private half", _of_api((True, True), export_zone_key=lambda _: 0),
     None, "the private half of"),
    ("Knot", _of_knot(), KZ, ""),
    ("Knot, a key that leaves", _of_knot(retire=9), KZ, "on its way out"),
    ("Knot, retired at its end", _of_knot(retire_active=9), KZ, "on its way out"),
    ("Knot, a key that comes", _of_knot(active=0), KZ, "published and not active"),
    ("Knot, a key to come", _of_knot(publish=2 * 10**9, active=0), "K1:k", "is to come in"),
    ("OpenDNSSEC", _of_ods(), KZ, ""),
    ("OpenDNSSEC, by its socket", _of_ods(socket="run/enforcer.sock"), KZ, ""),
    ("OpenDNSSEC, before ds-seen", _of_ods(ds="rumoured"), KZ, "ds-seen', once"),
    ("OpenDNSSEC, before ds-gone", _of_ods(ds="unretentive"), KZ, "ds-gone', once"),
    ("OpenDNSSEC, before its DS", _of_ods(ds="hidden"), KZ, "wait until"),
    ("OpenDNSSEC, a ZSK that comes", _of_ods(zsk="rumoured"), KZ, "says omnipresent"),
    ("OpenDNSSEC, a ZSK that leaves", _of_ods(old=LEAVES), KZ, "is unretentive, hidden"),
    ("OpenDNSSEC, a ZSK that is only just made", _of_ods(old=NEW), KZ, "is hidden, new, new"),
    ("OpenDNSSEC, another version", _of_ods(zsk="certain"), None, "a state that isn't known"),
    ("OpenDNSSEC, other servers", _of_ods(served=("K1",)), None, "give no DNSKEY record"),
    ("dnst", _of_dnst(), KZ, ""),
    ("dnst, only the key set", _of_dnst(wrapped=False), KZ, ""),
    ("dnst, in a roll", _of_dnst(rolls={"ZskRoll": {"CacheExpire1": 3600}}), KZ,
     "ZskRoll is in progress (CacheExpire1)"),
    ("dnst, a roll to be done", _of_dnst(rolls={"KskRoll": "Done"}), KZ, "(Done)"),
    ("dnst, an old key", _of_dnst(old=True, signer=False), KZ, "neither in use wholly nor out"),
    ("dnst, another zone", _of_dnst(name="example.net"), None, "not of example.com"),
)


def rows():
    """Each source says which keys are in use, and what is in progress."""
    for name, take, wanted, says in ROWS:
        with folder():
            for path in Path().glob("K*.key"):
                path.unlink()
            keys = signer_courses.make()
            names = {key: it for it, key in keys.items()}
            try:
                inventory = take(keys)
                found = " ".join(sorted(
                    f"{names[it.key]}:{'k' * it.signs_keys}{'z' * it.signs_zone}"
                    for it in inventory.keys))
                said = "; ".join(inventory.moving)
            except Failure as failure:
                found, said = None, str(failure)
        if found != wanted or says not in said or bool(says) != bool(said):
            yield f"{name}: {found}, {said}"


def pems():
    """A private key in PEM comes out as BIND's, and dnspython finds that it is the key's."""
    from cryptography.hazmat.primitives import serialization as of
    from cryptography.hazmat.primitives.asymmetric import ec, ed448, ed25519, rsa

    made = {13: ec.generate_private_key(ec.SECP256R1()),
            14: ec.generate_private_key(ec.SECP384R1()),
            15: ed25519.Ed25519PrivateKey.generate(), 16: ed448.Ed448PrivateKey.generate(),
            8: rsa.generate_private_key(65537, 1024)}
    for algorithm, private in made.items():
        pem = private.private_bytes(of.Encoding.PEM, of.PrivateFormat.PKCS8, of.NoEncryption())
        record = dns.dnssec.make_dnskey(private.public_key(), algorithm)
        text = knot.from_pem(pem, Key.of(record.to_text()), "it")
        if f"Algorithm: {algorithm}\n" not in text or (
                "Modulus: " if algorithm == 8 else "PrivateKey: ") not in text:
            yield f"a key of algorithm {algorithm} in PEM: {text}"
        other = Key.of(testkeys.dnskey(11, 257).to_text())
        for data, key in ((pem, other), (pem[:40], Key.of(record.to_text()))):
            try:
                knot.from_pem(data, key, "it")
                yield f"a PEM of another key, or half a one, is taken: {algorithm}"
            except Failure:
                pass


# Sources whose private halves stay where they are, and what these are called.
STAY = {"Knot": r"knot:id\d+", "OpenDNSSEC": r"pkcs11:id=(%[0-9a-f]{2})+",
        "PowerDNS's database": r"pdns:\d+", "PowerDNS's database, by its API": r"pdns:\d+"}


def of_sources():
    for name, take, _, _ in ROWS:
        if name in STAY:
            with folder():
                keys = take(signer_courses.make()).keys
                found = {it.reference for it in keys if it.private is None}
            if len(found) != 2 or not all(re.fullmatch(STAY[name], str(it)) for it in found):
                yield f"{name} calls private halves {found}"


CHECKS = (rows, pems)
COUNT = len(ROWS) + len(STAY)
