"""Signers that run, as tests have them: keys, the sets of courses of rolls, and the steps from any
sets to others."""

from __future__ import annotations

from argparse import Namespace
from pathlib import Path

from tests.command import stores, testkeys
from vaqsider import keyfiles
from vaqsider.errors import Failure
from vaqsider.signers import DELETION, Key, Sets
from vaqsider.signers.inline import InlineSigner
from vaqsider.signers.knot import Knot
from vaqsider.signers.pdns import Pdnsutil
from vaqsider.signers.pdns_api import Api

ZONE = "example.com."
# Each key with the number of its private half, and its flags.
KEYS = {"K1": (11, 257), "K2": (12, 257), "Z1": (13, 256), "Z2": (14, 256), "C3": (15, 257)}


def make() -> dict[str, Key]:
    """Key files of the course, with empty private halves."""
    keys = {}
    for name, (number, flags) in KEYS.items():
        data = testkeys.dnskey(number, flags).to_text()
        key = Key.of(data)
        path = Path(f"Kexample.com.+013+{key.tag:05}.key")
        path.write_text(f"{ZONE} IN DNSKEY {data}\n")
        path.with_suffix(".private").write_text(
            f"Private-key-format: v1.3\nAlgorithm: 13\nPrivateKey: {name}==\n")
        keys[name] = Key.of(data, name, keyfiles.read(path))
    return keys


def sets(keys: dict[str, Key], text: str) -> Sets:
    """`dnskey signers zone cds`, each with commas, or - for none. `0` is the deletion."""
    def those(names: str) -> frozenset[Key]:
        of = [] if names == "-" else names.split(",")
        return frozenset(Key(DELETION) if it == "0" else keys[it] for it in of)

    return Sets(*map(those, text.split()))


# The sets of a course of rolls, each beside those that come before and after it.
COURSE = (
    "- - - -", "K1,Z1 K1 Z1 -", "K1,Z1 K1 Z1 K1", "K1,Z1 K1 Z1 -", "K1,K2,Z1 K1,K2 Z1 -",
    "K1,K2,Z1 K1,K2 Z1 K2", "K2,Z1 K2 Z1 -", "K2,Z1,Z2 K2 Z1 -", "K2,Z1,Z2 K2 Z2 -",
    "K2,Z2 K2 Z2 -", "K2,Z2 K2 Z2 K1,K2", "K2,Z2 K2 Z2 -", "K1,Z2 K1 Z2 -", "K1,Z2 K1 Z2 K1",
    "K1,Z1,Z2 K1 Z1,Z2 -", "K1,Z1 K1 Z1 -",
)
UNSIGNED = ("K1,Z1 K1 Z1 0", "- - - -")
# With a CSK: only Knot says of each key what it signs.
OF_CSK = ("K1,Z1,C3 K1,C3 Z1 -", "K1,Z1,C3 K1,C3 C3 C3", "C3 C3 C3 -")


def of(name: str):
    """A signer and its database."""
    if name == "pdns":
        return Pdnsutil(ZONE, None), stores.FakePdns()
    if name == "pdns-api":
        Path("secret").write_text(f"{stores.SECRET}\n")
        return Api(ZONE, "http://pdns", "secret"), stores.FakePdnsApi()
    if name == "knot":
        fake = stores.FakeKnot()
        return Knot(ZONE, None, fake.clock), fake
    args = Namespace(keys=["."], SCRIPT="example.com.script", signer_config=None, zone_file="zone")
    return InlineSigner(ZONE, args, lambda: stores.NOW), stores.FakeBind(Path())


def steps(store, known, wanted):
    place = Path("made")
    place.mkdir(exist_ok=True)
    return [*store.publish(store.now(known), wanted, place), *store.renew()]


def fault_of(part) -> str:
    """The failure that a part ends with, or nothing."""
    try:
        part()
        return ""
    except Failure as failure:
        return str(failure)
