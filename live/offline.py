"""A KSK whose private half is where no server is: docs/SIGNERS.md, "A key that is offline". Its
signatures for months come from a ceremony, and the tools of BIND or ldns sign the rest."""

import base64
import json
import shutil
import time

import running
from by_command import DUE, TTL, ZSK
from commanded import expect
from dnspython import ec, hashes, utils
from keys import private_key
from signers import BindTools, LdnsTools

QUARTER, MONTH = 90 * 86400, 30 * 86400


class Ceremony:
    """The place where the KSK's private half is."""

    def __init__(self, operator, ksk):
        self.operator, self.ksk = operator, ksk
        self.folder = operator.folder / "offline"
        self.folder.mkdir()
        private = (operator.folder / ksk).with_suffix(".private")
        shutil.move(private, self.folder / private.name)

    async def holds(self, *how):
        """Signs all that is asked for, and brings it back. Gives the signatures."""
        operator, asked = self.operator, self.folder / "asked.json"
        await operator.type("ceremony", operator.script, "--span", QUARTER,
                            "--dnskey-ttl", TTL, "--out", asked, *how)
        requests = json.loads(asked.read_text())
        for it in requests["signatures"]:
            it["signature"] = self.signed(base64.b64decode(it["signs"]))
        asked.write_text(json.dumps(requests))
        await operator.type("ceremony", operator.script, "--take", asked)
        return requests["signatures"]

    def signed(self, data):
        """What the key makes of bytes: two numbers, as a signature has them (RFC 6605, section
        4)."""
        made = private_key(self.folder / self.ksk).sign(data, ec.ECDSA(hashes.SHA256()))
        two = (it.to_bytes(32, "big") for it in utils.decode_dss_signature(made))
        return base64.b64encode(b"".join(two)).decode()


def offline(maker):
    """A scene: after the first keys the KSK's private half goes. No ZSK rolls before a ceremony has
    signed its sets; then one does, by signatures that were made ahead."""

    async def scene(zone):
        operator = running.SignerOperator(zone)
        operator.signer = maker(operator)
        await operator.signer.start(2)
        ksk, zsk = await operator.first_keys()
        place, new = Ceremony(operator, ksk), await operator.key(*ZSK)
        await operator.call(f"add {new}")
        await refused(operator, zsk, new)
        asked = await place.holds("--roll", f"zsk-roll {zsk} {new}")
        expect_months(asked)
        await operator.type("plan", operator.script, "zsk-roll", zsk, new,
                            *operator.signer.options())
        for line in (f"start zsk-roll {zsk} {new} now", None, None):
            await operator.step(line or await operator.wait("zsk-roll"))
            await serves(operator, asked)
        await operator.call(f"delete {zsk}")
        await refused(operator, new, zsk, "--first", f"add {await operator.key(*ZSK)}")
        await operator.watch("--state")
        await operator.type("check", operator.script)

    return scene


def expect_months(asked):
    """The signatures that were made ahead last for a quarter of a year."""
    months = max(it["expiration"] for it in asked) - time.time()
    expect(months > QUARTER, f"signatures of {len(asked)} sets end after {months} seconds")


async def refused(operator, old, new, *first):
    """A roll that no ceremony has signed: the plan refuses it, and says why."""
    new = first[-1].partition(" ")[2] if first else new
    words = ["plan", operator.script, "zsk-roll", old, new, *operator.signer.options(), *first]
    status, output = await operator.typed(*words)
    expect(status == DUE and "has signed no such DNSKEY set" in output,
           f"a plan without a ceremony ends with {status}: {output}")


async def serves(operator, asked):
    """The signature of the DNSKEY set that servers give is one of the ceremony's, and is valid for
    more than half of its time."""
    made = await operator.signer.given()
    (given,) = made.get_rdataset(made.origin, "RRSIG", "DNSKEY")
    ends = {it["expiration"] for it in asked
            if it["signature"] == base64.b64encode(given.signature).decode()}
    expect(ends == {given.expiration} and given.expiration > time.time() + MONTH / 2,
           f"servers give the signature {given}")


HONEST = {"offline-bind": offline(BindTools), "offline-ldns": offline(LdnsTools)}
