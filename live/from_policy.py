"""A scene in which BIND signs by a policy, and its keys go to PowerDNS, to Knot, and to files."""

import shutil
import signal

from by_command import DS_TTL, TTL, WARNING, Operator
from from_bind import HERE, Bind, free_port, publish
from keys import ZoneVersion, plain_records, run
from knot_signers import KnotSigner
from pdns_signers import Pdns
from processes import end
from running import SignerOperator, come, is_right, replace_one, words_of_import
from signers import CONTROLLED, RNDC, SECRET

POLICY = CONTROLLED + """\
dnssec-policy "scene" {{
  keys {{ ksk lifetime unlimited algorithm 13; zsk lifetime unlimited algorithm 13; }};
  dnskey-ttl {ttl}; max-zone-ttl {ttl}; parent-ds-ttl {ds_ttl};
  publish-safety 1; retire-safety 1; zone-propagation-delay 2; parent-propagation-delay 1;
}};
zone "{zone}" {{
  type primary; file "{folder}/zone"; dnssec-policy "scene"; inline-signing yes;
}};
"""


class BindByPolicy(Bind):
    """BIND, which signs by a policy and takes a word that the parent has the DS."""

    def begin(self):
        self.control = free_port()
        settings = {"folder": self.folder, "here": HERE, "control": self.control}
        (self.folder / "rndc.conf").write_text(RNDC.format(**settings, secret=SECRET))
        version = ZoneVersion(self.serial, TTL, TTL)
        records = plain_records(self.zone.name, version, self.zone.letters)
        (self.folder / "zone").write_text(f"$TTL {TTL}\n" + "\n".join(records) + "\n")
        (self.folder / "conf").write_text(POLICY.format(
            **settings, keys=self.folder, port=self.port, secret=SECRET, zone=self.zone.name,
            ttl=TTL, ds_ttl=DS_TTL))
        name = f"signer-{self.zone.name.rstrip('.')}"
        self.zone.world.processes.start(
            name, "named", "-g", "-n", "1", "-c", str(self.folder / "conf"))

    async def has_ds(self):
        """The operator says so, as dnssec-policy wants it."""
        await run(self.folder, "rndc", "-c", "rndc.conf", "dnssec", "-checkds", "published",
                  self.zone.name)


async def round_trip(zone):
    """docs/COMING-FROM.md: BIND signs by a policy. Its keys come in, and PowerDNS signs, then Knot,
    then `act` by BIND's tools. With each signer a key rolls."""
    operator = SignerOperator(zone)
    bind = BindByPolicy(zone, operator.serial)
    bind.begin()
    await publish(operator, await bind.signed("NSEC"))
    await operator.type(*words_of_import(operator, bind), ends=(WARNING,))
    await bind.has_ds()
    await come(operator, words_of_import(operator, bind))
    await stop(operator, bind)
    for maker, roll in ((Pdns, "zsk-roll"), (KnotSigner, "ksk-roll")):
        operator.signer = maker(operator)
        await operator.signer.start(operator.served + 1)
        await operator.act()
        await is_right(operator)
        await replace_one(operator, roll)
    await back_to_files(operator)
    await operator.type("check", operator.script)


async def stop(operator, bind):
    """What `import` says of BIND: its keys stay, and nothing of BIND's changes any more."""
    for path in sorted(bind.folder.glob("K*")):
        if path.suffix in (".key", ".private"):
            shutil.copy(path, operator.folder)
    processes = operator.zone.world.processes
    end(processes.running.pop(f"signer-{operator.zone.name.rstrip('.')}"), signal.SIGTERM)


async def back_to_files(operator):
    """From Knot back to BIND's tools, which sign a file: a higher serial, and another roll. The
    signed file of long ago goes first: its keys have left the script."""
    operator.signer = None
    operator.signed.unlink()
    operator.serial = operator.served + 1
    operator.file.write_text(f"$TTL {TTL}\n" + "\n".join(operator.records()) + "\n")
    await Operator.act(operator)
    await is_right(operator)
    await replace_one(operator, "zsk-roll")


HONEST = {"from-bind-to-pdns-to-knot": round_trip}
