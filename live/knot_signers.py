"""Knot as the signer of scenes: with its keys in files, and in SoftHSM."""

import asyncio
import json
import time

from from_bind import HERE
from keys import run
from processes import program
from signers import SceneSigner

KNOT = """\
server:
  rundir: "{folder}"
  listen: {here}@{port}
control:
  listen: "{folder}/sock"
database:
  storage: "{folder}"
acl:
  - id: all
    address: 127.0.0.0/8
    action: transfer
{keystore}policy:
  - id: scene
    {policy}
zone:
  - domain: {zone}
    file: "{folder}/zone"
    acl: all
    zonefile-sync: -1
    zonefile-load: difference-no-serial
    journal-content: all
    dnssec-signing: {signing}
    dnssec-policy: scene
"""
BY_COMMAND = "manual: on\n    cds-cdnskey-publish: rollover"
SOFTHSM, PIN = "/usr/lib/softhsm/libsofthsm2.so", "1234"
KEYSTORE = f"""\
keystore:
  - id: hsm
    backend: pkcs11
    config: "pkcs11:token=knot;pin-value={PIN} {SOFTHSM}"
"""
# A day that never comes, for a key that is made in a store.
FAR = "20991231000000"


def is_past(moment):
    """Whether a time of Knot has come: 0 never does."""
    return 0 < moment <= time.time()


class KnotSigner(SceneSigner):
    name, tools, source, rolls_to_csk = "knot", ("keymgr", "knotc"), "knot", True
    keystore, kept_in, automatic = "", "", "cds-cdnskey-publish: rollover"

    def conf(self, signing, policy=BY_COMMAND):
        (self.folder / "knot.conf").write_text(KNOT.format(
            folder=self.folder, here=HERE, port=self.port, zone=self.zone.name, signing=signing,
            keystore=self.keystore, policy=policy + self.kept_in))

    def knotd(self):
        return ("knotd",)

    async def start(self, serial):
        self.write(serial)
        self.conf("off")
        self.process(*self.knotd(), "-c", str(self.folder / "knot.conf"))
        await self.is_up()
        self.conf("on")
        await self.reload()

    async def change(self, serial):
        self.write(serial)
        await run(self.folder, "knotc", "-c", "knot.conf", "zone-reload", self.zone.name)

    async def reload(self):
        await run(self.folder, "knotc", "-c", "knot.conf", "reload")
        await asyncio.sleep(1)

    def options(self):
        return ["--signer", self.name.partition("-")[0], "--signer-config",
                self.folder / "knot.conf"]

    def source_options(self):
        store = self.folder / "keys" / "keys"
        return ["--source", self.folder / "knot.conf", "--store", store]

    async def make_own_keys(self):
        """Knot signs by a policy of its own, under which it may roll at any time."""
        self.conf("on", self.automatic)
        await self.reload()
        await run(self.folder, "knotc", "-c", "knot.conf", "-b", "zone-sign", self.zone.name)

    async def has_ds(self):
        await run(self.folder, "knotc", "-c", "knot.conf", "zone-ksk-submitted", self.zone.name)

    async def is_taken_over(self):
        """From now on its policy leaves the keys to the command."""
        self.conf("on")
        await self.reload()

    async def list(self):
        return json.loads(await self.keymgr("list", "-j") or "[]")

    async def keymgr(self, *words):
        return await run(self.folder, "keymgr", "-c", "knot.conf", self.zone.name, *words)

    async def held(self):
        def those(begin, end):
            return {it["tag"] for it in keys
                    if is_past(it[begin]) and not (is_past(it[end]) or is_past(it["remove"]))}

        keys = await self.list()
        given = those("publish", "remove")
        return given, those("active", "retire") | those("ready", "active") & given


class KnotByPkcs11(KnotSigner):
    """Its keys are in SoftHSM, and never leave it."""

    name, keystore, kept_in = "knot-pkcs11", KEYSTORE, "\n    keystore: hsm"

    async def start(self, serial):
        (self.folder / "tokens").mkdir()
        self.settings = self.folder / "softhsm2.conf"
        self.settings.write_text(f"directories.tokendir = {self.folder}/tokens\n")
        await self.with_token("softhsm2-util", "--init-token", "--free", "--label", "knot",
                              "--pin", PIN, "--so-pin", PIN)
        await super().start(serial)

    def environment(self):
        return {"SOFTHSM2_CONF": str(self.settings)}

    def knotd(self):
        """The server, with the token in its environment."""
        copy = self.zone.world.processes.copy("knotd")
        return "env", f"SOFTHSM2_CONF={self.settings}", str(copy)

    async def with_token(self, tool, *words):
        setting = f"SOFTHSM2_CONF={self.settings}"
        return await run(self.folder, "env", setting, program(tool), *words)

    async def keymgr(self, *words):
        return await self.with_token("keymgr", "-c", "knot.conf", self.zone.name, *words)

    async def key(self, *flag, algorithm):
        """A key that is made there, with times that never come."""
        kinds = ["ksk=yes", "zsk=no"] if flag else ["ksk=no", "zsk=yes"]
        far = [f"{it}={FAR}" for it in ("publish", "active")]
        number = await self.keymgr("generate", f"algorithm={algorithm}", *kinds, *far)
        record = await self.keymgr("dnskey", number.split()[-1])
        return self.write_key(record.partition(" DNSKEY ")[2].strip())

    def source_options(self):
        return ["--source", self.folder / "knot.conf"]
