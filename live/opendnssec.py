"""OpenDNSSEC, with all that it has in one folder: its enforcer and its signer sign a zone by keys
of a SoftHSM token. Knot goes on with the keys of that token."""

import asyncio
import re
import signal
import sqlite3
from pathlib import Path

from by_command import DS_TTL, TTL
from from_bind import HERE
from keys import run
from knot_signers import FAR, KEYSTORE, PIN, SOFTHSM, KnotByPkcs11, KnotSigner
from processes import SceneFailure, end, outcome, program
from signers import FileTools

SCHEMA = Path("/usr/share/opendnssec/schema.sqlite")
VERSION = "INSERT INTO databaseVersion (version) VALUES (1);"
TOKEN = "opendnssec"
HEAD = '<?xml version="1.0" encoding="UTF-8"?>\n'
CONF = """\
<Configuration>
  <RepositoryList>
    <Repository name="hsm">
      <Module>{module}</Module><TokenLabel>{token}</TokenLabel><PIN>{pin}</PIN>
    </Repository>
  </RepositoryList>
  <Common>
    <Logging><Verbosity>3</Verbosity></Logging>
    <PolicyFile>{folder}/kasp.xml</PolicyFile>
    <ZoneListFile>{folder}/zonelist.xml</ZoneListFile>
  </Common>
  <Enforcer>
    <Datastore><SQLite>{folder}/kasp.db</SQLite></Datastore>
    <AutomaticKeyGenerationPeriod>PT60S</AutomaticKeyGenerationPeriod>
    <WorkingDirectory>{folder}/enforcer</WorkingDirectory>
  </Enforcer>
  <Signer>
    <WorkingDirectory>{folder}/signer</WorkingDirectory>
    <Listener><Interface><Address>{here}</Address><Port>{port}</Port></Interface></Listener>
  </Signer>
</Configuration>
"""
# A signature is renewed once it is some seconds old: so a roll of a ZSK, which waits for that, is
# soon over. It goes by the clock alone: so servers may take far longer than they do for a version.
KASP = """\
<KASP>
  <Policy name="scene">
    <Description>of seconds</Description>
    <Signatures>
      <Resign>PT{resign}S</Resign><Refresh>PT86396S</Refresh>
      <Validity><Default>PT86400S</Default><Denial>PT86400S</Denial></Validity>
      <Jitter>PT0S</Jitter><InceptionOffset>PT3600S</InceptionOffset>
      <MaxZoneTTL>PT{ttl}S</MaxZoneTTL>
    </Signatures>
    <Denial><NSEC/></Denial>
    <Keys>
      <TTL>PT{ttl}S</TTL><RetireSafety>PT2S</RetireSafety><PublishSafety>PT2S</PublishSafety>
      <KSK>{key}</KSK>
      <ZSK>{key}</ZSK>
    </Keys>
    <Zone>
      <PropagationDelay>PT12S</PropagationDelay>
      <SOA><TTL>PT{ttl}S</TTL><Minimum>PT{ttl}S</Minimum><Serial>counter</Serial></SOA>
    </Zone>
    <Parent>
      <PropagationDelay>PT2S</PropagationDelay>
      <DS><TTL>PT{ds_ttl}S</TTL></DS>
      <SOA><TTL>PT{ds_ttl}S</TTL><Minimum>PT{ds_ttl}S</Minimum></SOA>
    </Parent>
  </Policy>
</KASP>
"""
# How often its signer renews signatures, by that policy.
RESIGN = 5
KEY = """<Algorithm length="256">13</Algorithm><Lifetime>P365D</Lifetime>\
<Repository>hsm</Repository>"""
BY_HAND = "<ManualRollover/>"
ZONES = """\
<ZoneList>
  <Zone name="{zone}">
    <Policy>scene</Policy>
    <SignerConfiguration>{folder}/signconf.xml</SignerConfiguration>
    <Adapters>
      <Input><Adapter type="File">{folder}/zone</Adapter></Input>
      <Output><Adapter type="File">{folder}/zone.signed</Adapter></Output>
    </Adapters>
  </Zone>
</ZoneList>
"""
# Its settings can't say where the signer's socket is, and its enforcer looks for that in /run: so
# each daemon finds this folder there, and nobody else does.
INSIDE = """\
cd "$0" && mount -t tmpfs none /run && mkdir /run/opendnssec && mount --bind . /run/opendnssec &&
exec setpriv --pdeathsig KILL "$@"
"""
SOCKETS = {"signer": "engine.sock", "enforcer": "enforcer.sock"}
# A key of the script, by its kind, its number in the store, and its algorithm.
ADDED = re.compile(r"^add-(ksk|zsk) \S+ pkcs11:id=(\S+) (\d+) ", re.MULTILINE)
# What its lists show: a KSK whose DS it waits for, with its tag; a ZSK whose record leaves; and
# that no key is on its way.
WAITS = r"^\S+\s+KSK [^\n]*waiting for ds-seen[^\n]* (\d+)\s*$"
LEAVES = r"ZSK +NA +unretentive"
RESTS = r"\A(?!.*(?:rumoured|unretentive|null))"
PATIENCE, APART = 60, 3


class OpenDnssec(FileTools):
    """OpenDNSSEC signs the zone by keys of its token, and rolls them by a policy."""

    name, source = "opendnssec", "opendnssec"

    @property
    def of_zone(self):
        return "--zone", self.zone.name.rstrip(".")

    async def start(self, serial):
        self.write(serial)
        for name in ("tokens", "run", "enforcer", "signer"):
            (self.folder / name).mkdir()
        await self.make_token()
        self.write_settings()
        with sqlite3.connect(self.folder / "kasp.db") as database:
            database.executescript(SCHEMA.read_text() + VERSION)
        for daemon in SOCKETS:
            await self.start_daemon(daemon)
        await self.enforcer("policy", "import")
        await self.enforcer("zonelist", "import")

    async def make_token(self):
        self.token = self.folder / "softhsm2.conf"
        self.token.write_text(f"directories.tokendir = {self.folder}/tokens\n")
        await run(self.folder, "env", f"SOFTHSM2_CONF={self.token}", program("softhsm2-util"),
                  "--init-token", "--free", "--label", TOKEN, "--pin", PIN, "--so-pin", PIN)

    def write_settings(self, rolls=""):
        """Its settings. Its policy has the keys roll by themselves, or by hand."""
        texts = {
            "conf.xml": CONF.format(module=SOFTHSM, token=TOKEN, pin=PIN, folder=self.folder,
                                    here=HERE, port=self.port),
            "kasp.xml": KASP.format(ttl=TTL, ds_ttl=DS_TTL, resign=RESIGN,
                                    key=KEY + rolls),
            "zonelist.xml": ZONES.format(zone=self.of_zone[1], folder=self.folder),
        }
        for name, text in texts.items():
            (self.folder / name).write_text(HEAD + text)

    def process_of(self, daemon):
        return f"ods-{daemon}d-{self.of_zone[1]}"

    async def start_daemon(self, daemon):
        """One after the other: of two that open the token at once, one may not find it, and end."""
        self.zone.world.processes.start(
            self.process_of(daemon), "env", f"SOFTHSM2_CONF={self.token}", program("unshare"),
            "--map-root-user", "--mount", "sh", "-c", INSIDE, str(self.folder / "run"),
            program(f"ods-{daemon}d"), "-d", "-c", str(self.folder / "conf.xml"))
        for _ in range(PATIENCE * 2):
            self.zone.world.processes.check()
            status, *_ = await outcome(*self.words_of(daemon, "running"))
            if not status:
                return
            await asyncio.sleep(0.5)
        raise SceneFailure(f"ods-{daemon}d doesn't start")

    def socket(self, daemon):
        return self.folder / "run" / SOCKETS[daemon]

    def words_of(self, daemon, *words):
        """The tool of a daemon, with its words."""
        return program(f"ods-{daemon}"), "--socket", str(self.socket(daemon)), *words

    async def enforcer(self, *words):
        """What the enforcer says."""
        return await run(self.folder, *self.words_of("enforcer", *words))

    def source_options(self):
        return ["--source", self.socket("enforcer")]

    async def shows(self, what, how):
        """Waits until the list of its keys shows this, and gives that."""
        for _ in range(PATIENCE * 2):
            output = await self.enforcer("key", "list", how)
            if match := re.search(what, output, re.DOTALL | re.MULTILINE):
                return match
            await asyncio.sleep(0.5)
        raise SceneFailure(f"the enforcer doesn't show {what}: {output}")

    async def has_ds(self):
        """Its operator says so, once the enforcer waits for that."""
        waits = await self.shows(WAITS, "--verbose")
        await self.enforcer("key", "ds-seen", *self.of_zone, "--keytag", waits[1])

    async def rolls(self):
        """It replaces its ZSK, and nothing rolls by itself any more. Its signer doesn't read what
        the enforcer writes in the second in which it has read something already, and then doesn't
        publish the new key before that signs: so its operator lets some seconds pass."""
        self.write_settings(BY_HAND)
        for words in (("policy", "import"),
                      ("key", "rollover", *self.of_zone, "--keytype", "ZSK")):
            await asyncio.sleep(APART)
            await self.enforcer(*words)

    async def renews(self):
        """Signatures are renewed: its signer didn't do that by itself so often."""
        while True:
            await run(self.folder, *self.words_of("signer", "sign", self.of_zone[1]))
            await asyncio.sleep(RESIGN)

    async def stop(self, daemon):
        """Stops a daemon, as its operator does."""
        process = self.zone.world.processes.running.pop(self.process_of(daemon))
        try:
            # Its tool waits until the process is gone: so somebody has to ask how that ended.
            await asyncio.gather(run(self.folder, *self.words_of(daemon, "stop")),
                                 asyncio.to_thread(process.wait, PATIENCE))
        finally:
            end(process, signal.SIGKILL)


class KnotOfItsToken(KnotByPkcs11):
    """Knot signs by keys that OpenDNSSEC has made."""

    keystore = KEYSTORE.replace("token=knot", f"token={TOKEN}")

    async def start_after(self, before, serial):
        """Knot finds the token, and gives the zone unsigned until the first act."""
        self.settings = before.token
        await KnotSigner.start(self, serial)

    async def take(self, script):
        """The keys of the script come in by what it calls them, with times that never come."""
        for kind, number, algorithm in ADDED.findall(script.read_text()):
            kinds = [f"{it}={'yes' if it == kind else 'no'}" for it in ("ksk", "zsk")]
            await self.keymgr("import-pkcs11", number.replace("%", ""), f"algorithm={algorithm}",
                              *kinds, f"publish={FAR}", f"active={FAR}")
