"""An operator who types the command, and a tour only by it: from two key files and a zone file to
rolled keys."""

import asyncio
import json
import os
import sys
import time
from pathlib import Path

from dnspython import dns
from keys import ZoneVersion, plain_records, run
from parent import NEGATIVE
from places import PARENT, UNBOUND
from processes import PATHS, SceneFailure, outcome

HERE = Path(__file__).resolve().parent
# The command, and what has it look names up at one of the resolvers.
COMMAND, LOOKING_UP = HERE.parent / "command", HERE / "looking_up"
TTL, DS_TTL = 3, 2
# How the command ends: done, something is due, something can't be true, a resolver may find no
# chain of trust, or another program writes the same script.
OK, DUE, WARNING, BROKEN, UNAVAILABLE, LOCKED = 0, 1, 2, 3, 69, 75
KSK, ZSK = ("-f", "KSK"), ()


class Operator:
    """Types the command. The servers load what `act` has written, as a secondary does: only if its
    serial is above that of what they have."""

    def __init__(self, zone, serial=1, by_date=False):
        self.zone, self.folder = zone, zone.folder
        self.script = self.folder / "by-command.script"
        self.file, self.signed = self.folder / "zone", self.folder / "zone.signed"
        self.serial, self.by_date, self.served = serial, by_date, 0
        # The servers that get new versions, and the name that the command's resolver doesn't find.
        self.servers, self.not_found = zone.servers, ""

    def environment(self):
        """The command finds its programs by what the environment of this run says of them."""
        said = {name: value for name, value in os.environ.items() if name.startswith("KEYSET_")}
        port = str(self.zone.world.port)
        return {
            **said, "PATH": PATHS, "PYTHONPATH": f"{COMMAND}:{LOOKING_UP}",
            "LOOKING_UP": UNBOUND, "LOOKING_UP_PORT": port, "LOOKING_UP_FAILS": self.not_found,
            "PYTHONPYCACHEPREFIX": str(self.zone.world.folder / "compiled"),
        }

    async def type(self, *words, ends=(OK,)):
        """Types a word of the command, and gives what that prints."""
        status, out, err = await outcome(
            sys.executable, "-m", "vaqsider", *map(str, words), cwd=self.folder,
            env=self.environment(),
        )
        if status not in ends:
            raise SceneFailure(f"vaqsider {' '.join(map(str, words))}: {status}: {out}{err}")
        return out

    async def key(self, *flag, algorithm="13"):
        """A new key file."""
        return (await run(
            self.folder, "dnssec-keygen", "-q", "-a", algorithm, *flag, self.zone.name
        )).strip() + ".key"

    async def call(self, line):
        """Makes a call, and gives its actions."""
        return json.loads(await self.type("call", self.script, line, "--json"))["actions"]

    def records(self):
        """The zone without DNSSEC."""
        version = ZoneVersion(self.serial, TTL, TTL)
        return list(plain_records(self.zone.name, version, self.zone.letters))

    async def act(self, *how):
        """Signs and publishes. Gives the data of the DS records for the parent."""
        if not self.by_date:
            self.serial += 1
        self.file.write_text(f"$TTL {TTL}\n" + "\n".join(self.records()) + "\n")
        done = json.loads(await self.type(*self.words_of_act(), *how))
        self.publish(self.signed.read_text())
        return [record.partition(" DS ")[2].lower() for record in done["ds"]]

    def words_of_act(self):
        """An act on the zone file as it is."""
        files = ["--zone-file", self.file, "--out", self.signed]
        return ["act", self.script, *files, *self.parents(), "--json"]

    def publish(self, text):
        """Gives a version to the servers, if they take it as a newer one (RFC 1982)."""
        made = dns.zone.from_text(text, self.zone.name, relativize=False)
        serial = made.get_soa().serial
        if self.served and not dns.serial.Serial(serial) > dns.serial.Serial(self.served):
            return
        self.served = serial
        self.zone.world.fleet.publish(self.servers, self.zone.name, text)

    async def watch(self, *how, seconds=30, ends=(OK,)):
        """Watches until all servers have what is due."""
        return await self.type(
            "watch", self.script, *self.named(), "--every", "0.3", "--for", seconds, *how, ends=ends
        )

    def named(self):
        """The servers, and the port that all have, as the command line names them."""
        servers = [word for server in self.zone.servers for word in ("--server", server)]
        return [*servers, *self.parents()]

    def parents(self):
        """Where the servers of the parent are, and which port all have."""
        servers = [word for server in PARENT for word in ("--parent-server", server)]
        return [*servers, "--port", self.zone.world.port]

    async def step(self, line):
        """A call, with all that it asks for, up to the report or the end of the roll."""
        actions = await self.call(line)
        records = await self.act()
        if "UpdateDsRrset" in actions:
            await self.change_ds(records)
        await self.watch("--call")

    async def change_ds(self, records):
        """Has the parent's DS set changed. CDS and CDNSKEY are still out when it is, or still on
        their way to the servers."""
        await self.zone.world.parent.change(self.zone.name, records, DS_TTL)
        await self.watch(ends=(OK, DUE))
        await self.act("--no-cds")

    async def wait(self, roll):
        """Returns the call of a roll's wait, once the wait is over."""
        (zone_status,) = json.loads(await self.type("status", self.script, "--json"))
        going = next(it for it in zone_status["rolls"] if it["roll"] == roll)
        await asyncio.sleep(max(0, going["not_before"] - time.time()))
        return f"{going['next']} {roll} now"

    async def roll(self, roll, old, new):
        """A roll from its start to its end."""
        await self.step(f"start {roll} {old} {new} now")
        await self.finish(roll)

    async def finish(self, roll):
        """The rest of a roll after its first report."""
        for _ in (1, 2):
            await self.step(await self.wait(roll))

    async def begin_roll(self, roll, old, flag):
        """Starts a roll from an old key to a new one, which it gives. Nothing is published yet."""
        new = await self.key(*flag)
        await self.call(f"add {new}")
        await self.call(f"start {roll} {old} {new} now")
        return new

    async def replace(self, roll, old, flag, word="add"):
        """A roll from an old key to a new one, which it gives."""
        new = await self.key(*flag)
        await self.call(f"{word} {new}")
        await self.roll(roll, old, new)
        await self.call(f"delete {old}")
        return new

    async def first_keys(self):
        """A KSK and a ZSK come into the unsigned zone."""
        ksk, zsk, ttl = await self.key(*KSK), await self.key(), self.zone.first.longest
        await self.type(
            "init", self.zone.name, ksk, zsk, "--script", self.script, "--before", NEGATIVE, ttl,
            ttl,
        )
        await self.roll("algorithm-roll", "-", f"{ksk},{zsk}")
        self.zone.is_secure()
        return ksk, zsk


async def tour(zone):
    """First keys, then another ZSK, then another KSK."""
    operator = Operator(zone)
    ksk, zsk = await operator.first_keys()
    await operator.replace("zsk-roll", zsk, ZSK)
    await operator.replace("ksk-roll", ksk, KSK)
    await operator.watch("--state")
    await operator.type("check", operator.script)
