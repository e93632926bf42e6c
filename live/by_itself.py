"""Zones that nobody touches: `vaqsider tick` does all by a policy with lifetimes of seconds. It is
killed at random, runs twice at once, and by a clock that jumps; servers fail and come back; and the
parent reads CDS when it likes, or has a registrar that is slow. BIND's tools sign, or a signer that
runs: its database is compared with the status after each roll.

Those with files have servers that fail, so they are played by their names only."""

import asyncio
import contextlib
import itertools
import json
import os
import random
import signal
import sys
import time
from collections import Counter
from dataclasses import dataclass
from typing import Optional

from asking import ask, data_of, is_signed_by_ds
from by_command import DS_TTL, OK, TTL
from knot_signers import KnotSigner
from parent import NEGATIVE
from pdns_signers import Pdns
from places import CHILD, PARENT
from processes import SceneFailure, end
from running import SignerOperator
from signers import NamedSigner, replace

# For how long each scene is played, that of a signer that runs, and the most that one may take with
# its end, in seconds.
SECONDS = int(os.environ.get("BY_ITSELF_SECONDS", "1200"))
OF_SIGNER = 300
MOST = SECONDS + 300
# How far the clock of a tick is wrong at most, how long a server is away that has crashed, and one
# that stands still (after four seconds PowerDNS gives SERVFAIL), and how slow the registrar is.
CLOCK, AWAY, STILL, SLOW = 3, 3, 1, 5
# A roll is over so many seconds after its key's time, with all that is done to it. If a policy
# changes, then after so many seconds.
BOUND, CHANGES = 120, 150
NEEDED = 2
# The scene in which servers fail, and the first serial of a signer that runs.
FAILS, FIRST = "by-itself", 2
POLICY = """\
{rolls}
keygen {keygen}
{signing}
server {servers}
parent-server {parents}
port {port}
patience 4min
clock {clock}s
purge 60s
on-event {folder}/on-event
{parent}
"""
KEYGEN = ("dnssec-keygen", "-q")
OF_FILES = """\
zone-file zone
out zone.signed
signatures 10min
renew-before 5min"""
# What runs the command with a clock that is wrong by so many seconds.
WRONG = ("import sys, time; right, by = time.time, int(sys.argv.pop(1)); "
         "time.time = lambda: right() + by; from vaqsider.cli import main; sys.exit(main())")
ON_DS = f"#!/bin/sh\nread -r line\nsleep {SLOW}\nprintf '%s\\n' \"$line\" >>registrar\n"
ON_EVENT = "#!/bin/sh\ncat >>events\n"


@dataclass(frozen=True)
class PolicyCase:
    """A policy: its rolls, how long keys live by it, how the parent gets the DS set, what signs,
    for how long nobody touches the zone, and what rolls it has later, in turn."""

    rolls: str
    lifetimes: dict
    is_by_registrar: bool = False
    signer: Optional[type] = None
    seconds: int = SECONDS
    later: tuple = ()

    def text(self, rolls, **places):
        lines = [rolls, *(f"{role}-lifetime {of}s" for role, of in self.lifetimes.items())]
        parent = "parent cds"
        if self.is_by_registrar:
            parent = f"parent hook\non-ds {places['folder']}/on-ds"
        keygen = " ".join([*KEYGEN, *(self.signer.times_of_keys if self.signer else ())])
        return POLICY.format(
            rolls="\n".join(lines), parent=parent, clock=CLOCK, keygen=keygen, **places)


CASES = {
    "by-itself": PolicyCase("policy 13 ksk-roll zsk-roll", {"ksk": 150, "zsk": 70}),
    "by-itself-other-rolls": PolicyCase(
        "policy 13 ksk-double-ds-roll zsk-double-signature-roll", {"ksk": 170, "zsk": 90}, True),
    "by-itself-csk": PolicyCase("policy 13 csk-roll", {"csk": 100}),
    "by-itself-algorithms": PolicyCase("policy 13 ksk-roll zsk-roll", {}, later=(
        "policy 14 csk-roll", "policy 13 csk-roll", "policy 14 ksk-roll zsk-roll")),
    "by-itself-pdns": PolicyCase(
        "policy 13 ksk-roll zsk-roll", {"ksk": 110, "zsk": 60}, False, Pdns, OF_SIGNER),
    "by-itself-knot": PolicyCase("policy 13 ksk-double-ds-roll zsk-double-signature-roll",
                                 {"ksk": 110, "zsk": 60}, False, KnotSigner, OF_SIGNER),
    "by-itself-inline": PolicyCase(
        "policy 13 ksk-roll zsk-roll", {"ksk": 110, "zsk": 60}, True, NamedSigner, OF_SIGNER),
}


class Timer(SignerOperator):
    """Nobody: a timer runs ticks. The primary loads what they have written, and the parent does
    what it reads, or what its registrar gets."""

    def __init__(self, zone, case):
        super().__init__(zone)
        self.case, self.dice, self.counts = case, random.Random(zone.dice.random()), Counter()
        self.script = self.folder / "by-itself.script"
        self.until, self.wrong_by, self.last = time.monotonic() + case.seconds, 0, ""
        self.signer = case.signer(self) if case.signer else None

    async def begin(self):
        """An unsigned zone and a policy. These ten lines are all that anybody writes."""
        if self.signer is None:
            await self.changes()
        else:
            await self.signer.start(FIRST)
        self.write_policy(self.case.rolls)
        for name, text in (("on-ds", ON_DS), ("on-event", ON_EVENT)):
            (self.folder / name).write_text(text)
            (self.folder / name).chmod(0o755)
        ttl = self.zone.first.longest
        await self.type("init", self.zone.name, "--script", self.script, "--before", NEGATIVE, ttl,
                        ttl)
        # (Usual delays, which it counts before there are notes, are longer than these lifetimes.)
        await self.type("policy", "check", self.script, ends=(OK, NEEDED))

    def write_policy(self, rolls):
        text = self.case.text(
            rolls, servers=" ".join(self.zone.servers), parents=" ".join(PARENT),
            port=self.zone.world.port, folder=self.folder, signing=self.signing())
        replace(self.script.with_suffix(".policy"), text)

    def signing(self):
        """The lines of the policy that say how the zone is signed: an act's options."""
        if self.signer is None:
            return OF_FILES
        words = [str(word) for word in (*self.signer.options(), *self.signer.files())]
        return "\n".join(f"{option[2:]} {value}"
                         for option, value in zip(words[::2], words[1::2]))

    def is_over(self):
        return time.monotonic() > self.until

    async def goes_on(self):
        """All that goes on beside ticks, until the time is over or something fails."""
        await side_by_side(self.primary(), self.parent(), self.changing(), self.jumping(),
                           self.timer(), self.wishing())

    # ---- the timer

    async def timer(self):
        rolled = 0
        while not self.is_over():
            count, killed = 2 if self.dice.random() < 0.1 else 1, self.counts["killed"]
            await asyncio.gather(*(self.tick() for _ in range(count)))
            if self.signer and self.counts["killed"] == killed and self.rolled() > rolled:
                rolled = self.rolled()
                await self.look_into_database()
            await asyncio.sleep(self.dice.uniform(0.2, 1))

    def rolled(self):
        """How many rolls are done."""
        lines = self.script.read_text().splitlines()
        return sum(line.startswith("done ") for line in lines)

    async def look_into_database(self):
        """The signer has what the script says."""
        would = json.loads(await self.type(*self.words_of_act(), "--dry-run"))
        await self.compare(would["cds"])
        self.counts["looks into the database"] += 1

    async def tick(self):
        """A tick, which is killed at some moment, or ends."""
        process = await asyncio.create_subprocess_exec(
            sys.executable, "-c", WRONG, str(self.wrong_by), "tick", self.script, "--log", "json",
            cwd=self.folder, env=self.environment(), stdin=asyncio.subprocess.DEVNULL,
            stdout=asyncio.subprocess.PIPE, stderr=asyncio.subprocess.STDOUT,
            start_new_session=True)
        ended = asyncio.ensure_future(process.communicate())
        self.counts["ticks"] += 1
        if self.dice.random() < 0.15:
            await asyncio.wait((ended,), timeout=self.dice.uniform(0.1, 3))
            self.kill(process)
        out, _ = await ended
        if process.returncode >= NEEDED:
            raise SceneFailure(f"a tick ends with {process.returncode}: {out.decode()}")

    def kill(self, process):
        """Kills it, or all that it has started too."""
        if process.returncode is None:
            self.counts["killed"] += 1
            if self.dice.random() < 0.5:
                end(process, signal.SIGKILL)
            else:
                # (By `kill` of the process, which looks for its end, asyncio may lose that.)
                with contextlib.suppress(ProcessLookupError):
                    os.kill(process.pid, signal.SIGKILL)

    async def jumping(self):
        """The clock jumps, within what the policy allows."""
        while not self.is_over():
            await asyncio.sleep(self.dice.uniform(10, 30))
            self.wrong_by = self.dice.choice((0, 0, -CLOCK, CLOCK, -1, 1))
            self.counts["jumps of the clock"] += 1

    # ---- the zone's servers, and its content

    async def primary(self):
        """Loads the signed zone whenever it is another one."""
        while not self.is_over():
            text = await self.given()
            if text not in (None, self.last):
                self.last = text
                self.publish(text)
            await asyncio.sleep(0.1 if self.signer is None else 0.5)

    async def given(self):
        """The signed zone, as it is now."""
        if self.signer is None:
            return self.signed.read_text() if self.signed.exists() else None
        made = await self.signer.given()
        return None if made is None else made.to_text(relativize=False)

    async def changing(self):
        """Somebody changes the zone."""
        while not self.is_over():
            await asyncio.sleep(self.dice.uniform(30, 90))
            await self.changes()

    async def wishing(self):
        """Somebody wants other keys, by another algorithm or in other roles."""
        later = self.case.later
        for rolls in itertools.cycle((*later, self.case.rolls)) if later else ():
            await asyncio.sleep(min(CHANGES, self.until - time.monotonic()))
            if self.is_over():
                return
            self.write_policy(rolls)

    async def changes(self):
        self.counts["changes of the zone"] += 1
        if self.signer is None:
            replace(self.file, "\n".join([f"$TTL {TTL}", *self.records(), ""]))
        else:
            await self.signer.change(self.serial + 1)

    def records(self):
        count = self.counts["changes of the zone"]
        return [*super().records(), f"changed.{self.zone.name} {TTL} IN TXT {count}"]

    # ---- the parent

    async def parent(self):
        """It looks now and then, and is at work for a while on what is new."""
        while not self.is_over():
            await asyncio.sleep(self.dice.uniform(0.5, 4))
            wanted = self.registrar_ds() if self.case.is_by_registrar else await self.read()
            if wanted and wanted != self.zone.ds():
                await asyncio.sleep(self.dice.choice((0, 1, 2, 20)))
                is_first = not self.zone.ds()
                await self.zone.world.parent.change(self.zone.name, wanted, DS_TTL)
                self.counts["DS sets"] += 1
                if is_first:
                    self.zone.is_secure()

    def registrar_ds(self):
        """The DS set that the registrar got last."""
        file = self.folder / "registrar"
        lines = file.read_text().splitlines() if file.exists() else []
        return {it.partition(" DS ")[2].lower() for it in json.loads(lines[-1])["ds"]} if lines \
            else set()

    async def read(self):
        """The DS set that CDS asks for. The first one has to be the same on all servers."""
        port, name, has = self.zone.world.port, self.zone.name, self.zone.ds()
        servers = [self.dice.choice(self.zone.servers)] if has else self.zone.servers
        found = set()
        for server in servers:
            cds, keys = [await ask(server, port, name, kind) for kind in ("CDS", "DNSKEY")]
            data = data_of(cds, "CDS") if cds and keys else set()
            if not (data and is_signed_by_ds(cds, "CDS", keys, has or data)):
                return set()
            found.add(frozenset(data))
        return set(found.pop()) if len(found) == 1 else set()

    # ---- what has to be so at the end

    async def check(self):
        """Each key was replaced in time, none is left over, and no line is false."""
        lines = [line.split() for line in self.script.read_text().splitlines()]
        starts = [(words[1], int(words[4])) for words in lines if words[0] == "start"]
        for roll, lifetime in self.expected():
            moments = [begun for name, begun in starts if name in (roll, "algorithm-roll")]
            longest = max(b - a for a, b in zip(moments, [*moments[1:], time.time() - CLOCK]))
            self.counts[f"{roll}s"] = len(moments) - 1
            if longest > lifetime + BOUND or len(moments) < 2:
                raise SceneFailure(f"{roll}: a key was there for {longest:.0f} s: {starts}")
        here = {path.name for path in self.folder.glob("K*.key")}
        known = {words[1] for words in lines if words[0].startswith("add-")}
        gone = {words[1] for words in lines if words[0] == "delete"}
        if here - (known - gone) - self.new():
            raise SceneFailure(f"these key files are left over: {here - (known - gone)}")
        await self.type("check", self.script, "--json", ends=(0, 1))

    def expected(self):
        """Each roll, and how long keys live until it comes."""
        if self.case.later:
            return [("algorithm-roll", CHANGES)]
        rolls = self.case.rolls.split()[2:]
        return [(roll, self.case.lifetimes[roll[:3]]) for roll in rolls]

    def new(self):
        """Files of keys that the last tick has deleted, and was killed before it moved them."""
        lines = self.script.read_text().splitlines()[-3:]
        return {line.split()[1] for line in lines if line.startswith("delete ")}


async def failing(world, until, dice, counts):
    """Servers of the zones and of the parent fail, one at a time, and come back: they stand still,
    or crash."""
    names = {address: world.fleet.servers[address].name for address in (*CHILD["A"], *PARENT)}
    while time.monotonic() < until:
        await asyncio.sleep(dice.uniform(15, 40))
        name = names[dice.choice(list(names))]
        # (NSD would not outlive a notice of a new version while it starts.)
        await (crashes(world, name) if name.startswith("knot") else stands_still(world, name))
        counts["failures of servers"] += 1


async def crashes(world, name):
    world.processes.restarting.add(name)
    end(world.processes.running[name], signal.SIGKILL)
    await asyncio.sleep(AWAY)
    await world.processes.restart(name)


async def stands_still(world, name):
    process = world.processes.running[name]
    end(process, signal.SIGSTOP)
    try:
        await asyncio.sleep(STILL)
    finally:
        end(process, signal.SIGCONT)


async def side_by_side(*parts):
    """Runs these at once. After one has failed, the others are ended."""
    tasks = [asyncio.ensure_future(part) for part in parts]
    try:
        await asyncio.gather(*tasks)
    finally:
        for task in tasks:
            task.cancel()


def scene(name):
    async def played(zone):
        operator = Timer(zone, CASES[name])
        await operator.begin()
        parts = [operator.goes_on()]
        if name == FAILS:
            parts.append(failing(zone.world, operator.until, operator.dice, operator.counts))
        await side_by_side(*parts)
        await operator.check()
        counts = ", ".join(f"{count} {what}" for what, count in sorted(operator.counts.items()))
        print(f"    {zone.name} {counts}", flush=True)

    return played


HONEST = {name: scene(name) for name, case in CASES.items() if case.signer is None}
OF_SIGNERS = {name: scene(name) for name in CASES if name not in HONEST}
