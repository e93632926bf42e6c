"""Zones that roll by ticks, and a person beside them: one types `next` and `roll`, and gives the
parent a DS set; another does what events ask for. ldns makes the keys and signs."""

import asyncio
import json
import re
import shutil
import sys
import time

from by_command import DS_TTL, DUE, OK, TTL, WARNING
from commanded import expect, is_everywhere
from parent import NEGATIVE
from places import PARENT
from processes import outcome
from running import SignerOperator
from signers import replace

# For how long servers and the parent may lack something, and the most that one thing may take, in
# seconds.
PATIENCE, MOST = 25, 240
POLICY = """\
policy 13 ksk-roll zsk-roll
keygen ldns-keygen
signer ldns
zone-file zone
out zone.signed
server {servers}
parent-server {parents}
port {port}
patience {patience}s
"""
# How long signatures are valid, and how long before their end they are renewed; and both in the
# step in which they run low. A person has to know it at half of the last time.
USUAL, LOW = (600, 300), (120, 90)
# What keeps what it gets, and a tool that fails.
KEEPS, FAILS = "#!/bin/sh\ncat >>{file}\n", "#!/bin/sh\nexit 9\n"
TO_PARENT = re.compile(r" IN DS ([^;\n]+)")


class Person(SignerOperator):
    """Types words. After each of them the servers get what it has signed."""

    def __init__(self, zone):
        super().__init__(zone)
        self.script, self.valid = self.folder / "by-words.script", USUAL
        self.policy = []

    async def begin(self, *policy):
        """An unsigned zone, and a policy with these lines."""
        self.change()
        self.says(*policy)
        ttl = self.zone.first.longest
        await self.type("init", self.zone.name, "--script", self.script, "--before", NEGATIVE, ttl,
                        ttl)

    def change(self):
        """The unsigned zone is another one."""
        self.serial += 1
        replace(self.file, "\n".join([f"$TTL {TTL}", *self.records(), ""]))

    def says(self, *lines):
        """The policy has these lines too."""
        self.policy += lines
        text = POLICY.format(servers=" ".join(self.zone.servers), parents=" ".join(PARENT),
                             port=self.zone.world.port, patience=PATIENCE)
        valid, before = self.valid
        lines = [f"signatures {valid}s", f"renew-before {before}s", *self.policy]
        replace(self.script.with_suffix(".policy"), "\n".join([text, *lines, ""]))

    def lines(self):
        return self.script.read_text().splitlines()

    def calls_of(self, roll):
        """The words of a roll's calls in the script."""
        return [line.split(" ")[0] for line in self.lines() if f" {roll}" in line]

    async def typed(self, *words):
        ended = await super().typed(*words)
        self.give()
        return ended

    def give(self):
        """The servers get the signed zone, if it is newer."""
        if self.signed.exists():
            self.publish(self.signed.read_text())

    async def answers(self, answer, *words):
        """Types a word that asks, and answers that."""
        line = [sys.executable, "-m", "vaqsider", *map(str, words)]
        status, out, err = await outcome("sh", "-c", 'echo "$0" | "$@"', answer, *line,
                                         cwd=self.folder, env=self.environment())
        expect(status in (OK, DUE), f"{words} with {answer} ends with {status}: {out}{err}")
        self.give()
        return out

    async def until(self, is_so, *words, ends=(OK, DUE)):
        """Types a word again and again until something is so, and gives what was said then."""
        end = time.monotonic() + MOST
        while True:
            before = len(self.lines())
            status, said = await self.typed(*words)
            if is_so(said):
                return said
            expect(status in ends, f"{words} ends with {status}: {said}")
            expect(words[0] != "next" or len(self.lines()) <= before + 1, f"next does more: {said}")
            expect(time.monotonic() < end, f"after {MOST} s {words} says {said}")
            await asyncio.sleep(0.5)

    async def gives_ds(self, records):
        """Has the parent publish a DS set."""
        is_first = not self.zone.ds()
        data = [it.strip().lower() for it in records]
        await self.zone.world.parent.change(self.zone.name, data, DS_TTL)
        if is_first:
            self.zone.is_secure()

    async def looks(self):
        """All servers have what is due, and the script can be true. (Signatures of some minutes are
        always to be renewed.)"""
        await is_everywhere(self.zone)
        await self.watch("--state")
        await self.type("check", self.script, ends=(OK, DUE))

    def is_over(self, roll):
        return lambda _: f"done {roll}" in self.lines()


async def words(zone):
    """A person does one thing at a time by `next`, and gives the parent the DS set that this asks
    for. Then `roll` shows a ZSK roll, and begins it after a yes. Ticks do the rest."""
    person = Person(zone)
    await person.begin("parent ask")
    by_hand = ("next", person.script)
    said = await person.until(TO_PARENT.search, *by_hand)
    await person.gives_ds(TO_PARENT.findall(said))
    await person.until(person.is_over("algorithm-roll"), *by_hand, ends=(OK, DUE, WARNING))
    before, roll = person.lines(), ("roll", person.script, "zsk")
    shown, begin, _ = (await person.answers("no", *roll)).partition("begin? [y/N]")
    expect(begin and person.lines() == before, f"a roll without a yes: {shown}")
    await person.answers("y", *roll)
    await person.until(lambda _: person.lines()[-1].startswith("delete "), "tick", person.script)
    would = [line.split()[2] for line in shown.splitlines() if " zsk-roll" in line]
    expect(would == person.calls_of("zsk-roll"), f"it has shown {shown}, and made {person.lines()}")
    await person.looks()


class PersonOnCall(Person):
    """Ticks run, and say to a person what needs one."""

    async def begin(self, *policy):
        for name in ("on-ds", "on-event"):
            (self.folder / name).write_text(KEEPS.format(file=self.folder / f"{name}.json"))
            (self.folder / name).chmod(0o755)
        await super().begin(*policy)
        self.tick = ("tick", self.script, *(it for name in ("on-ds", "on-event")
                                            for it in (f"--{name}", self.folder / name)))

    def kept(self, name):
        """What a command has got, each time."""
        file = self.folder / f"{name}.json"
        return [json.loads(it) for it in file.read_text().splitlines()] if file.exists() else []

    async def ticks(self, is_so):
        return await self.until(is_so, *self.tick, ends=(OK, DUE, WARNING))

    async def hears(self, event, says):
        """Ticks run until the person hears of this event, with a text that says it."""
        known, since = len(self.kept("on-event")), time.time()
        await self.ticks(lambda _: len(self.kept("on-event")) > known)
        (heard,) = self.kept("on-event")[known:]
        is_right = heard.keys() == {"event", "zone", "text", "moment"} \
            and heard["event"] == event and heard["zone"] == self.zone.name.rstrip(".") \
            and says in heard["text"] and since - 1 <= heard["moment"] <= time.time()
        expect(is_right, f"instead of {event}, {says}, a person hears {heard}")

    async def hands_over(self):
        """The registrar does what it got last, and the roll that waits for it goes on."""
        await self.gives_ds([it.partition(" DS ")[2] for it in self.kept("on-ds")[-1]["ds"]])


async def events(zone):
    """A person hears, once each, that the parent lacks the DS set, that a server lacks a version,
    that a roll can't be signed, that the signer fails and that signatures run low; and mends it."""
    person = PersonOnCall(zone)
    await person.begin()
    await parent_lacks(person)
    await server_stays_behind(person)
    await key_is_away(person)
    await signer_fails(person)
    found = [it["event"] for it in person.kept("on-event")]
    expect(len(found) == 5, f"a person has heard of {found}")
    await person.looks()


async def parent_lacks(person):
    """The registrar gets the set once, and does nothing for long."""
    await person.hears("parent lacks", "DS none, not ")
    lines = person.kept("on-ds")
    expect(len(lines) == 1 and lines[0].keys() == {"zone", "ds", "call"}, f"on-ds gets {lines}")
    await person.hands_over()
    await person.ticks(person.is_over("algorithm-roll"))


async def server_stays_behind(person):
    """A server gets no new version in a ZSK roll."""
    *person.servers, late = person.zone.servers
    person.says(f"zsk-once {int(time.time())}")
    await person.hears("stuck", late)
    person.servers, person.served = person.zone.servers, 0
    person.give()
    await person.ticks(person.is_over("zsk-roll"))


async def key_is_away(person):
    """A KSK is to be rolled whose private half isn't here. After it is back the roll begins."""
    line = next(line for line in person.lines() if line.startswith("add-ksk "))
    key = (person.folder / line.split(" ")[1]).with_suffix(".private")
    away = shutil.move(key, person.folder / "away")
    person.says(f"ksk-once {int(time.time())}")
    await person.hears("refused", "can't do a ksk-roll")
    shutil.move(away, key)
    await person.ticks(lambda _: len(person.kept("on-ds")) == 2)
    await person.hands_over()
    await person.ticks(person.is_over("ksk-roll"))


async def signer_fails(person):
    """Signatures that are soon to be renewed can't be, until they run low."""
    failing, person.valid = person.folder / "failing", LOW
    person.says()
    person.change()
    await person.ticks(lambda said: "published" in said)
    failing.mkdir()
    (failing / "ldns-signzone").write_text(FAILS)
    (failing / "ldns-signzone").chmod(0o755)
    person.path = str(failing)
    await person.hears("needs a person", "ldns-signzone")
    await person.hears("signatures run low", "signatures expire at")
    person.path, person.valid = "", USUAL
    person.says()
    await person.until(lambda said: "published" in said, *person.tick)


HONEST = {"by-itself-words": words, "by-itself-events": events}
