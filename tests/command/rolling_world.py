"""The world of tests in which zones roll by themselves: name servers, a parent, a signer and a
maker of keys, all in this process, and a clock that the test sets. Nothing here takes a second."""

from __future__ import annotations

import json
import os
from dataclasses import dataclass, field
from itertools import product
from pathlib import Path

import dns.dnssec
import dns.exception
import dns.flags
import dns.message
import dns.name
import dns.rdata
import dns.rdatatype
import dns.rrset

from tests.command import answering, testkeys

ZONE, PARENT_TTL = "example.com", 300
TTLS = {"ds": PARENT_TTL, "dnskey": 60, "zone": 60}
BEGIN = 1_000_000
UNSIGNED = f"""$TTL 60
@ IN SOA ns.{ZONE}. h.{ZONE}. 1 3600 600 86400 60
@ IN NS ns.{ZONE}.
ns IN A 127.0.0.1
"""
SETS = ("dnskey", "signers", "zone", "cds")
# Keys of the tests are small numbers; those that are made here begin with this one.
FIRST_KEY = 200_000


@dataclass
class Servers:
    """Servers that get a version some seconds after it is published, each later than the one before
    it. `is_off` are those that don't answer."""

    delays: dict[str, int]
    given: dict[str, dict] = field(default_factory=dict)
    coming: list[tuple[int, str, dict]] = field(default_factory=list)
    is_off: set[str] = field(default_factory=set)

    def publish(self, now: int, sets: dict) -> None:
        self.coming += [(now + delay, name, sets) for name, delay in self.delays.items()]

    def at(self, now: int) -> None:
        due = [it for it in self.coming if it[0] <= now]
        self.coming = [it for it in self.coming if it[0] > now]
        for _, name, sets in sorted(due, key=lambda it: it[0]):
            self.given[name] = sets


@dataclass
class World:
    """The zone's servers and those of its parent. A parent that reads CDS takes it after a while.
    `held` is what caches may hold of each kind, each with the moment when it was given last. The
    clock of the maker of keys is `ahead` by so many seconds. A signer that runs is `able` to sign a
    DNSKEY set by so many keys."""

    now: int = BEGIN
    reads_cds: bool = True
    zone: Servers = field(default_factory=lambda: Servers({"ns1": 5, "ns2": 40}))
    parent: Servers = field(default_factory=lambda: Servers({"p1": 60, "p2": 90}))
    ds: frozenset = frozenset()
    loaded: tuple = ()
    held: dict[str, dict] = field(default_factory=lambda: {"ds": {}, "dnskey": {}, "zone": {}})
    last_key: int = FIRST_KEY
    believes: bool = True
    ttls: dict[str, int] = field(default_factory=lambda: dict(TTLS))
    signed: dict[str, list] = field(default_factory=dict)
    ahead: int = 0
    able: int = 9

    def passes(self, seconds: int) -> None:
        """Lets time pass. Between two versions of a server nothing changes in what caches may
        fetch."""
        end = self.now + seconds
        while self.now < end:
            coming = [at for of in (self.zone, self.parent) for at, _, _ in of.coming]
            self.now = min([end, *(at for at in coming if at > self.now)])
            self.caches()
            self.loads()
            self.caches()

    def loads(self) -> None:
        """The primary loads the signed file if that is new."""
        signed = Path(f"{ZONE}.zone.signed")
        if signed.is_file() and (stamp := stamp_of(signed)) != self.loaded:
            self.loaded = stamp
            self.zone.publish(self.now, records_of(signed))
        self.zone.at(self.now)
        self.learns()
        if self.reads_cds:
            self._read_cds()
        self.parent.at(self.now)

    def learns(self) -> None:
        """Takes the DS sets that the registrar has got, and the private keys that were made."""
        for private in Path().rglob("K*.private"):
            if text := private.read_text():
                testkeys.NUMBERS[int(private.stem.rpartition("+")[2])] = int(text)
        inputs = [it for it in self.inputs() if "ds" in it and self.believes]
        for ds in inputs[-1:]:
            data = frozenset(it.partition(" DS ")[2] for it in ds["ds"])
            if data != self.ds:
                self.give_ds(data)

    def inputs(self) -> list[dict]:
        """What the operator's commands have got."""
        file = Path("inputs.json")
        return [json.loads(it) for it in file.read_text().splitlines()] if file.exists() else []

    def _read_cds(self) -> None:
        given = self.zone.given.get("ns1", {})
        cds = frozenset(data for _, data in given.get("CDS", ()))
        if cds and cds != self.ds:
            self.give_ds(cds)

    def give_ds(self, data: frozenset) -> None:
        """The parent publishes this DS set."""
        self.ds = data
        self.parent.publish(self.now, {"DS": [(PARENT_TTL, it) for it in sorted(data)]})

    # ---- what validators see

    def caches(self) -> None:
        """Caches may fetch any set from any server now, and keep it for its TTL. Each choice of
        what they hold has a chain of trust, by tags."""
        for name in self.zone.delays:
            sets = self.zone.given.get(name, {})
            keys = frozenset(tag_of(data) for _, data in sets.get("DNSKEY", ()))
            self.held["dnskey"][keys, signers(sets, "DNSKEY")] = self.now
            self.held["zone"][signers(sets, "SOA")] = self.now
            self._expect_valid(sets)
        for name in self.parent.delays:
            sets = self.parent.given.get(name, {})
            tags = frozenset(int(it.split()[0]) for _, it in sets.get("DS", ()))
            self.held["ds"][tags] = self.now
        for kind, of in self.held.items():
            for kept, last in list(of.items()):
                if last + self.ttls[kind] < self.now:
                    del of[kept]
        for ds, (keys, by), zone in product(*self.held.values()):
            if ds and not (ds & keys & by and keys & zone):
                raise BrokenChain(f"at {self.now}: ds {set(ds)}, dnskey {set(keys)} by {set(by)}, "
                                  f"zone by {set(zone)}")

    def _expect_valid(self, sets: dict) -> None:
        """No signature expires in a cache that fetches it now."""
        for ttl, data in sets.get("RRSIG", ()):
            if data.split()[4] < stamp(self.now + ttl):
                raise BrokenChain(f"at {self.now}: a signature of {data.split()[0]} expires")

    # ---- what the command asks

    def exchange(self, query, address: str, port: int):
        """The response of a server to the command."""
        servers = self.parent if address in self.parent.delays else self.zone
        if address in servers.is_off or address not in servers.given and servers is self.zone:
            raise dns.exception.Timeout
        kind = dns.rdatatype.to_text(query.question[0].rdtype)
        response = dns.message.make_response(query)
        response.flags |= dns.flags.AA
        name, sets = dns.name.from_text(ZONE), servers.given.get(address, {})
        records = [(ttl, dns.rdata.from_text("IN", kind, data)) for ttl, data in sets.get(kind, ())]
        for ttl, record in records:
            response.answer.append(dns.rrset.from_rdata(name, ttl, record))
        for ttl, data in sets.get("RRSIG", ()):
            if data.split()[0] == kind and records:
                signed = answering.signature_of(data, [it for _, it in records])
                response.answer.append(dns.rrset.from_rdata(name, ttl, signed))
        return response

    # ---- the signer, and the maker of keys

    def signs(self, words, within=None, stdout=None) -> None:
        """Stands in for the tools of BIND."""
        if words[0] == "named-compilezone":
            os.write(stdout.fileno(), in_full(Path(words[-1]).read_text()).encode("ascii"))
        elif words[0] == "dnssec-signzone":
            (within / "draft").write_text(self._signed(words, within))

    def _signed(self, words, within) -> str:
        end = self.now + int(words[words.index("-e") + 1].removeprefix("now+"))
        tags = [int(Path(it).stem.rpartition("+")[2]) for it in words if it.endswith(".key")]
        text = (within / "whole").read_text()
        for kind in dict.fromkeys(line.split("\t")[3] for line in text.splitlines()
                                  if line.startswith(f"{ZONE}.\t")):
            times = f"{stamp(end)} {stamp(self.now - 3600)}"
            text += "".join(f"{ZONE}.\t60\tIN\tRRSIG\t{kind} 13 2 60 {times} {tag} {ZONE}. AAAA\n"
                            for tag in tags)
        return text

    def runs(self, words, given=None, within=None, seconds=60) -> None:
        """Stands in for keygen and hooks."""
        if words[0] == "keygen":
            self._make(words, within)
        elif given is not None:
            # (It is a file, as a tick that is killed later has said it all the same.)
            with open("inputs.json", "a", encoding="ascii") as file:
                print(json.dumps({"words": list(words), **given}), file=file)

    def hooked(self, words, stdin="", seconds=0) -> str:
        """Stands in for a signer that runs, which answers each verb by JSON."""
        verb, asked = words[-1], json.loads(stdin)
        if verb == "publish":
            self.signed = {kind: sorted(it["record"] for it in asked["keys"] if it[kind])
                           for kind in SETS}
        if verb in ("publish", "renew"):
            self.zone.publish(self.now, self._running())
        if verb == "now":
            return json.dumps(self.signed or dict.fromkeys(SETS, []))
        count = sum(it["signers"] for it in asked.get("keys", ()))
        answers = {"ttls": {"dnskey": 60, "zone": 60},
                   "lacks": {"lacks": ["two keys"] if count > self.able else []}}
        return json.dumps(answers.get(verb, {}))

    def _running(self) -> dict:
        """What a signer that runs gives, in the form of `records_of`."""
        origin = dns.name.from_text(ZONE)
        keys = {kind: [dns.rdata.from_text("IN", "DNSKEY", it) for it in of]
                for kind, of in self.signed.items()}
        sets = {"DNSKEY": self.signed["dnskey"], "CDNSKEY": self.signed["cds"],
                "CDS": [dns.dnssec.make_ds(origin, it, "SHA256").to_text() for it in keys["cds"]],
                "SOA": [f"ns.{ZONE}. h.{ZONE}. {self.now} 3600 600 86400 60"],
                "NS": [f"ns.{ZONE}."]}
        times = f"{stamp(self.now + 30 * 86400)} {stamp(self.now - 3600)}"
        signed = [f"{kind} 13 2 60 {times} {dns.dnssec.key_id(it)} {ZONE}. AAAA"
                  for kind in sets if sets[kind]
                  for it in keys["signers" if kind in ("DNSKEY", "CDS", "CDNSKEY") else "zone"]]
        return {kind: [(60, it) for it in of]
                for kind, of in {**sets, "RRSIG": signed}.items() if of}

    def _make(self, words, within) -> None:
        *_, zone, role, algorithm = words
        self.last_key += 1
        tag, data = testkeys.add(self.last_key, 257 if role in ("ksk", "csk") else 256)
        name = f"K{zone}+{int(algorithm):03}+{tag:05}"
        (within / f"{name}.private").write_text(f"{self.last_key}\n")
        (within / f"{name}.key").write_text(
            f"; Created: {stamp(self.now + self.ahead)}\n{zone} IN DNSKEY {data}\n")


class BrokenChain(Exception):
    """Caches may hold sets without a chain of trust."""


def stamp(seconds: int) -> str:
    import time

    return time.strftime("%Y%m%d%H%M%S", time.gmtime(seconds))


def stamp_of(path: Path) -> tuple:
    found = path.stat()
    return found.st_ino, found.st_mtime_ns


def in_full(text: str) -> str:
    """Each record of a zone file in full."""
    lines = []
    for line in text.splitlines():
        owner, *rest = line.split()
        if not owner.startswith("$"):
            if owner[-1] != ".":
                owner = f"{ZONE}." if owner == "@" else f"{owner}.{ZONE}."
            rest = rest if rest[0].isdigit() else ["60", *rest]
            lines.append("\t".join([owner, *rest[:3], " ".join(rest[3:])]))
    return "".join(f"{line}\n" for line in lines)


def records_of(path: Path) -> dict:
    """The sets at the top of a signed file."""
    sets: dict[str, list] = {}
    for line in path.read_text().splitlines():
        owner, ttl, _, kind, data = line.split("\t", 4)
        if owner == f"{ZONE}.":
            sets.setdefault(kind, []).append((int(ttl), data))
    return sets


def tag_of(data: str) -> int:
    return dns.dnssec.key_id(dns.rdata.from_text("IN", "DNSKEY", data))


def signers(sets: dict, kind: str) -> frozenset:
    of = (data.split() for _, data in sets.get("RRSIG", ()))
    return frozenset(int(it[6]) for it in of if it[0] == kind)
