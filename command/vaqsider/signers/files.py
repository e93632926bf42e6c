"""A signer that makes a signed zone file of an unsigned one, by the tools of BIND or ldns. What has
to be published now is made anew, whatever was published before: so renewing is publishing again.

The next version is made in a private folder, and verified, before it goes into its place."""

from __future__ import annotations

import contextlib
import tempfile
from argparse import Namespace
from dataclasses import dataclass, replace
from itertools import chain
from pathlib import Path
from typing import TYPE_CHECKING, Iterable, Iterator, Sequence

from .. import place, serial, signing, words, zonefile
from ..arguments import expect_other, file_name
from ..errors import UNAVAILABLE, Failure
from ..signing import Nsec3, Task, Tools
from ..zonefile import DueZone, KeyId, SetSigners, ZoneFile, ZoneRecord, parsed
from . import Key, PlanSigner, Sets, Wish, bind, ldns
from .daemon import is_here

if TYPE_CHECKING:
    from ..act import Act

TOOLS = {"bind": bind.TOOLS, "ldns": ldns.TOOLS}


@dataclass
class FileVersion:
    """The next version: what is due, who signs it and how, and which signatures are kept. Once it
    is made it is in the file `ready`."""

    signer: FileSigner
    unsigned: Path
    due: DueZone
    task: Task
    kept: dict[str, ZoneRecord]
    ready: Path = Path("ready")

    def commands(self) -> list[list[str]]:
        """The programs that make it."""
        signs = self.signer.tools.signs
        return [signs(self.task), self.verifying()] if self.task.keys else []

    def verifying(self) -> list[str]:
        has_opt_out = bool(self.task.nsec3 and self.task.nsec3.flags & 1)
        return signing.verifying(self.due.origin, has_opt_out)

    def until(self) -> dict[str, int]:
        """When each signature that is kept expires."""
        return {name: parsed("RRSIG", row.data).expiration for name, row in self.kept.items()}

    def ttls(self) -> dict[str, int]:
        """The highest TTL of the DNSKEY set, and that of all others."""
        return zonefile.ttls(zonefile.rows(self.ready))

    def put(self) -> None:
        """Puts the signed zone into its place."""
        place.put(self.ready, self.signer.signed)

    def text(self) -> Iterator[str]:
        """What would be done, up to the notices."""
        yield f"serial: {self.due.serial}"
        for rows in self.due.sets.values():
            yield from (f"add: {' '.join(str(row).split())}" for row in rows)
        made, by = self.commands(), self.due.by
        if made:
            yield f"run: {signing.shown(made[0])}"
            cds = ["CDS"] * bool(self.due.sets["CDS"])
            of_sets = [f"{kind} by {_tags(by.of(kind))}" for kind in ("DNSKEY", *cds)]
            yield f"signatures: {'; '.join(of_sets)}; the rest by {_tags(by.zone)}"
            yield f"run: {signing.shown(made[1])}"

    def last(self) -> str:
        """What would be done at the end."""
        return f"put in place: {self.signer.signed}"

    def done(self) -> str:
        """What was done."""
        return f"{self.signer.signed}: written, with the serial {self.due.serial}"

    @property
    def has_cds(self) -> bool:
        return bool(self.due.sets["CDS"])

    def notices(self) -> Iterator[str]:
        """What an operator should know."""
        for name, moment in self.until().items():
            yield f"{name} can't sign: its signature of the DNSKEY set is valid until " \
                f"{words.moment(moment)}"

    def value(self, commands: list[str]) -> dict[str, object]:
        """The same for --json."""
        return {
            "signed": str(self.signer.signed),
            "serial": self.due.serial,
            "commands": commands,
            "cds": self.has_cds,
            "valid_until": self.until(),
        }


def _tags(keys: Iterable[KeyId]) -> str:
    return " ".join(str(by.tag) for by in sorted(keys)) or "no key"


class FileSigner:
    """The signer of a script's zone file, for an act."""

    def __init__(self, args: Namespace, act: Act) -> None:
        self.args, self.act, self.keys = args, act, act.keys
        name, beside = file_name(act.zone_status.zone), Path(args.SCRIPT).parent
        self.zone_file = Path(args.zone_file or beside / f"{name}.zone")
        self.signed: Path = Path(args.out or f"{self.zone_file}.signed")
        self.name = args.signer or "bind"
        self.tools: Tools = TOOLS[self.name]

    def lacks(self, wanted: Sets) -> Iterator[str]:
        return lacks(self.name, wanted)

    def now(self) -> Sets | None:
        """The sets of the signed zone that is in place."""
        with tempfile.TemporaryDirectory() as made:
            last = self.last(Path(made).resolve())
        return None if last is None else sets_of(last)

    @contextlib.contextmanager
    def publish(self, wish: Wish) -> Iterator[FileVersion]:
        """Makes the next version in a folder beside its place."""
        with place.folder(self.signed) as folder:
            plan = self.plan(replace(wish, folder=folder))
            plan.ready = make(plan, folder)
            place.ready(plan.ready, self.signed, self.zone_file)
            yield plan

    renew = publish

    def plan(self, wish: Wish) -> FileVersion:
        """Reads the zone and its last version, and says what comes next."""
        self.expect_two_files()
        unsigned, last = self.in_full(self.zone_file, wish.folder), self.last(wish.folder)
        self.act.expect_own(self.keys.in_last(last), str(self.signed))
        kept = self.keys.kept(last, wish.now)
        before = last.serial if last else None
        number = serial.following(self.args.serial, unsigned.serial, before, wish.now)
        due = DueZone(self.keys.origin, number, self.sets(unsigned, kept), self.signers())
        return FileVersion(self, unsigned.path, due, self.task(unsigned, last, wish), kept)

    def in_full(self, path: Path, folder: Path) -> ZoneFile:
        """A zone file as its signer's tool writes it."""
        made = zonefile.in_full(path, self.keys.origin, self.tools, folder)
        return ZoneFile.of(self.keys.origin, made)

    def last(self, folder: Path) -> ZoneFile | None:
        """The version that is in place now."""
        if not self.signed.is_file():
            return None
        try:
            return ZoneFile.of(self.keys.origin, self.signed)
        except zonefile.PartialRecord:
            return self.in_full(self.signed, folder)

    def expect_two_files(self) -> None:
        """The signed zone may not take the place of the unsigned one."""
        if self.signed.exists() and self.signed.samefile(self.zone_file):
            raise Failure(f"{self.signed} is the unsigned zone: choose another --out")
        expect_other(self.signed, self.args.SCRIPT)

    def sets(self, unsigned: ZoneFile, kept: dict[str, ZoneRecord]) -> dict[str, list[ZoneRecord]]:
        """DNSKEY, and CDS and CDNSKEY with the TTL of the SOA record."""
        given, ttl = self.args.dnskey_ttl, self.keys.ttl() or unsigned.soa.ttl
        ttl = ttl if given is None else given
        signed = {parsed("RRSIG", row.data).original_ttl for row in kept.values()}
        if signed and given is not None and signed != {ttl}:
            raise Failure(f"the DNSKEY set is signed with the TTL {min(signed)}: it has to stay")
        sets: dict[str, list[ZoneRecord]] = {"DNSKEY": [], "CDS": [], "CDNSKEY": []}
        sets["DNSKEY"] = self.keys.dnskey(min(signed, default=ttl))
        if self.act.has_cds and self.keys.cds_signer():
            sets.update(self.keys.cds(unsigned.soa.ttl, self.act.digests))
        return sets

    def signers(self) -> SetSigners:
        """Which keys sign which set."""
        zone = self.keys.published.zone
        cds = self.keys.by([*self.keys.cds_signer(), *zone])
        signers = self.keys.by(self.keys.published.signers)
        return SetSigners(signers, cds, self.keys.by(zone))

    def task(self, unsigned: ZoneFile, last: ZoneFile | None, wish: Wish) -> Task:
        """Which keys sign, and how. NSEC3 stays as the last version has it."""
        names = self.keys.here()
        for lack in self.lacks(_signing(wish.sets, names)):
            raise Failure(lack)
        paths = tuple(self.keys.files[name].path for name in names)
        nsec3 = last and last.nsec3 or unsigned.nsec3
        if self.args.nsec3:
            nsec3 = None if self.args.nsec3 == "no" else Nsec3.of(self.args.nsec3)
        how = self.args.lifetime, self.args.jitter, nsec3
        return Task(self.keys.origin, paths, int(wish.now), *how)


def lacks(name: str, wanted: Sets) -> Iterator[str]:
    """What of these sets the tools of a signer can't sign."""
    seps = {key.is_sep for key in wanted.signers | wanted.zone}
    if name == "ldns" and False in seps and any(it.is_sep for it in wanted.zone):
        yield "ldns can't sign a zone with a CSK beside a ZSK: use --signer bind"


def planned(name: str, script: str, zone: str, folders: Sequence[str | Path]) -> PlanSigner:
    """The tools of a signer, for a plan: a key that is away signs only by a ceremony."""
    from .. import ceremony

    taken = ceremony.signatures(script)

    def away(wanted: Sets, now: float) -> Iterator[str]:
        data = [key.data for key in wanted.dnskey]
        for key in sorted(wanted.signers, key=str):
            file = key.file
            if file and not is_here(file) and not any(
                    ceremony.valid(taken, zone, data, file, now)):
                yield f"the private half of {key} isn't here, and it has signed no such DNSKEY " \
                    "set for that moment: 'vaqsider ceremony' asks for that by --roll"

    return PlanSigner(lambda wanted: lacks(name, wanted), folders, away)


def _signing(sets: Sets, names: list[str]) -> Sets:
    """What the keys sign that are here."""
    return replace(sets, signers=frozenset(it for it in sets.signers if it.name in names))


def sets_of(zone: ZoneFile) -> Sets:
    """What a signed zone has."""
    keys = {Key.of(row.data) for row in zone.top.get("DNSKEY", ())}
    named = {KeyId(key.algorithm, key.tag): key for key in keys}

    def by(kind: str) -> frozenset[Key]:
        made = zone.signed.get((zone.origin.lower(), kind), ())
        return frozenset(named[it] for it in made if it in named)

    cds = frozenset(Key.of(row.data) for row in zone.top.get("CDNSKEY", ()))
    return Sets(frozenset(keys), by("DNSKEY"), by("SOA"), cds)


def make(plan: FileVersion, folder: Path) -> Path:
    """Makes the next version, `ready`, and verifies it."""
    whole, ready = folder / "whole", folder / "ready"
    zonefile.write(whole, plan.due.whole(zonefile.rows(plan.unsigned)))
    try:
        if plan.task.keys:
            sign(plan, folder)
        else:
            whole.rename(ready)
        plan.due.refuse(ZoneFile.of(plan.due.origin, ready))
    except zonefile.PartialRecord as error:
        raise Failure(f"the signed zone is wrong: {error}", UNAVAILABLE) from None
    if plan.task.keys:
        signing.run(plan.verifying(), folder)
    return ready


def sign(plan: FileVersion, folder: Path) -> None:
    """Signs `whole`. What isn't due goes, and signatures that are kept come in."""
    signing.run(plan.signer.tools.signs(plan.task.from_anywhere()), folder)
    signed = plan.due.without_others(zonefile.rows(folder / "draft"))
    zonefile.write(folder / "ready", chain(signed, plan.kept.values()))
