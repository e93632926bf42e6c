"""`import`: the keys of a zone that another system has signed come in. It asks that system, then
the servers; and it wants that all was the same for longer than every TTL. So it looks twice, unless
the operator says that it was. Only then it makes the script, by the lines for a zone that is signed
already."""

from __future__ import annotations

import hashlib
import json
import os
from argparse import Namespace
from dataclasses import dataclass
from pathlib import Path
from typing import Iterator, Sequence

from keyset import Notes
from keyset.notes import lasts

from . import asking, calling, keyfiles, looking, place, state, words
from .arguments import file_name
from .ending import Clock
from .errors import DUE, USAGE, WARNING, Failure
from .looking import Look
from .signers import Key
from .sources import Inventory, SourceKey, SourceOptions, bind, dnst, knot, opendnssec, pdns

SOURCES = {"bind": bind.inventory, "knot": knot.inventory, "pdns": pdns.inventory,
           "pdns-api": pdns.inventory_by_api, "opendnssec": opendnssec.inventory,
           "dnst": dnst.inventory}
SUFFIX = ".import"


@dataclass(frozen=True)
class FirstLook:
    """The look that is kept, and since when all was as it shows."""

    look: str
    since: int


@dataclass(frozen=True)
class ImportResult:
    """What an import has done: the script with its lines, and the parameters of the zone's NSEC3,
    if it has that; or from when on to look again."""

    script: Path
    lines: list[str]
    inventory: Inventory
    again: int | None = None
    nsec3: str | None = None

    @property
    def status(self) -> int:
        return DUE if self.again else 0

    def text(self) -> Iterator[str]:
        if self.again:
            yield "all servers agree with these keys. Nothing older may be in a cache: look again"
            yield f"next: the same import, from {words.moment(self.again)} on"
            return
        yield f"{self.script}: {len(self.lines)} lines"
        if self.nsec3:
            yield f"the zone has NSEC3 by {self.nsec3}: another signer gives NSEC, unless you " \
                f"say --nsec3 '{self.nsec3}', or set it there (with opt-out by the flag 1)"
        yield "what the other system has to do now, in this order:"
        stops = enumerate(self.inventory.stops, start=1)
        yield from (f"{number}. {text}" for number, text in stops)

    def as_json(self) -> dict[str, object]:
        return {"script": str(self.script), "lines": self.lines, "again": self.again,
                "stops": self.inventory.stops, "nsec3": self.nsec3}


def come(args: Namespace, clock: Clock) -> ImportResult:
    """Brings the keys of a zone in."""
    zone = args.ZONE.rstrip(".") or "."
    script = Path(args.script or f"{file_name(zone)}.script")
    Notes(script)
    if script.exists():
        raise Failure(f"{script}: File exists", USAGE)
    if args.before is None:
        raise Failure("--before: say the highest TTLs that servers gave", USAGE)
    options = SourceOptions(args.source, args.store, lambda: _records(zone, args), args.stay)
    inventory = SOURCES[args.SYSTEM](zone, options)
    if inventory.moving:
        text = "it is rolling keys, so they don't come in yet"
        raise Failure("\n".join([*inventory.moving, text]), WARNING)
    keys = inventory.keys
    if not (any(it.signs_keys for it in keys) and any(it.signs_zone for it in keys)):
        raise Failure(f"{args.SYSTEM} has no keys that sign {zone}", WARNING)
    folder = Path((args.keys or [script.parent])[0])
    files = [(_of(it, zone, folder), it.is_csk) for it in keys]
    return _looked(args, script, zone, files, inventory, clock)


def _looked(args: Namespace, script: Path, zone: str,
            files: Sequence[tuple[keyfiles.KeyFile, bool]], inventory: Inventory,
            clock: Clock) -> ImportResult:
    """The script, if all has been the same for long enough; else the look is kept."""
    moment = int(clock())
    lines = _lines(zone, files, moment)
    zone_state = state.agreed(lines, {file.path.parent for file, _ in files}, args, clock())
    look, kept = _digest(zone_state.look, lines), script.with_suffix(SUFFIX)
    before = _read(kept)
    since = before.since if before and before.look == look else moment
    again = since + lasts(max(args.before)) + 1
    if not args.unchanged and moment < again:
        _write(kept, FirstLook(look, since))
        return ImportResult(script, [], inventory, again)
    nsec3 = _served(zone, args, "NSEC3PARAM")
    calling.begin(script, lines, args.before)
    zone_state.keep(script, lines, Notes(script))
    kept.unlink(missing_ok=True)
    return ImportResult(script, lines, inventory, nsec3=next(iter(nsec3), None))


def _lines(
    zone: str, files: Sequence[tuple[keyfiles.KeyFile, bool]], moment: int
) -> list[str]:
    """The first lines of a script, by which these keys come in at a moment."""
    added = [(file, file.line(is_csk, file.reference)) for file, is_csk in files]
    return calling.first_lines(zone, added, moment)


def _digest(look: Look, lines: list[str]) -> str:
    """What was seen, and of which keys: the sets and who signed them, not when. Signatures are
    renewed, and serials rise."""
    seen = sorted(
        (kind, type_, str(server), sorted(map(str, answer.records)) if type_ != "SOA" else [],
         sorted({(it.key_tag, it.algorithm) for it in answer.signatures}))
        for (kind, type_, server), answer in look.answers.items()
    )
    keys = sorted(line for line in lines if line.startswith("add-"))
    return hashlib.sha256(json.dumps([seen, keys]).encode()).hexdigest()


def _read(path: Path) -> FirstLook | None:
    """The look that was kept. A file that isn't one counts as none."""
    try:
        members = json.loads(path.read_text(encoding="utf-8"))
        look = FirstLook(members["look"], members["since"])
        return look if type(look.since) is int and isinstance(look.look, str) else None
    except (FileNotFoundError, ValueError, TypeError, KeyError):
        return None


def _write(path: Path, look: FirstLook) -> None:
    draft = path.with_name(f".{path.name}.{os.getpid()}.draft")
    with open(draft, "x", encoding="ascii") as file:
        file.write(json.dumps(vars(look)) + "\n")
        file.flush()
        os.fsync(file.fileno())
    place.put(draft, path)


def _of(source_key: SourceKey, zone: str, folder: Path) -> keyfiles.KeyFile:
    """The key file of a key, with what its private half is called if that stays where it is."""
    file = _file(source_key, zone, folder)
    file.reference = None if file.private.is_file() else source_key.reference
    return file


def _file(source_key: SourceKey, zone: str, folder: Path) -> keyfiles.KeyFile:
    """The key file of a key. If its system has none, it is written, with its private half if that
    can come out."""
    if source_key.path is not None:
        return keyfiles.read(source_key.path)
    key = source_key.key
    path = folder / f"K{file_name(zone)}.+{key.algorithm:03}+{key.tag:05}.key"
    if path.exists():
        file = keyfiles.read(path)
        if Key.of(file.data) != key:
            raise Failure(f"{path} is another key: move it away", USAGE)
    if source_key.private is not None and not path.with_suffix(".private").exists():
        _new(path.with_suffix(".private"), source_key.private(), 0o600)
    if not path.exists():
        owner = "." if zone == "." else f"{zone}."
        _new(path, f"{owner} IN DNSKEY {key.data}\n", 0o644)
    return keyfiles.read(path)


def _new(path: Path, text: str, mode: int) -> None:
    """A new file, whole or not at all."""
    draft = path.with_name(f".{path.name}.{os.getpid()}.draft")
    with open(os.open(draft, os.O_WRONLY | os.O_CREAT | os.O_EXCL | os.O_NOFOLLOW, mode), "w",
              encoding="ascii") as file:
        file.write(text)
        file.flush()
        os.fsync(file.fileno())
    place.put(draft, path)


def _records(zone: str, args: Namespace) -> list[Key]:
    """The DNSKEY records that the zone's servers give."""
    return [Key.of(it) for it in _served(zone, args, "DNSKEY")]


def _served(zone: str, args: Namespace, kind: str) -> list[str]:
    """The records of a type that the zone's servers give, in order."""
    places = looking.Places.of(zone, args)
    servers = places.of_kind("dnskey", zone)
    answers = asking.side_by_side(
        lambda server: asking.ask(server, places.port, zone, kind), servers)
    return sorted({it.to_text() for answer in answers for it in answer.records})
