"""Whatever signs a zone, each by the same three verbs: publish these sets, renew, and what is there
now. A signer that can't do what is asked says so before a roll starts.

`bind` and `ldns` make a file of a file. The others keep keys in a database of their own, and sign
while they run."""

from __future__ import annotations

from argparse import Namespace
from collections.abc import Callable, Iterable, Iterator, Mapping, Sequence
from dataclasses import dataclass, field
from pathlib import Path
from typing import TYPE_CHECKING, ContextManager, Protocol

from ..errors import UNAVAILABLE, USAGE, Failure
from ..keyfiles import SEP, KeyFile, key_tag

if TYPE_CHECKING:
    from keyset import Published

    from ..act import Act
    from .daemon import SignerStore

# What CDS for no key at all is for: the DS set has to go (RFC 8078, section 4).
DELETION = "0 3 0 AA=="


@dataclass(frozen=True)
class Key:
    """A key of a zone. It is its DNSKEY record, however it is called."""

    data: str
    name: str = field(default="", compare=False)
    file: KeyFile | None = field(default=None, compare=False)

    @classmethod
    def of(cls, data: str, name: str = "", file: KeyFile | None = None) -> Key:
        """The key of a record's data, however that is spaced."""
        flags, protocol, algorithm, *key = data.split()
        return cls(f"{flags} {protocol} {algorithm} {''.join(key)}", name, file)

    @property
    def is_sep(self) -> bool:
        return bool(int(self.data.split()[0]) & SEP)

    @property
    def algorithm(self) -> int:
        return int(self.data.split()[2])

    @property
    def tag(self) -> int:
        flags, protocol, algorithm, key = self.data.split()
        return key_tag(int(flags), int(protocol), int(algorithm), key)

    def at_hand(self) -> KeyFile:
        """Its file, which has to be here."""
        if self.file is None:
            raise Failure(f"{self} has no key file here", UNAVAILABLE)
        return self.file

    def __str__(self) -> str:
        return self.name or ("deletion" if self.data == DELETION else str(self.tag))


@dataclass(frozen=True)
class Sets:
    """Which keys are in the DNSKEY set, which sign that, which sign the rest of the zone, and for
    which CDS and CDNSKEY are in."""

    dnskey: frozenset[Key] = frozenset()
    signers: frozenset[Key] = frozenset()
    zone: frozenset[Key] = frozenset()
    cds: frozenset[Key] = frozenset()

    @classmethod
    def of(cls, published: Published, keys: Mapping[str, Key], has_cds: bool) -> Sets:
        """What is published, by the keys of its references. If CDS is in, it is for the DS set."""
        ds, dnskey, signers, zone = (frozenset(keys[name] for name in names) for names in (
            published.ds, published.dnskey, published.signers, published.zone))
        cds = (ds or frozenset([Key(DELETION)])) if has_cds else frozenset()
        return cls(dnskey, signers, zone, cds)

    @property
    def keys(self) -> frozenset[Key]:
        return self.dnskey | self.signers | self.zone

    def differences(self, wanted: Sets) -> Iterator[str]:
        """What is otherwise than it has to be."""
        for kind, what in SAID.items():
            is_so, has_to_be = getattr(self, kind), getattr(wanted, kind)
            if is_so != has_to_be:
                yield f"{what} {listed(is_so)}, not {listed(has_to_be)}"

    def text(self) -> Iterator[str]:
        for kind, what in SAID.items():
            yield f"{what} {listed(getattr(self, kind))}"


SAID = {"dnskey": "DNSKEY", "signers": "DNSKEY is signed by", "zone": "the rest is signed by",
        "cds": "CDS is for"}


def listed(keys: Iterable[Key]) -> str:
    return " ".join(sorted(map(str, keys))) or "no key"


@dataclass(frozen=True)
class Wish:
    """How an act asks for sets: what of them is due, the moment, and a private folder."""

    sets: Sets
    now: float
    folder: Path


class Version(Protocol):
    """What comes next, ready to be published."""

    @property
    def has_cds(self) -> bool:
        """Whether CDS will be in."""

    def commands(self) -> list[list[str]]:
        """The programs that make it."""

    def ttls(self) -> dict[str, int]:
        """The highest TTL of the DNSKEY set, and that of all others."""

    def text(self) -> Iterator[str]:
        """What would be done, up to the notices."""

    def last(self) -> str:
        """What would be done at the end."""

    def done(self) -> str:
        """What was done."""

    def notices(self) -> Iterator[str]:
        """What an operator should know."""

    def value(self, commands: list[str]) -> dict[str, object]:
        """The same for --json."""

    def put(self) -> None:
        """Gives it to servers."""


class Signer(Protocol):
    """A signer. Each verb may be said again after a crash."""

    def lacks(self, wanted: Sets) -> Iterator[str]:
        """What of these sets it can't do, in words."""

    def now(self) -> Sets | None:
        """What is there now, by its own database. None: the zone was not signed by it yet."""

    def plan(self, wish: Wish) -> Version:
        """What `publish` would do. Nothing is changed."""

    def publish(self, wish: Wish) -> ContextManager[Version]:
        """Makes the next version, with these sets: `put` gives it to servers. If they are there
        already, it renews."""

    def renew(self, wish: Wish) -> ContextManager[Version]:
        """Makes the next version, with the same sets, a higher serial and new signatures."""


def by_flags(active: Iterable[Key]) -> tuple[frozenset[Key], frozenset[Key]]:
    """Which keys sign the DNSKEY set, and which sign the rest, with a signer that goes by flags: if
    an algorithm has active keys with the SEP flag and others, these sign the DNSKEY set, and those
    the rest; else each signs all."""
    active = list(active)
    signers, zone = set(), set()
    for key in active:
        both = {it.is_sep for it in active if it.algorithm == key.algorithm} == {True, False}
        signers |= {key} if key.is_sep or not both else set()
        zone |= {key} if not key.is_sep or not both else set()
    return frozenset(signers), frozenset(zone)


def lacks_by_flags(name: str, wanted: Sets) -> Iterator[str]:
    """What of these sets a signer that goes by flags can't do."""
    signers, zone = by_flags(wanted.signers | wanted.zone)
    if signers != wanted.signers:
        yield f"{name} would sign the DNSKEY set by {listed(signers)}, not {listed(wanted.signers)}"
    if zone != wanted.zone:
        yield f"{name} would sign the zone by {listed(zone)}, not {listed(wanted.zone)}"


NAMES = ("bind", "ldns", "pdns", "pdns-api URL", "knot", "bind-inline", "hook COMMAND")
# The signers that are named with a word more.
WITH = ("hook", "pdns-api")
# What a signer that runs sets itself: the options of an act for it, with what it does itself.
OF_FILES: dict[str, list[object]] = {
    "serial": ["unixtime"], "nsec3": [None], "lifetime": [30 * 86400], "jitter": [None],
    "dnskey_ttl": [None], "digest": [None, [2]], "out": [None],
}


def of(args: Namespace, act: Act) -> Signer:
    """The signer that the command line names, for an act."""
    name, _, command = (args.signer or "bind").partition(" ")
    if name in ("bind", "ldns"):
        from . import files

        return files.FileSigner(args, act)
    from . import daemon

    return daemon.Daemon(store(name, command, args, act.keys.origin), args, act)


@dataclass(frozen=True)
class PlanSigner:
    """A signer, for a plan: where its key files are, what of sets it can't do, and which keys that
    are away can't sign another DNSKEY set than the present one at a moment."""

    lacks: Callable[[Sets], Iterator[str]]
    folders: Sequence[str | Path]
    away: Callable[[Sets, float], Iterator[str]] = lambda *_: iter(())


def planned(args: Namespace, zone: str) -> PlanSigner | None:
    """The signer of a plan, if the command line names one."""
    if not args.signer:
        return None
    name, _, command = args.signer.partition(" ")
    folders = args.keys or [Path(args.SCRIPT).parent]
    if name in ("bind", "ldns"):
        from . import files

        return files.planned(name, args.SCRIPT, zone.rstrip(".") + ".", folders)
    return PlanSigner(store(name, command, args, zone.rstrip(".") + ".").lacks, folders)


def store(name: str, command: str, args: Namespace, origin: str) -> SignerStore:
    """The database of a signer that runs."""
    if name not in STORES or (name in WITH) != bool(command.strip()):
        raise Failure(f"--signer is {', '.join(NAMES)}, not '{args.signer}'", USAGE)
    return STORES[name](command, args, origin)


def not_taken(args: Namespace) -> Iterator[str]:
    """The options of an act that a signer that runs doesn't take, as it has them in its own
    settings."""
    name, _, command = args.signer.partition(" ")
    if name in STORES:
        of = store(name, command, args, "example.com.")
        for option, usual in OF_FILES.items():
            if getattr(args, option) not in usual and option not in of.options:
                yield option.replace("_", "-")


def _pdns(_: str, args: Namespace, origin: str) -> SignerStore:
    from . import pdns

    return pdns.Pdnsutil(origin, args.signer_config, getattr(args, "nsec3", None))


def _pdns_api(url: str, args: Namespace, origin: str) -> SignerStore:
    from . import pdns_api

    nsec3 = getattr(args, "nsec3", None)
    return pdns_api.Api(origin, url.strip(), args.signer_config, nsec3)


def _knot(_: str, args: Namespace, origin: str) -> SignerStore:
    from . import knot

    return knot.Knot(origin, args.signer_config)


def _inline(_: str, args: Namespace, origin: str) -> SignerStore:
    from . import inline

    return inline.InlineSigner(origin, args)


def _hook(command: str, args: Namespace, origin: str) -> SignerStore:
    from . import hook

    return hook.Hook(origin, command)


STORES: dict[str, Callable[[str, Namespace, str], SignerStore]] = {
    "pdns": _pdns, "pdns-api": _pdns_api, "knot": _knot, "bind-inline": _inline, "hook": _hook,
}
