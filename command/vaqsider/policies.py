"""A zone's policy: a file `ZONE.policy` beside `ZONE.script`, or `vaqsider.policy` for all scripts
of a folder. Each line is a word and what it says. Empty lines and lines that begin with # say
nothing."""

from __future__ import annotations

import re
import shlex
from dataclasses import dataclass, field, fields, replace
from pathlib import Path
from typing import Callable, Mapping, NamedTuple, Sequence

from keyset.lines import ALGORITHMS, NAMES
from keyset.notes import path_of
from keyset.rolls import CSK_ROLL, KSK_ROLL, ROLLS, ZSK_ROLL, rolls_of

from .errors import Failure

DAY, HOUR = 86400, 3600
SUFFIX, OF_FOLDER = ".policy", "vaqsider.policy"
UNITS = {"s": 1, "min": 60, "h": HOUR, "d": DAY, "w": 7 * DAY}
SPAN = re.compile(r"(\d{1,12})(s|min|h|d|w)?")
LONGEST = 2**62
# The rolls of a scheme: KSKs and ZSKs, or CSKs.
KSK_ROLLS, ZSK_ROLLS = rolls_of("ksk"), rolls_of("zsk")
PARENTS = ("cds", "hook", "ask")


class Base(NamedTuple):
    """The algorithm of all keys, and the rolls by which they are renewed."""

    algorithm: int
    rolls: tuple[str, ...]


class Commands(NamedTuple):
    """The operator's commands that a command line names. They go before those of a policy."""

    on_ds: tuple[str, ...] = ()
    on_event: tuple[str, ...] = ()


@dataclass(frozen=True)
class Policy:
    """What an operator wants of a zone. Time spans are in seconds, and None means never or none."""

    policy: Base = Base(13, (KSK_ROLL, ZSK_ROLL))
    ksk_lifetime: int | None = None
    zsk_lifetime: int | None = None
    csk_lifetime: int | None = None
    ksk_once: int | None = None
    zsk_once: int | None = None
    csk_once: int | None = None
    delete_after: int = 0
    keygen: tuple[str, ...] = ("dnssec-keygen",)
    signer: str = "bind"
    signer_config: str | None = None
    zone_file: str | None = None
    out: str | None = None
    keys: str | None = None
    signatures: int = 30 * DAY
    jitter: int | None = None
    renew_before: int | None = None
    serial: str | None = None
    nsec3: str | None = None
    dnskey_ttl: int | None = None
    reload: tuple[str, ...] = ()
    server: tuple[str, ...] = ()
    parent_server: tuple[str, ...] = ()
    parent_zone: str | None = None
    port: int | None = None
    parent: str = "cds"
    on_ds: tuple[str, ...] = ()
    on_event: tuple[str, ...] = ()
    patience: int = DAY
    clock: int = 0
    purge: int | None = None
    source: str = field(default="", compare=False)

    @property
    def algorithm(self) -> int:
        return self.policy.algorithm

    @property
    def rolls(self) -> tuple[str, ...]:
        return self.policy.rolls

    @property
    def roles(self) -> tuple[str, ...]:
        """The roles of the keys: `csk`, or `ksk` and `zsk`."""
        return tuple(ROLLS[roll].renews for roll in self.rolls)

    @property
    def renews_before(self) -> int:
        """How long before their end signatures are renewed: by itself a quarter of their time."""
        return self.signatures // 4 if self.renew_before is None else self.renew_before

    def lifetimes(self) -> dict[str, int | None]:
        """The lifetime of the keys that each roll renews."""
        return {roll: getattr(self, f"{ROLLS[roll].renews}_lifetime") for roll in self.rolls}

    def for_program(self, asked: dict[str, int], now: float) -> list[str]:
        """The lines of the policy for the program, with the moments at which rolls of a role were
        asked for."""
        lines = [f"policy {self.algorithm} {' '.join(self.rolls)}"]
        for role in self.roles:
            lifetime, once = getattr(self, f"{role}_lifetime"), self._once(role, asked, now)
            lines += [] if lifetime is None else [f"{role}-lifetime {lifetime}"]
            lines += [] if once is None else [f"{role}-once {once}"]
        return [*lines, f"delete-after {self.delete_after}"]

    def _once(self, role: str, asked: dict[str, int], now: float) -> int | None:
        """The last moment that is over, or else the first: the program takes one of each role."""
        found = [it for it in (getattr(self, f"{role}_once"), asked.get(role)) if it is not None]
        return max((it for it in found if it <= now), default=min(found, default=None))

    def for_act(self, script: str | Path) -> list[str]:
        """The words of the act that publishes by this policy."""
        given = {"signer": self.signer, "signer-config": self.signer_config,
                 "zone-file": self.zone_file, "out": self.out,
                 "keys": self.keys, "lifetime": self.signatures, "jitter": self.jitter,
                 "serial": self.serial, "nsec3": self.nsec3, "dnskey-ttl": self.dnskey_ttl}
        return ["act", str(script), *_options(given), *self._of_parent()]

    def for_watch(self, script: str | Path) -> list[str]:
        """The words of the look at its servers."""
        servers = [it for name in self.server for it in ("--server", name)]
        return ["watch", str(script), *_options({"keys": self.keys}), *servers, *self._of_parent()]

    def _of_parent(self) -> list[str]:
        servers = [it for name in self.parent_server for it in ("--parent-server", name)]
        return [*servers, *_options({"parent": self.parent_zone, "port": self.port})]

    def by(self, commands: Commands) -> Policy:
        """The same policy with these commands."""
        policy = self
        if commands.on_ds:
            policy = replace(policy, parent="hook", on_ds=commands.on_ds)
        return replace(policy, on_event=commands.on_event) if commands.on_event else policy

    def said(self) -> list[str]:
        """All of it, as lines of a policy file."""
        return [f"{name} {_shown(name, value)}" for name, value in self._values()
                if value not in (None, ())]

    def _values(self) -> list[tuple[str, object]]:
        named = {it.name.replace("_", "-"): getattr(self, it.name) for it in fields(self)}
        named["renew-before"] = self.renews_before
        return [(name, named[name]) for name in READ_AS]


def _options(given: Mapping[str, object]) -> list[str]:
    return [it for name, value in given.items() if value is not None
            for it in (f"--{name}", str(value))]


# ---- how a word's value is read


def _span(text: str) -> int | None:
    found = SPAN.fullmatch(text)
    seconds = int(found[1]) * UNITS[found[2] or "s"] if found else -1
    if text != "never" and not 0 <= seconds <= LONGEST:
        raise ValueError("a time span, as 90d, 12h or 3600, or never")
    return None if text == "never" else seconds


def _length(text: str) -> int:
    seconds = _span(text)
    if seconds is None:
        raise ValueError("a time span, as 90d, 12h or 3600")
    return seconds


def _moment(text: str) -> int:
    if not re.fullmatch(r"\d{1,11}", text):
        raise ValueError("a moment in seconds since 1970")
    return int(text)


def _algorithm(text: str) -> int:
    if text in ALGORITHMS:
        return ALGORITHMS[text]
    if not re.fullmatch(r"\d{1,3}", text) or int(text) > 255:
        raise ValueError("followed by an algorithm: a number to 255, or one of "
                         f"{', '.join(ALGORITHMS)}")
    return int(text)


def _base(text: str) -> Base:
    algorithm, *names = text.split()
    rolls = tuple(names)
    is_split = len(rolls) == 2 and rolls[0] in KSK_ROLLS and rolls[1] in ZSK_ROLLS
    if not is_split and rolls != (CSK_ROLL,):
        raise ValueError(f"followed by an algorithm and {CSK_ROLL}, or by a roll of KSKs and one "
                         f"of ZSKs: {', '.join(KSK_ROLLS)}; {', '.join(ZSK_ROLLS)}")
    return Base(_algorithm(algorithm), rolls)


def command(text: str) -> tuple[str, ...]:
    try:
        words = tuple(shlex.split(text))
    except ValueError:
        words = ()
    if not words:
        raise ValueError("a command with its arguments, quoted as for a shell")
    return words


def _one_of(*names: str) -> Callable[[str], str]:
    def read(text: str) -> str:
        if text not in names:
            raise ValueError(f"one of {', '.join(names)}")
        return text

    return read


def _text(text: str) -> str:
    return text


def _names(text: str) -> tuple[str, ...]:
    return tuple(text.split())


def _port(text: str) -> int:
    if not re.fullmatch(r"\d{1,5}", text) or not 0 < int(text) < 2**16:
        raise ValueError("a port, to 65535")
    return int(text)


SERIALS = ("unixtime", "increment", "date", "keep")
READ_AS: dict[str, Callable[[str], object]] = {
    "policy": _base, "ksk-lifetime": _span, "zsk-lifetime": _span, "csk-lifetime": _span,
    "ksk-once": _moment, "zsk-once": _moment, "csk-once": _moment,
    "delete-after": _length, "keygen": command, "signer": _text, "signer-config": _text,
    "zone-file": _text, "out": _text,
    "keys": _text, "signatures": _length, "jitter": _length, "renew-before": _length,
    "serial": _one_of(*SERIALS), "nsec3": _text, "dnskey-ttl": _length, "reload": command,
    "server": _names, "parent-server": _names, "parent-zone": _text, "port": _port,
    "parent": _one_of(*PARENTS), "on-ds": command, "on-event": command, "patience": _length,
    "clock": _length, "purge": _span,
}
SPANS = {name for name, read in READ_AS.items() if read in (_span, _length)}


def _shown(name: str, value: object) -> str:
    if name in SPANS and name != "dnskey-ttl":
        seconds = int(str(value))
        unit = next((it for it in ("d", "h", "min") if seconds and seconds % UNITS[it] == 0), "s")
        return f"{seconds // UNITS[unit]}{unit}"
    if isinstance(value, Base):
        return f"{NAMES.get(value.algorithm, value.algorithm)} {' '.join(value.rolls)}"
    if isinstance(value, tuple):
        words = map(shlex.quote, value)
        return " ".join(words if READ_AS[name] is command else value)
    return str(value)


# ---- files


def parsed(lines: Sequence[str], source: str) -> Policy:
    """The policy of these lines. The first one that is wrong is named by its number."""
    said: dict[str, object] = {}
    for number, line in enumerate(lines, start=1):
        word, _, value = line.strip().partition(" ")
        if not word or word.startswith("#"):
            continue
        try:
            if word not in READ_AS:
                raise ValueError(f"it begins with one of {', '.join(READ_AS)}")
            if word in said:
                raise ValueError("said once")
            said[word] = READ_AS[word](value.strip()) if value.strip() else _missing(word)
        except ValueError as error:
            raise Failure(f"{source}: line {number}: {word} has to be {error}") from None
    named = {word.replace("-", "_"): value for word, value in said.items()}
    policy = replace(Policy(source=source), **named)
    for word in said:
        if word[:4] in {"ksk-", "zsk-", "csk-"} and word[:3] not in policy.roles:
            raise Failure(f"{source}: {word} speaks of keys that its rolls don't renew: "
                          f"{' '.join(policy.rolls)}")
    return policy


def _missing(word: str) -> object:
    raise ValueError("followed by what it says")


def place_of(script: str | Path) -> Path:
    """The file of a script's policy: its own, or else that of the folder."""
    own = path_of(script).with_suffix(SUFFIX)
    return own if own.exists() else own.with_name(OF_FOLDER)


def read(path: str | Path) -> Policy:
    """The policy of a script, or of a policy file."""
    place = Path(path) if Path(path).suffix == SUFFIX else place_of(path)
    try:
        text = place.read_text(encoding="utf-8")
    except UnicodeDecodeError:
        raise Failure(f"{place}: it isn't UTF-8") from None
    except FileNotFoundError:
        own = place if Path(path).suffix == SUFFIX else path_of(path).with_suffix(SUFFIX)
        raise Failure(f"{own} is missing, and so is {OF_FOLDER} beside it") from None
    return _from(place.parent, parsed(text.split("\n"), str(place)))


def _from(folder: Path, policy: Policy) -> Policy:
    """Files that a policy names are of its folder."""
    named = {name: getattr(policy, name) for name in ("zone_file", "out", "keys")}
    return replace(policy, **{name: str(folder / it) for name, it in named.items() if it})
