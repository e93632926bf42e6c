"""The keys of `dnst keyset`: the JSON of its state, which has the key set of the crate `domain`."""

from __future__ import annotations

import json
from pathlib import Path
from typing import Any, Mapping, NamedTuple
from urllib.parse import unquote, urlparse

from ..errors import UNAVAILABLE, Failure
from ..keyfiles import read
from ..signers import Key
from . import Inventory, SourceKey, SourceOptions, expect, read_text

STOPS = (
    "take 'dnst keyset .. cron' out of the crontab first: it starts and ends rolls by itself",
    "'vaqsider act' signs by the same key files; keep the state file, and change nothing by dnst",
    "what has loaded the signed zone of dnst loads that of 'vaqsider act' from then on",
)


class Flags(NamedTuple):
    """The flags of a key's role."""

    old: bool
    signer: bool
    present: bool
    at_parent: bool

    @classmethod
    def of(cls, role: Mapping[str, Any]) -> Flags:
        return cls(*(bool(role[name]) for name in cls._fields))

    @property
    def is_used(self) -> bool:
        return self.signer or self.present or self.at_parent


def inventory(zone: str, options: SourceOptions) -> Inventory:
    """What a state file says."""
    path = Path(options.source or f"{zone.rstrip('.')}-keyset.json")
    try:
        state = json.loads(read_text(path))
        key_set = state.get("keyset", state)
        name, keys, rolls = key_set["name"], key_set["keys"], key_set["rollstates"]
        found = [_source_key(ref, key, path.parent) for ref, key in sorted(keys.items())]
    except (ValueError, KeyError, TypeError, AttributeError) as error:
        raise Failure(f"{path}: no state of dnst keyset: {error!r}", UNAVAILABLE) from None
    expect(str(name).rstrip(".").lower() == zone.rstrip(".").lower(),
           f"{path}: the keys of {name}, not of {zone}")
    moving = [f"{roll} is in progress ({_phase(phase)}): let it end by 'dnst keyset', or end it "
              "there" for roll, phase in sorted(rolls.items())]
    moving += [text for _, text in found if text]
    return Inventory([it for it, _ in found if it], moving, list(STOPS))


def _phase(phase: object) -> str:
    return str(next(iter(phase))) if isinstance(phase, dict) else str(phase)


def _source_key(
    reference: str, fields: Mapping[str, Any], folder: Path
) -> tuple[SourceKey | None, str]:
    """A key, or None if it is not in use; and what is in progress with it."""
    (kind, roles), = fields["keytype"].items()
    flags = [*map(Flags.of, roles if kind == "Csk" else [roles])]
    is_used = any(it.is_used for it in flags)
    if kind == "Include":
        text = f"{reference} is of another signer: bring it in by 'add-public', by hand"
        return None, text if is_used else ""
    if not is_used:
        return None, ""
    whole = all(it.signer and it.present and not it.old for it in flags)
    at_parent = kind == "Zsk" or flags[0].at_parent
    text = "" if whole and at_parent else f"{reference} is neither in use wholly nor out"
    file = read(_path(reference, folder))
    if (file.tag, file.algorithm) != (fields["key_tag"], _algorithm(fields["algorithm"])):
        raise Failure(f"{file.path}: its tag or algorithm isn't that of the state", UNAVAILABLE)
    key = Key.of(file.data, file.path.name, file)
    return SourceKey(key, kind != "Zsk", kind != "Ksk", None, file.path), text


NUMBERS = {"RSASHA256": 8, "RSASHA512": 10, "ECDSAP256SHA256": 13, "ECDSAP384SHA384": 14,
           "ED25519": 15, "ED448": 16}


def _algorithm(value: str | int) -> int:
    return NUMBERS.get(str(value).upper()) or int(value)


def _path(reference: str, folder: Path) -> Path:
    """The file that a reference names, which may be a URL."""
    parts = urlparse(reference)
    if parts.scheme not in ("", "file"):
        raise Failure(f"{reference}: its public half isn't in a file", UNAVAILABLE)
    return folder / (unquote(parts.path) if parts.scheme else reference)
