"""Where the keys of a zone come from that another system has signed: each source says which keys it
has, what each is for, and whether a roll of its own is in progress."""

from __future__ import annotations

import re
from dataclasses import dataclass
from pathlib import Path
from typing import Callable

from ..errors import UNAVAILABLE, Failure
from ..signers import Key


@dataclass(frozen=True)
class SourceKey:
    """A key that a system uses for a zone: what it signs; what gives its private half, if that may
    come out; its file, if it has one; and what its private half is called in its store."""

    key: Key
    signs_keys: bool
    signs_zone: bool
    private: Callable[[], str] | None = None
    path: Path | None = None
    reference: str | None = None

    @property
    def is_csk(self) -> bool:
        return self.signs_keys and self.signs_zone


@dataclass(frozen=True)
class Inventory:
    """What a source says of a zone: its keys that are in use; what is in progress, each in words
    with what to wait for; and what its system has to stop doing, in order."""

    keys: list[SourceKey]
    moving: list[str]
    stops: list[str]


@dataclass(frozen=True)
class SourceOptions:
    """What a source may need: where its settings are, where its private halves, the DNSKEY records
    that the zone's servers give, and whether private halves that could come out stay there."""

    source: str | None
    store: str | None
    records: Callable[[], list[Key]]
    stay: bool = False


def in_private(algorithm: int, fields: dict[str, str]) -> str:
    """A private half as BIND's file has it."""
    rows = "".join(f"{name}: {value}\n" for name, value in fields.items())
    return f"Private-key-format: v1.3\nAlgorithm: {algorithm}\n{rows}"


def expect(is_so: bool, text: str) -> None:
    if not is_so:
        raise Failure(text, UNAVAILABLE)


def read_text(path: Path) -> str:
    """A text file of another system."""
    return path.read_text(encoding="utf-8", errors="replace")


NAMED = re.compile(r"(?P<name>\w+): ?(?P<value>.*)")


def fields_of(text: str) -> dict[str, str]:
    """The lines `Name: value` of a file."""
    found = filter(None, (NAMED.fullmatch(it) for it in text.splitlines()))
    return {it["name"]: it["value"].strip() for it in found}
