"""Until when a zone needs nothing, in `ZONE.rest` beside `ZONE.script`. It saves a tick all work as
long as no file of the zone has changed, and nothing is lost with it."""

from __future__ import annotations

import json
import os
from dataclasses import asdict, dataclass
from pathlib import Path
from typing import Iterable

from keyset.notes import path_of

from . import place, policies

SUFFIX = ".rest"


@dataclass(frozen=True)
class Rest:
    """How the last tick ended: its moment, until when nothing is needed, its status and what it
    said; how the zone's files were then; since when it is so; and until when all is signed, if
    that is known here."""

    moment: int
    until: int | None
    status: int
    text: str
    files: dict[str, list[int] | None]
    event: str = ""
    since: int = 0
    signed: int | None = None

    def holds(self, script: str | Path, now: float) -> bool:
        """Whether nothing is needed now either. (A copy of another zone's file says nothing.)"""
        is_before = self.moment <= now and (self.until is None or now < self.until)
        is_own = str(script) in self.files
        return self.status == 0 and is_before and is_own and all(
            stamp(Path(path)) == was for path, was in self.files.items())


def stamp(path: Path) -> list[int] | None:
    """How a file is; another one has another number, size or time."""
    try:
        found = os.stat(path)
    except OSError:
        return None
    return [found.st_ino, found.st_size, found.st_mtime_ns]


def place_of(script: str | Path) -> Path:
    return path_of(script).with_suffix(SUFFIX)


def read(script: str | Path) -> Rest | None:
    """How the last tick of a script ended. A file that doesn't say it counts as none."""
    try:
        rest = Rest(**json.loads(place_of(script).read_text(encoding="utf-8")))
        is_right = isinstance(rest.files, dict) and isinstance(rest.text, str)
        numbers = [rest.moment, rest.status, *([] if rest.until is None else [rest.until])]
        return rest if is_right and all(type(it) is int for it in numbers) else None
    except (OSError, ValueError, TypeError, RecursionError):
        return None


def of_ticks(script: str | Path) -> Rest | None:
    """How the last tick ended, if ticks look after this script: then it has a policy."""
    return read(script) if policies.place_of(script).exists() else None


def keep(script: str | Path, rest: Rest) -> None:
    """Writes it in the place of the last one: whole, or not at all."""
    place.write(place_of(script), f"{json.dumps(asdict(rest))}\n")


def files(script: str | Path, others: Iterable[Path]) -> dict[str, list[int] | None]:
    """How the files are that a tick goes by: those beside the script, and others."""
    own = [Path(script), *(path_of(script).with_suffix(it) for it in (".notes", ".tick"))]
    return {str(path): stamp(path) for path in [*own, *others]}
