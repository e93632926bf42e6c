"""What ticks of a zone have begun and done, in `ZONE.tick` beside `ZONE.script`. A tick locks it,
so that one runs at a time, and each line is on disk before anybody acts on it."""

from __future__ import annotations

import contextlib
import re
from dataclasses import dataclass
from pathlib import Path
from typing import Iterator

from keyset import Damaged, Lines, locked
from keyset.file import Writer
from keyset.notes import path_of

from .place import touched

SUFFIX = ".tick"
# An act has begun, on an unsigned zone of this size and time; one is done; the DS set of a call was
# handed to the registrar; a roll of a role was asked for; the files of a key have left.
LINE = re.compile(
    r"begun \d+ \d+ \d+|done \d+|told \d+ \d+|once (ksk|zsk|csk) \d+|left \S+ \d+"
)


@dataclass(frozen=True)
class UnsignedFile:
    """How the unsigned zone was when it was read: another size or time says that it has changed."""

    size: int = 0
    time: int = 0

    @classmethod
    def of(cls, path: Path) -> UnsignedFile:
        try:
            found = path.stat()
        except OSError:
            return cls()
        return cls(found.st_size, found.st_mtime_ns)


class Journal:
    """The lines of a zone's ticks, which this process has locked."""

    def __init__(self, file: Writer) -> None:
        self._file = file
        for number, line in enumerate(file.lines, start=1):
            if not LINE.fullmatch(line):
                raise Damaged(file.path, number, "it has not the form of a line of a tick")

    @property
    def lines(self) -> list[list[str]]:
        return [line.split(" ") for line in self._file.lines]

    def _append(self, *words: object) -> None:
        self._file.append(" ".join(map(str, words)))

    def begin(self, now: float, unsigned: UnsignedFile) -> None:
        """An act begins. Until its end is noted, it is to be made once more. One that fails again
        and again is noted once."""
        if not (self.is_begun and self.unsigned == unsigned):
            self._append("begun", int(now), unsigned.size, unsigned.time)

    def end(self, now: float) -> None:
        self._append("done", int(now))

    @property
    def is_begun(self) -> bool:
        """Whether an act has begun that has not ended."""
        words = [line[0] for line in self.lines if line[0] in ("begun", "done")]
        return words[-1:] == ["begun"]

    @property
    def ended(self) -> int | None:
        """When the last act ended."""
        return max((int(line[1]) for line in self.lines if line[0] == "done"), default=None)

    @property
    def unsigned(self) -> UnsignedFile | None:
        """The unsigned zone that the last act has read."""
        begun = [line for line in self.lines if line[0] == "begun"]
        return UnsignedFile(int(begun[-1][2]), int(begun[-1][3])) if begun else None

    def hand_over(self, call: int, now: float) -> None:
        """The DS set of a call is handed to the registrar."""
        self._append("told", call, int(now))

    def is_handed_over(self, call: int) -> bool:
        return any(line[:2] == ["told", str(call)] for line in self.lines)

    def leave(self, key: str, now: float) -> None:
        """The files of a key have left."""
        self._append("left", key, int(now))

    @property
    def left(self) -> dict[str, int]:
        """When the files of each key have left."""
        return {line[1]: int(line[2]) for line in self.lines if line[0] == "left"}

    def ask(self, role: str, now: float) -> None:
        """A roll of this role is asked for."""
        self._append("once", role, int(now))

    @property
    def once(self) -> dict[str, int]:
        """The last moment at which a roll of each role was asked for."""
        return {line[1]: int(line[2]) for line in self.lines if line[0] == "once"}


def place_of(script: str | Path) -> Path:
    return path_of(script).with_suffix(SUFFIX)


@contextlib.contextmanager
def alone(script: str | Path) -> Iterator[Journal]:
    """The journal of a script, while no other tick has it. `Locked`: another one has."""
    with locked(touched(place_of(script))) as file:
        yield Journal(file)


def once_of(script: str | Path) -> dict[str, int]:
    """The rolls that were asked for, without a lock."""
    path, asked = place_of(script), {}
    for line in Lines(path).lines if path.is_file() else ():
        if line.startswith("once "):
            _, role, moment = line.split(" ")
            asked[role] = int(moment)
    return asked
