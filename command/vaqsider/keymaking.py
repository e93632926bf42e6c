"""New keys, and the files of keys that have left.

A key is made in a private folder and added to the script, and only then its files go to the others.
So no key is added that wasn't made for it, and after a crash the next tick goes on with what is
there."""

from __future__ import annotations

import os
import shutil
from collections.abc import Iterator
from dataclasses import dataclass
from pathlib import Path

from keyset.lines import NAMES, Line

from . import hooks, keyfiles
from .errors import UNAVAILABLE, Failure
from .keyfiles import KeyFile
from .policies import Policy

# How the folders of keys that are being made, and of keys that have left, end or are called.
MAKING, LEFT = ".new-keys", "left"
ROLES_WITH_SEP = ("ksk", "csk")
# The files of a key, the private half first.
ENDS = (".private", ".state", ".key")


@dataclass(frozen=True)
class Maker:
    """Makes keys for a zone by its policy. `folder` has its key files, and `name` is that of its
    script."""

    zone: str
    policy: Policy
    folder: Path
    name: str

    @property
    def making(self) -> Path:
        """Where keys are made. Nobody else reads it."""
        return self.folder / f".{self.name}{MAKING}"

    def words(self, role: str, algorithm: int) -> list[str]:
        """The command that makes a key of this role, in its folder."""
        tool, name = self.policy.keygen[0], f"{self.zone.rstrip('.')}."
        flags = {"dnssec-keygen": ["-f", "KSK"], "ldns-keygen": ["-k"]}
        if tool not in flags:
            return [*self.policy.keygen, name, role, str(algorithm)]
        sep = flags[tool] if role in ROLES_WITH_SEP else []
        of = NAMES.get(algorithm, str(algorithm))
        return [*self.policy.keygen, "-a", of, *sep, name]

    def make(self, role: str, algorithm: int) -> KeyFile:
        """A new key, or one that a tick has made before it was killed."""
        self.making.mkdir(mode=0o700, exist_ok=True)
        file = self._whole(role, algorithm)
        if file is None:
            self.clear()
            hooks.run(self.words(role, algorithm), within=self.making)
            file = self._whole(role, algorithm)
        if file is None:
            text = f"it has made no key of role {role} and algorithm {algorithm} of {self.zone}"
            raise Failure(f"{self.policy.keygen[0]}: {text}", UNAVAILABLE)
        _sync(file.path, file.private, self.making)
        return file

    def _whole(self, role: str, algorithm: int) -> KeyFile | None:
        """The key that is there with both halves, and is of this role and algorithm."""
        for path in sorted(self.making.glob("K*.key")):
            try:
                file = keyfiles.read(path)
            except Failure:
                continue
            is_of = file.owner.lower() == (self.zone.lower().rstrip(".") or ".")
            is_role = file.is_sep == (role in ROLES_WITH_SEP) and file.algorithm == algorithm
            if is_of and is_role and file.private.is_file() and file.private.stat().st_size:
                return file
        return None

    def clear(self) -> None:
        """Takes away what a killed tick has left, and a key whose tag is taken."""
        for path in self.making.glob("*"):
            path.unlink()

    # ---- into their places, and out of them

    def place(self, lines: list[str]) -> list[str]:
        """Moves the files of keys that the script has to the others. The private half goes first:
        a key whose record is there can sign."""
        added = {Line(line)["REF"] for line in lines if line.startswith("add-")}
        moved = []
        for path in sorted(self.making.glob("K*.key")):
            if path.name in added:
                moved += _move(path, self.folder)
        return moved

    def remove(self, lines: list[str]) -> list[str]:
        """Moves away the files of keys that were deleted and aren't in the script any more."""
        moved: list[str] = []
        for name in _deleted(lines):
            path = self.folder / f"{name.rpartition('/')[2].removesuffix('.key')}.key"
            if path.is_file() or path.with_suffix(".private").is_file():
                left = self.folder / LEFT
                left.mkdir(mode=0o700, exist_ok=True)
                moved += _move(path, left)
        return moved

    def purge(self, name: str) -> list[str]:
        """Deletes the files of a key that has left."""
        path = self.folder / LEFT / name
        found = [it for it in (path.with_suffix(end) for end in ENDS) if it.is_file()]
        for file in found:
            file.unlink()
        return [name] if found else []


def _deleted(lines: list[str]) -> Iterator[str]:
    """The references that were deleted last, and not added since."""
    last = {}
    for line in map(Line, lines):
        if line.word.startswith("add-") or line.word == "delete":
            last[str(line["REF"])] = line.word
    yield from (name for name, word in last.items() if word == "delete")


def _move(path: Path, folder: Path) -> list[str]:
    """Moves the files of a key, the private half first. Returns once that is on disk."""
    for file in (path.with_suffix(end) for end in ENDS):
        if file.is_file():
            shutil.move(str(file), str(folder / file.name))
    _sync(folder, path.parent)
    return [path.name]


def _sync(*paths: Path) -> None:
    for path in paths:
        descriptor = os.open(path, os.O_RDONLY | os.O_CLOEXEC)
        try:
            os.fsync(descriptor)
        finally:
            os.close(descriptor)
