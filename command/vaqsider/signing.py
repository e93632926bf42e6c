"""What a signer of files is asked to do, and how its tools run. No text goes through a shell."""

from __future__ import annotations

import shlex
import shutil
import subprocess
import sys
from dataclasses import dataclass, replace
from pathlib import Path
from typing import IO, Callable

from .errors import UNAVAILABLE, Failure

# Signatures begin an hour before, for servers whose clocks are slow.
BEFORE = 3600


@dataclass(frozen=True)
class Nsec3:
    """The fields of an NSEC3PARAM record (RFC 5155), with the flag for opt-out."""

    algorithm: int
    flags: int
    iterations: int
    salt: str

    @classmethod
    def of(cls, text: str) -> Nsec3:
        """Reads `1 0 0 -`: algorithm, flags, iterations and salt."""
        *numbers, salt = text.split() or [""]
        is_salt = salt == "-" or len(salt) % 2 == 0 and set(salt.lower()) <= set("0123456789abcdef")
        are_numbers = all(it.isdecimal() and len(it) <= 5 for it in numbers)
        if len(numbers) != 3 or not (is_salt and are_numbers):
            raise Failure(f"NSEC3 parameters are as '1 0 0 -', not '{text}'")
        algorithm, flags, iterations = map(int, numbers)
        return cls(algorithm, flags, iterations, salt)


@dataclass(frozen=True)
class Task:
    """What has to be signed, by which keys, and how."""

    origin: str
    keys: tuple[Path, ...]
    now: int
    lifetime: int
    jitter: int | None
    nsec3: Nsec3 | None

    def from_anywhere(self) -> Task:
        """The same, with the keys' whole paths."""
        return replace(self, keys=tuple(key.resolve() for key in self.keys))


@dataclass(frozen=True)
class Tools:
    """A signer's tools: what prints a zone file with each record in full, and what signs `whole`,
    which is such a file, as `draft`. It makes more signatures than are due: with every key, of
    every set. Some readers know the origin only from the file."""

    reads: Callable[[str, Path], list[str]]
    signs: Callable[[Task], list[str]]
    knows_origin: bool


def verifying(origin: str, has_opt_out: bool) -> list[str]:
    """What verifies the signed zone `ready`: it says whether each set that has to be signed is, and
    whether the signatures are right. ldns can't check opt-out."""
    if shutil.which("dnssec-verify"):
        return ["dnssec-verify", "-q", "-z", "-o", origin, "ready"]
    if shutil.which("ldns-verify-zone") and not has_opt_out:
        return ["ldns-verify-zone", "-V", "1", "ready"]
    what = "dnssec-verify" if has_opt_out else "dnssec-verify or ldns-verify-zone"
    raise Failure(f"no signed zone is put in place unseen: install {what}", UNAVAILABLE)


def run(words: list[str], within: Path | None = None,
        stdout: IO[bytes] | int = subprocess.PIPE) -> None:
    """Runs a program. If it fails, the failure has its words; else standard error has them, unless
    its output goes into a file: what reads a zone then says how it went."""
    try:
        done = subprocess.run(words, cwd=within, stdin=subprocess.DEVNULL, stdout=stdout,
                              stderr=subprocess.PIPE)
    except FileNotFoundError:
        raise Failure(f"{words[0]} is missing: install it, or use another --signer",
                      UNAVAILABLE) from None
    said = [text.decode(errors="replace") for text in (done.stderr, done.stdout or b"")]
    if done.returncode:
        lines = [line.strip() for line in "\n".join(said).split("\n") if line.strip()]
        why = "; ".join(lines[:3]) or f"status {done.returncode}"
        raise Failure(f"{words[0]}: {why}", UNAVAILABLE)
    if stdout == subprocess.PIPE:
        print(said[0], end="", file=sys.stderr)


def shown(words: list[str]) -> str:
    """The command as one would type it."""
    return shlex.join(words)
