"""Policies, as docs/POLICY.md has them, written again here."""

from __future__ import annotations

from collections.abc import Sequence
from dataclasses import dataclass
from typing import NamedTuple, Optional

from tests.oracle.spread import NoteHistory


@dataclass
class Renewal:
    """When keys of a role are renewed: so many seconds after they were published, or on demand."""

    lifetime: Optional[int] = None
    once: Optional[int] = None


class ShortLifetime(NamedTuple):
    """A lifetime that is shorter than its roll takes."""

    role: str
    takes: int
    text: str


@dataclass
class Policy:
    """`rolls` are those by which a scheme renews its keys; `renewals` are by roles."""

    algorithm: int
    rolls: tuple[str, ...]
    renewals: dict[str, Renewal]
    delete_after: int = 0

    @classmethod
    def of(cls, algorithm: int, rolls: Sequence[str]) -> Policy:
        """Nothing is renewed by it."""
        return cls(algorithm, tuple(rolls), {role_of(roll): Renewal() for roll in rolls})

    @classmethod
    def read(cls, lines: Sequence[str]) -> Policy:
        """`policy ALGORITHM ROLL..` and what follows it."""
        _, algorithm, *rolls = lines[0].split(" ")
        policy = cls.of(int(algorithm), rolls)
        for word, number in (line.split(" ") for line in lines[1:]):
            if word == "delete-after":
                policy.delete_after = int(number)
            else:
                role, _, name = word.partition("-")
                setattr(policy.renewals[role], name, int(number))
        return policy

    @property
    def roles(self) -> tuple[str, ...]:
        return tuple(self.renewals)

    def lines(self) -> list[str]:
        words = [(f"{role}-{name}", number) for role, renewal in self.renewals.items()
                 for name, number in vars(renewal).items() if number is not None]
        words += [("delete-after", self.delete_after)] if self.delete_after else []
        first = f"policy {self.algorithm} {' '.join(self.rolls)}"
        return [first, *(f"{word} {number}" for word, number in words)]

    def too_short(self, history: NoteHistory) -> Optional[ShortLifetime]:
        """The first lifetime that ends before its roll does, by the highest TTLs of notes."""
        for roll, (role, renewal) in zip(self.rolls, self.renewals.items()):
            lifetime, takes = renewal.lifetime, history.roll_takes(roll)
            if lifetime is not None and lifetime < takes:
                text = f"a lifetime of {lifetime} seconds is shorter than a {roll} takes: {takes}"
                return ShortLifetime(role, takes, text)
        return None


def role_of(roll: str) -> str:
    return roll.partition("-")[0]
