"""What notes say of the sets on servers, and what reports count by them: written again from
`Spread.antt` of crates/dnssec_network and `Ttls.antt` of crates/dnssec_policy. Times are in
seconds."""

from __future__ import annotations

from collections.abc import Iterable, Sequence
from dataclasses import dataclass
from typing import Optional

from judge import SPEAKS_OF

KINDS, LONGEST_TTL = ("ds", "dnskey", "zone"), 2**32 - 1


@dataclass
class Spread:
    """How far the versions of a kind have come, for the sets of one position."""

    ttl: int
    position: int = 0
    older: Optional[int] = None
    seen: int = 0
    expired: int = 0

    def take(self, base: int, *fact: int) -> None:
        """One more fact: a version with its position, TTL and moment; or the moment of a sight."""
        if len(fact) == 1:
            self.see(*fact)
            return
        if self.position < base:
            self.older = max(self.older or 0, self.ttl)
        self.position, self.ttl, _ = fact

    def see(self, moment: int) -> None:
        if self.older is not None:
            self.expired = max(self.expired, moment + self.older + 1)
        self.older, self.seen = None, moment

    def is_everywhere(self, base: int, now: int) -> bool:
        return self.position >= base and self.older is None and self.seen <= now


class NoteHistory:
    """What the lines of notes say of the sets of each kind. Each line is read once."""

    def __init__(self, lines: Iterable[str] = ()) -> None:
        self.before = dict.fromkeys(KINDS, 0)
        self.news: dict[str, list[tuple[int, ...]]] = {kind: [] for kind in KINDS}
        self.highest = dict(self.before)
        # By kind and position: how many facts are counted, and what is known by them.
        self.spreads: dict[tuple[str, int], tuple[int, Spread]] = {}
        for line in lines:
            self.take(line)

    def take(self, line: str) -> None:
        word, *fields = line.split(" ")
        if word == "before":
            self.before = dict(zip(KINDS, map(int, fields)))
            self.highest = dict(self.before)
            return
        kind, *numbers = fields
        self.news[kind].append(tuple(map(int, numbers)))
        if word == "published":
            self.highest[kind] = max(self.highest[kind], int(numbers[1]))

    def spread(self, kind: str, base: int) -> Spread:
        news = self.news[kind]
        done, spread = self.spreads.get((kind, base)) or (0, Spread(self.before[kind]))
        for fact in news[done:]:
            spread.take(base, *fact)
        self.spreads[kind, base] = len(news), spread
        return spread

    def lasting(self, kinds: Sequence[str], due: int) -> int:
        """The TTL of a report on these kinds, by that which is due. Validators keep the algorithms
        of a DS set with a DNSKEY set; and CDS, a set of the zone, has just left it."""
        if "ds" not in kinds:
            return due
        return max(due + self.highest["dnskey"] + 1, self.highest["zone"] + 1)

    def roll_takes(self, roll: str) -> int:
        """Both waits, each by the highest TTL of the kinds that its report speaks of, and a
        second."""
        return sum(self.lasting(kinds, max(self.highest[kind] for kind in kinds) + 1)
                   for kinds in SPEAKS_OF[roll])
