"""What the TTL of a report is at most by the notes, in one pass. The key set works it out by the
sets that a report's step has changed. For that it goes through the script once for each report, if
the programs answer. By the step's number alone no older version is overlooked: a report with that
TTL is true."""

from __future__ import annotations

from bisect import bisect_left
from dataclasses import dataclass
from typing import List, Optional, Sequence, Tuple


@dataclass(frozen=True)
class Reported:
    """A report of a script: the number of its line, its roll, its moment and its TTL; the number of
    the line that it counts from, and the greatest moment until then; and the kinds of sets that it
    speaks of."""

    number: int
    roll: str
    moment: int
    ttl: int
    step: int
    begun: int
    kinds: Sequence[str]


class Spread:
    """How far the versions of a kind have spread, as they are noted. Each is older than the calls
    after its own."""

    def __init__(self, ttl: int) -> None:
        self._call, self._ttl = 0, ttl
        # Versions that servers may give beside the newest: the first one's call, the highest TTL.
        self._older: Optional[Tuple[int, int]] = None
        # When all servers gave a version: its call, and until when caches may hold older ones.
        self._calls: List[int] = []
        self._ends: List[int] = [0]
        self._seen, self._goes_back = 0, False

    def publish(self, call: int, ttl: int) -> None:
        first, most = self._older or (self._call, 0)
        self._older = first, max(most, self._ttl)
        self._goes_back |= call < self._call
        self._call, self._ttl = call, ttl

    def see(self, moment: int) -> None:
        end = 0 if self._older is None else moment + self._older[1] + 1
        self._calls.append(self._call)
        self._ends.append(max(self._ends[-1], end))
        self._older, self._seen = None, moment

    def most(self, call: int, moment: int) -> Optional[int]:
        """The TTL that is enough for a report that counts from a call. None: it isn't known."""
        is_seen = self._older is None or self._older[0] >= call
        at = bisect_left(self._calls, call)
        if not is_seen or self._goes_back or self._seen > moment or at == len(self._calls):
            return None
        return max(0, self._ends[at + 1] - moment)


class Bounds:
    """The notes of all kinds, as they are read."""

    def __init__(self, before: str) -> None:
        ttls = map(int, before.split(" ")[1:])
        self._spread = {kind: Spread(ttl) for kind, ttl in zip(("ds", "dnskey", "zone"), ttls)}

    def note(self, line: str) -> None:
        word, kind, *numbers = line.split(" ")
        if word == "published":
            self._spread[kind].publish(int(numbers[0]), int(numbers[1]))
        else:
            self._spread[kind].see(int(numbers[0]))

    def are_met(self, report: Reported) -> bool:
        """Whether a report is true, by what the notes say so far."""
        if report.moment < report.begun:
            return False
        most = [self._spread[it].most(report.step - 1, report.moment) for it in report.kinds]
        return all(ttl is not None and ttl <= report.ttl for ttl in most)
