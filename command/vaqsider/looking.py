"""One look: what all servers give at this moment, and what each lacks."""

from __future__ import annotations

from argparse import Namespace
from collections.abc import Collection, Iterable
from dataclasses import dataclass

from . import asking, comparing
from .asking import Answer, Server
from .comparing import TYPES, DueSets
from .errors import NoAnswer


@dataclass(frozen=True, order=True)
class Lack:
    """What a server lacks of a kind of sets, in words. Without a server it is a key file."""

    kind: str
    server: str
    text: str

    def __str__(self) -> str:
        return f"{self.server}: {self.text}" if self.server else self.text


@dataclass(frozen=True)
class Places:
    """The servers of the zone and of its parent, and their port."""

    zone: list[Server]
    parent: list[Server]
    port: int

    @classmethod
    def of(cls, zone: str, args: Namespace) -> Places:
        """Those that the command line names, or all that NS records name."""
        parents = cls.of_parent(zone, args).parent
        servers = asking.by_name(args.server or [])
        return cls(servers or asking.of_zone(zone, parents, args.port), parents, args.port)

    @classmethod
    def of_parent(cls, zone: str, args: Namespace) -> Places:
        """Only those of the parent."""
        parents = asking.by_name(args.parent_server or [])
        if not parents and zone.strip("."):
            parents = asking.of_parent(zone, args.parent)
        return cls([], parents, args.port)

    def of_kind(self, kind: str, zone: str) -> list[Server]:
        """The servers to ask for this kind of sets."""
        is_parent = kind == "ds"
        servers = self.parent if is_parent else self.zone
        if not servers:
            of, option = ("the parent of ", "parent-") if is_parent else ("", "")
            text = f"no servers of {of}{zone} found: name them by --{option}server"
            raise NoAnswer(text)
        return servers


@dataclass(frozen=True)
class Look:
    """What all servers have answered, by kind, type and server."""

    due: DueSets
    now: float
    answers: dict[tuple[str, str, Server], Answer]

    def lacking(self, kinds: Collection[str]) -> list[Lack]:
        """What they lack of these kinds. If a key file is missing, nothing is right."""
        lacks = [Lack(kind, "", fault) for kind in kinds for fault in self.due.faults]
        for (kind, type_, server), answer in self.answers.items():
            if kind in kinds:
                texts = comparing.lacks(self.due, type_, answer, self.now)
                lacks += (Lack(kind, str(server), text) for text in texts)
        return sorted(lacks)

    def wrong(self, kinds: Collection[str]) -> list[Lack]:
        """What is wrong in the answers of these kinds, of those who have answered."""
        return sorted(
            Lack(kind, str(server), text)
            for (kind, type_, server), answer in self.answers.items()
            if kind in kinds and not answer.fault
            for text in comparing.lacks(self.due, type_, answer, self.now)
        )

    def cds_left(self) -> list[Lack]:
        """Which servers may give CDS still, if that was asked for, and all of the parent's have the
        DS set."""
        is_asked = any(kind == "cds" for kind, _, _ in self.answers)
        return self.lacking(["cds"]) if is_asked and not self.lacking(["ds"]) else []

    def ttl(self, kind: str) -> int:
        """The highest TTL of this kind that was seen."""
        return max((it.ttl for (of, _, _), it in self.answers.items() if of == kind), default=0)

    def servers(self, kinds: Collection[str]) -> list[str]:
        """The servers that were asked for these kinds."""
        asked = {server for of, _, server in self.answers if of in kinds}
        return list(map(str, sorted(asked)))


def look(due: DueSets, kinds: Iterable[str], places: Places, now: float) -> Look:
    """Asks all servers for the sets of these kinds: first those of the zone side by side, then
    those of the parent. So a DS set that is seen was there after the last CDS that a parent could
    read."""
    kinds = list(kinds)
    answers: dict[tuple[str, str, Server], Answer] = {}
    for of in ([it for it in kinds if it != "ds"], [it for it in kinds if it == "ds"]):
        questions = [
            (kind, type_, server)
            for kind in of for type_ in TYPES[kind] for server in places.of_kind(kind, due.zone)
        ]
        given = asking.side_by_side(
            lambda it: asking.ask(it[2], places.port, due.zone, it[1]), questions
        )
        answers |= zip(questions, given)
    return Look(due, now, answers)
