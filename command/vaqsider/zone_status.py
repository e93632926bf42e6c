"""The status of a zone, read once from the members of its JSON."""

from __future__ import annotations

from dataclasses import dataclass, replace
from typing import TYPE_CHECKING, Literal, Mapping

from keyset import Action, Broken, Key, Published, Roll, RollType

if TYPE_CHECKING:
    from keyset import Status
    from keyset.members import ChainMembers

# For whom a roll waits, the most urgent first. (The key set knows of no ticks.)
Who = Literal["you", "tick", "parent", "caches"]
WAITING: tuple[Who, ...] = ("you", "tick", "parent", "caches")
YOU, TICK, PARENT, CACHES = WAITING


@dataclass(frozen=True)
class EndedRoll:
    """A roll that was ended early, with what its end asks for."""

    roll: RollType
    asked: list[Action]


@dataclass(frozen=True)
class ZoneStatus:
    """A zone's status: the first sets without a chain of trust, if there are such; what is
    published; the keys; the rolls in progress, and for whom each waits; and those that were ended
    early. `members` are those of the JSON that it was read from."""

    members: Status
    zone: str
    broken: Broken | None
    published: Published
    keys: list[Key]
    rolls: list[Roll]
    ended: list[EndedRoll]
    waits_for: Mapping[RollType, Who]

    @classmethod
    def of(cls, members: Status) -> ZoneStatus:
        """Reads the members."""
        rolls = [*map(Roll.of, members["rolls"])]
        ended = [EndedRoll(RollType(it["roll"]), [*map(Action, it["asked"])])
                 for it in members["ended"]]
        return cls(
            members,
            members["zone"],
            _broken(members["chain"]),
            Published(**members["published"]),
            [*map(Key.of, members["keys"])],
            rolls,
            ended,
            {it.roll: it.waits_for for it in rolls},
        )

    def at(self, now: float, who: Who) -> ZoneStatus:
        """The status at this moment: if a wait is over, it waits for who goes on."""
        waits_for = {it.roll: who if _is_over(it, now) else it.waits_for for it in self.rolls}
        return replace(self, waits_for=waits_for)

    def as_json(self) -> dict[str, object]:
        """Its members, with those for whom rolls wait."""
        rolls: list[dict[str, object]]
        rolls = [{**it, "waits_for": self.waits_for[RollType(it["roll"])]}
                 for it in self.members["rolls"]]
        return {**self.members, "rolls": rolls}

    @property
    def origin(self) -> str:
        """The zone's name with a dot at its end."""
        return self.zone.rstrip(".") + "."

    @property
    def has_sets(self) -> bool:
        """Whether anything is published."""
        return any(vars(self.published).values())

    def keys_in_sets(self) -> list[Key]:
        """The keys of the published sets."""
        names = {name for of in vars(self.published).values() for name in of}
        return [key for key in self.keys if key.reference in names]

    def asked(self) -> dict[str, list[Action]]:
        """The actions that are due, by roll, with those of rolls that were ended early."""
        ended = {it.roll.value: it.asked for it in self.ended}
        return {**ended, **{it.roll.value: it.due for it in self.rolls}}

    def asks(self, action: Action) -> bool:
        """Whether an action is due."""
        return any(action in actions for actions in self.asked().values())


def _broken(chain: ChainMembers) -> Broken | None:
    # (If the chain is broken, each has a number.)
    calls = [it for it in (chain["at"], chain["ds"], chain["dnskey"], chain["zone"])
             if it is not None]
    return None if chain["safe"] else Broken(*calls)


def _is_over(roll: Roll, now: float) -> bool:
    """Whether a roll can go on at this moment."""
    has_waited = isinstance(roll.not_before, int) and roll.not_before <= now
    return has_waited or roll.waits_for == YOU
