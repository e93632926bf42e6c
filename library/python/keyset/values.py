"""What the key set says, as values with the names of `domain`'s module `keyset`."""

from __future__ import annotations

from dataclasses import dataclass
from enum import Enum
from typing import Iterable, List, Tuple, Union, cast

from .rolls import RollType
from .members import (
    CallWord,
    KeyKind,
    KeyMembers,
    Phase,
    ReportWord,
    RoleName,
    RollMembers,
    SetKind,
    Stamps,
    State,
    TodoWord,
    WaitEnd,
    WaitsFor,
)

TODO_WORDS = ("publish", "watch", "key", "until", "nothing")
NOT_YET = "not yet: "
# References of keys. A text isn't a list of them.
References = Union[List[str], Tuple[str, ...]]


class Action(Enum):
    """What has to be done next."""

    UPDATE_DNSKEY_RRSET = "UpdateDnskeyRrset"
    CREATE_CDS_RRSET = "CreateCdsRrset"
    REMOVE_CDS_RRSET = "RemoveCdsRrset"
    UPDATE_DS_RRSET = "UpdateDsRrset"
    UPDATE_RRSIG = "UpdateRrsig"
    REPORT_DNSKEY_PROPAGATED = "ReportDnskeyPropagated"
    WAIT_DNSKEY_PROPAGATED = "WaitDnskeyPropagated"
    REPORT_DS_PROPAGATED = "ReportDsPropagated"
    WAIT_DS_PROPAGATED = "WaitDsPropagated"
    REPORT_RRSIG_PROPAGATED = "ReportRrsigPropagated"
    WAIT_RRSIG_PROPAGATED = "WaitRrsigPropagated"


class Accepted(List[Action]):
    """The actions that an accepted call asks for. `number` is that of the call: of the line after
    the zone's it is 1. By it notes name the sets that are due after the call."""

    number: int

    def __init__(self, actions: Iterable[Action], number: int) -> None:
        super().__init__(actions)
        self.number = number

    @classmethod
    def of(cls, reply: str, number: int) -> Accepted:
        """Reads a reply that begins with `ok`."""
        return cls(map(Action, reply.split(" ")[1:]), number)


@dataclass(frozen=True)
class Published:
    """The references of the keys to publish, each list in the order of its bytes."""

    ds: list[str]
    dnskey: list[str]
    signers: list[str]
    zone: list[str]

    @classmethod
    def of(cls, line: str) -> Published:
        """Reads the line of the published sets, near the end of a script's answers."""
        parts = (part.partition("=") for part in line.split(" "))
        return cls(**{name: [] if keys == "-" else keys.split(",") for name, _, keys in parts})

    def __str__(self) -> str:
        sets = vars(self).items()
        return " ".join(f"{name}={','.join(keys) or '-'}" for name, keys in sets)


@dataclass(frozen=True)
class Due:
    """A report that a roll waits for: `report1` or `report2`, and the TTL to report. If it isn't
    due yet, it has no TTL, but the first kind whose older sets servers may still give: `ds`,
    `dnskey` or `zone`; or the second since 1970 before which no report is true, that of the roll's
    last step or of a call before this."""

    call: ReportWord
    roll: RollType
    ttl: int | None
    waits_for: SetKind | None = None
    waits_until: int | None = None

    @classmethod
    def of(cls, line: str) -> Due:
        """Reads a line of what is due."""
        word, roll, *rest = line.removeprefix(NOT_YET).split(" ")
        call = cast(ReportWord, word)
        if rest[:2] == ["waits", "until"]:
            return cls(call, RollType(roll), None, waits_until=int(rest[2]))
        if line.startswith(NOT_YET):
            return cls(call, RollType(roll), None, cast(SetKind, rest[-1]))
        return cls(call, RollType(roll), int(rest[0]))


@dataclass(frozen=True)
class Todo:
    """What a policy says to do next. `word` is `call`, `publish`, `watch`, `key`, `until` or
    `nothing`. `line` says it: of a call it is the line of a script, which `KeySet.call` takes."""

    word: TodoWord
    line: str

    @classmethod
    def of(cls, line: str) -> Todo:
        """Reads the line that says it."""
        word = line.split(" ")[0].rstrip(":")
        return cls(cast(TodoWord, word if word in TODO_WORDS else "call"), line)

    @property
    def fields(self) -> list[str]:
        """What follows the word."""
        return self.line.split(" ")[1:]


@dataclass(frozen=True)
class Broken:
    """The first sets without a chain of trust. They met after call `at`; the other numbers are the
    calls that the DS set, the DNSKEY set and the zone signers are of."""

    at: int
    ds: int
    dnskey: int
    zone: int

    def __str__(self) -> str:
        return f"broken at={self.at} ds={self.ds} dnskey={self.dnskey} zone={self.zone}"


@dataclass(frozen=True)
class Role:
    """A role of a key, with the word for its flags."""

    role: RoleName
    state: State
    old: bool
    signer: bool
    present: bool
    at_parent: bool


@dataclass(frozen=True)
class Key:
    """A key of the set. Stamps are seconds since 1970, or None."""

    reference: str
    kind: KeyKind
    roles: list[Role]
    algorithm: int
    tag: int
    private: str | None
    decoupled: bool
    stamps: Stamps
    may_come_in: bool
    may_be_deleted: bool
    old_in: list[RollType]
    new_in: list[RollType]

    @classmethod
    def of(cls, members: KeyMembers) -> Key:
        """Reads a key of the status."""
        return cls(
            members["reference"],
            members["kind"],
            [Role(**role) for role in members["roles"]],
            members["algorithm"],
            members["tag"],
            members["private"],
            members["decoupled"],
            stamps_of(members),
            members["may_come_in"],
            members["may_be_deleted"],
            list(map(RollType, members["old_in"])),
            list(map(RollType, members["new_in"])),
        )


def stamps_of(members: KeyMembers) -> Stamps:
    return {
        "creation": members["creation"],
        "published": members["published"],
        "visible": members["visible"],
        "ds_visible": members["ds_visible"],
        "rrsig_visible": members["rrsig_visible"],
        "withdrawn": members["withdrawn"],
    }


@dataclass(frozen=True)
class Roll:
    """A roll in progress: its phase, what is due, the call that comes next, the first second in
    which a wait is accepted (`past-time` if no call can name it), and for whom it waits: `you`,
    `parent` or `caches`."""

    roll: RollType
    phase: Phase
    ttl: int | None
    next: CallWord
    not_before: WaitEnd | None
    waits_for: WaitsFor
    due: list[Action]

    @classmethod
    def of(cls, members: RollMembers) -> Roll:
        """Reads a roll of the status."""
        return cls(
            RollType(members["roll"]),
            members["phase"],
            members["ttl"],
            members["next"],
            members["not_before"],
            members["waits_for"],
            list(map(Action, members["due"])),
        )
