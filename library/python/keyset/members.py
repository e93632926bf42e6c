"""The status of a zone, as its JSON is read: docs/status.schema.json says what its members mean."""

from __future__ import annotations

from typing import Dict, List, Literal, Optional, Protocol, Tuple, TypedDict, Union

SetKind = Literal["ds", "dnskey", "zone"]
CallWord = Literal["report1", "wait1", "report2", "wait2", "done"]
ReportWord = Literal["report1", "report2"]
TodoWord = Literal["call", "publish", "watch", "key", "until", "nothing"]
KeyKind = Literal["ksk", "zsk", "csk", "public"]
RoleName = Literal["ksk", "zsk", "public"]
State = Literal["future", "incoming", "active", "leaving", "stale"]
Phase = Literal["propagation1", "cache-expire1", "propagation2", "cache-expire2", "done"]
WaitsFor = Literal["you", "parent", "caches"]
# The first second in which a wait is accepted: a call can name it, or it comes after all of them.
WaitEnd = Union[int, Literal["past-time"]]


class Stamps(TypedDict):
    """The stamps of a key: seconds since 1970, or None."""

    creation: Optional[int]
    published: Optional[int]
    visible: Optional[int]
    ds_visible: Optional[int]
    rrsig_visible: Optional[int]
    withdrawn: Optional[int]


class RoleMembers(TypedDict):
    role: RoleName
    state: State
    old: bool
    signer: bool
    present: bool
    at_parent: bool


class KeyMembers(Stamps):
    reference: str
    kind: KeyKind
    roles: List[RoleMembers]
    algorithm: int
    tag: int
    private: Optional[str]
    decoupled: bool
    may_come_in: bool
    may_be_deleted: bool
    old_in: List[str]
    new_in: List[str]


class RollMembers(TypedDict):
    roll: str
    phase: Phase
    ttl: Optional[int]
    next: CallWord
    not_before: Optional[WaitEnd]
    waits_for: WaitsFor
    due: List[str]


class EndedMembers(TypedDict):
    roll: str
    asked: List[str]


class ChainMembers(TypedDict):
    safe: bool
    at: Optional[int]
    ds: Optional[int]
    dnskey: Optional[int]
    zone: Optional[int]


class PublishedMembers(TypedDict):
    ds: List[str]
    dnskey: List[str]
    signers: List[str]
    zone: List[str]


class Status(TypedDict):
    """The whole of it."""

    zone: str
    chain: ChainMembers
    published: PublishedMembers
    keys: List[KeyMembers]
    rolls: List[RollMembers]
    ended: List[EndedMembers]


class After(Protocol):
    """What is so after a call: the keys of each published set, and the roles of keys, each with its
    key's algorithm."""

    @property
    def published(self) -> Dict[str, List[str]]: ...

    @property
    def roles(self) -> List[Tuple[int, RoleMembers]]: ...


def roles_of(status: Status) -> List[Tuple[int, RoleMembers]]:
    """The roles of all keys, each with its key's algorithm."""
    return [(key["algorithm"], role) for key in status["keys"] for role in key["roles"]]
