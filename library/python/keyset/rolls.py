"""The table of the rolls: what hangs on a roll in Python stands in its row.

It shares no text with the key set that is proved or with the original. `replay/tables.py` answers
scripts by it, and the gate compares what it says of each roll with the program.

A role is one of a key's states. A KSK has one, and so has a ZSK. A CSK has two: the first as KSK,
the second as ZSK. The rows pick roles by these words:

    K, Z     the state of a KSK, of a ZSK
    KSK      the state of a KSK, the first state of a CSK
    ZSK      the state of a ZSK, the second state of a CSK
    first    the first state of a KSK, a ZSK or a CSK
    zone     the first state of a ZSK or a CSK
    whole    as first, but a change goes to all states of the key

and then by a condition on the flags before the call: 'old !present' is old and not present, and a
bar between two conditions means that one is enough."""

from __future__ import annotations

from enum import Enum
from typing import NamedTuple


class RollType(Enum):
    """The kinds of rolls, as a script calls them."""

    KSK_ROLL = "ksk-roll"
    KSK_DOUBLE_DS_ROLL = "ksk-double-ds-roll"
    ZSK_ROLL = "zsk-roll"
    ZSK_DOUBLE_SIGNATURE_ROLL = "zsk-double-signature-roll"
    CSK_ROLL = "csk-roll"
    ALGORITHM_ROLL = "algorithm-roll"


(KSK_ROLL, KSK_DOUBLE_DS_ROLL, ZSK_ROLL, ZSK_DOUBLE_SIGNATURE_ROLL, CSK_ROLL,
 ALGORITHM_ROLL) = (roll.value for roll in RollType)

# The calls of each roll, in order. A roll's phase has the name of the call that it waits for.
CALLS = ("start", "report1", "wait1", "report2", "wait2", "done")
# Those that have a moment, as their last field.
TIMED = CALLS[:-1]
# The actions that ask to watch sets, with the kind of these sets.
WATCHED = {
    f"{word}{record}Propagated": kind
    for word in ("Report", "Wait")
    for record, kind in (("Dnskey", "dnskey"), ("Rrsig", "zone"), ("Ds", "ds"))
}

# A pair is a word and a condition, or a word and what is written. A triple is a word, a condition
# and what is written, or a stamp, a word and a condition.
Pair = tuple[str, str]
Triple = tuple[str, str, str]


class Row(NamedTuple):
    """What a roll asks and does."""

    # The kinds of keys that its lists may name, and whether both have to be of the same algorithms.
    kinds: tuple[str, ...]
    same_algorithms: bool
    # What a start writes, by a word, to a new key, and which keys make it suited.
    new: tuple[Pair, ...]
    suited: tuple[Pair, ...]
    # Which stamps the reports set, and which stamp of which keys the waits read.
    report1: tuple[Triple, ...]
    report2: tuple[Triple, ...]
    wait1: Triple
    wait2: Triple
    # What an accepted wait writes.
    change1: tuple[Triple, ...]
    change2: tuple[Triple, ...]
    # The actions after the start and after each wait, and those of an early end.
    started: str
    halfway: str
    ended: str
    early: str

    @property
    def roles(self) -> tuple[str, ...]:
        """The roles of the keys that it rolls: that of KSKs, of ZSKs, or both."""
        return tuple(kind for kind in self.kinds if kind != "csk")

    @property
    def renews(self) -> str:
        """The kind of the keys that a policy renews by it, if there is one."""
        return self.kinds[-1] if self.same_algorithms else ""

    @property
    def watched(self) -> tuple[tuple[str, ...], ...]:
        """The kinds of sets to watch after the start and after each wait. The reports speak of
        the first two."""
        return tuple(
            tuple(WATCHED[action] for action in actions.split() if action in WATCHED)
            for actions in (self.started, self.halfway, self.ended)
        )

    def tolerates(self, other: str) -> bool:
        """Whether it may begin beside that roll."""
        return not {*self.roles} & {*ROLLS[other].roles}


def rolls_of(kind: str) -> tuple[str, ...]:
    """The rolls by which a policy renews keys of this kind."""
    return tuple(name for name, row in ROLLS.items() if row.renews == kind)


ROLLS: dict[str, Row] = {
    KSK_ROLL: Row(
        kinds=("ksk",),
        same_algorithms=True,
        new=(("K", "+present +signer published"),),
        suited=(("K", "!old present"),),
        report1=(("K", "!old present", "visible"),),
        report2=(("K", "!old at_parent", "ds_visible"),),
        wait1=("visible", "K", "old !stale | !old present"),
        wait2=("ds_visible", "K", "old !stale | !old at_parent"),
        change1=(("K", "old present", "-at_parent"), ("K", "!old present", "+at_parent")),
        change2=(("K", "old present", "-signer -present withdrawn"),),
        started="UpdateDnskeyRrset ReportDnskeyPropagated",
        halfway="CreateCdsRrset UpdateDsRrset ReportDsPropagated",
        ended="RemoveCdsRrset UpdateDnskeyRrset WaitDnskeyPropagated",
        early="UpdateDnskeyRrset WaitDnskeyPropagated",
    ),
    KSK_DOUBLE_DS_ROLL: Row(
        kinds=("ksk",),
        same_algorithms=True,
        new=(("K", "+at_parent"),),
        suited=(("K", "!old at_parent"),),
        report1=(("K", "!old at_parent", "ds_visible"),),
        report2=(("K", "!old present", "visible"),),
        wait1=("ds_visible", "K", "!old at_parent"),
        wait2=("visible", "K", "!old present"),
        change1=(
            ("K", "old present", "-present -signer"),
            ("K", "!old at_parent", "+present +signer published"),
        ),
        change2=(("K", "old at_parent", "-at_parent withdrawn"),),
        started="CreateCdsRrset UpdateDsRrset ReportDsPropagated",
        halfway="RemoveCdsRrset UpdateDnskeyRrset ReportDnskeyPropagated",
        ended="CreateCdsRrset UpdateDsRrset WaitDsPropagated",
        early="CreateCdsRrset UpdateDsRrset WaitDsPropagated",
    ),
    ZSK_ROLL: Row(
        kinds=("zsk",),
        same_algorithms=True,
        new=(("Z", "+present published"),),
        suited=(("Z", "!old present"),),
        report1=(("Z", "!old present", "visible"),),
        report2=(("Z", "!old signer", "rrsig_visible"),),
        wait1=("visible", "Z", "!old present"),
        wait2=("rrsig_visible", "Z", "!old signer"),
        change1=(("Z", "!old present", "+signer"), ("Z", "old", "-signer")),
        change2=(("Z", "old !signer", "-present withdrawn"),),
        started="UpdateDnskeyRrset ReportDnskeyPropagated",
        halfway="UpdateRrsig ReportRrsigPropagated",
        ended="UpdateDnskeyRrset WaitDnskeyPropagated",
        early="UpdateDnskeyRrset WaitDnskeyPropagated",
    ),
    ZSK_DOUBLE_SIGNATURE_ROLL: Row(
        kinds=("zsk",),
        same_algorithms=True,
        new=(("Z", "+present +signer published"),),
        suited=(("Z", "!old present"),),
        report1=(("Z", "!old present", "visible rrsig_visible"),),
        report2=(),
        wait1=("visible", "Z", "!old present"),
        wait2=("rrsig_visible", "Z", "!old signer"),
        change1=(("Z", "old", "-present -signer withdrawn"),),
        change2=(),
        started="UpdateDnskeyRrset UpdateRrsig ReportDnskeyPropagated ReportRrsigPropagated",
        halfway="UpdateDnskeyRrset UpdateRrsig ReportDnskeyPropagated ReportRrsigPropagated",
        ended="",
        early="UpdateDnskeyRrset UpdateRrsig WaitDnskeyPropagated WaitRrsigPropagated",
    ),
    CSK_ROLL: Row(
        kinds=("ksk", "zsk", "csk"),
        same_algorithms=True,
        new=(("KSK", "+present +signer published"), ("ZSK", "+present published")),
        suited=(("KSK", "!old present"), ("ZSK", "!old present")),
        report1=(("first", "!old present", "visible"),),
        report2=(
            ("KSK", "!old present", "ds_visible"),
            ("ZSK", "!old signer", "rrsig_visible"),
        ),
        wait1=("visible", "first", "!old present"),
        wait2=("rrsig_visible", "ZSK", "!old signer"),
        change1=(
            ("KSK", "old present", "-at_parent"),
            ("KSK", "!old present", "+at_parent"),
            ("ZSK", "!old present", "+signer"),
            ("ZSK", "old", "-signer"),
        ),
        change2=(
            ("KSK", "old present", "-signer -present withdrawn"),
            ("ZSK", "old !signer", "-present withdrawn"),
        ),
        started="UpdateDnskeyRrset ReportDnskeyPropagated",
        halfway="CreateCdsRrset UpdateDsRrset UpdateRrsig"
        " ReportDsPropagated ReportRrsigPropagated",
        ended="RemoveCdsRrset UpdateDnskeyRrset WaitDnskeyPropagated",
        early="UpdateDnskeyRrset WaitDnskeyPropagated",
    ),
    ALGORITHM_ROLL: Row(
        kinds=("ksk", "zsk", "csk"),
        same_algorithms=False,
        new=(("KSK", "+present +signer published"), ("ZSK", "+present +signer published")),
        suited=(("KSK", "!old present"), ("ZSK", "!old present")),
        report1=(
            ("first", "!old present", "visible"),
            ("zone", "!old present", "rrsig_visible"),
        ),
        report2=(("KSK", "!old present", "ds_visible"),),
        wait1=("visible", "first", "!old present"),
        wait2=("ds_visible", "KSK", "!old signer"),
        change1=(("KSK", "old present", "-at_parent"), ("KSK", "!old present", "+at_parent")),
        change2=(("whole", "old present", "-signer -present withdrawn"),),
        started="UpdateDnskeyRrset UpdateRrsig ReportDnskeyPropagated ReportRrsigPropagated",
        halfway="CreateCdsRrset UpdateDsRrset ReportDsPropagated",
        ended="RemoveCdsRrset UpdateDnskeyRrset UpdateRrsig"
        " WaitDnskeyPropagated WaitRrsigPropagated",
        early="UpdateDnskeyRrset UpdateRrsig WaitDnskeyPropagated WaitRrsigPropagated",
    ),
}
