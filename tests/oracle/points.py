"""The points in which an operator may not follow the guides, each with the mark of the rule in the
guides that says it; what some points need to break a zone soon; and how they break it."""

from typing import NamedTuple

from keyset.rolls import ALGORITHM_ROLL, KSK_DOUBLE_DS_ROLL, KSK_ROLL


class Point(NamedTuple):
    """What an operator does who leaves this rule of the guides out."""

    name: str
    rule: str


# One signer.
POINTS = (
    LOWERED := Point(
        "reports give the TTL of now, not the highest that caches may hold",
        "lowered-ttl",
    ),
    TTL_OF_0 := Point(
        "reports give a TTL of 0",
        "highest-ttl",
    ),
    A_SECOND := Point(
        "the second that a cache counts more isn't reported",
        "a-second",
    ),
    UNSIGNED_ONLY := Point(
        "the first report counts what the unsigned zone had, and not the keys before",
        "keys-before-unsigned",
    ),
    EARLY_ENDS := Point(
        "what was published by a roll that was ended early isn't counted",
        "sets-of-early-ends",
    ),
    SKIPPED := Point(
        "waits are skipped, by a moment ahead of the clock",
        "no-moment-ahead",
    ),
    EARLY := Point(
        "reports are made when the first server has it",
        "all-servers",
    ),
    ROUNDED := Point(
        "moments are rounded the other way",
        "report-rounded-up",
    ),
    NO_MARGIN := Point(
        "no margin for clocks that differ",
        "clocks-differ",
    ),
    BEFORE_START := Point(
        "the moment of a report lies before its start",
        "report-after-its-step",
    ),
    NOT_KEPT := Point(
        "TTLs are reported that some caches don't keep",
        "caches-that-keep-longer",
    ),
    PARENT_FIRST := Point(
        "the parent changes before the first report",
        "after-the-answer",
    ),
    SAME_KEY := Point(
        "the key of a double-DS roll that was ended early comes again",
        "another-key",
    ),
    CDS_LEFT := Point(
        "nobody watches until CDS is out",
        "watch-cds-out",
    ),
    CDS_STAYS := Point(
        "CDS is taken out when the old keys leave",
        "take-cds-out",
    ),
    CDS_BY_ZONE := Point(
        "CDS is signed by the keys of zone= only",
        "signers-sign-cds",
    ),
    NOT_RENEWED := Point(
        "signatures aren't renewed while a roll waits",
        "renew",
    ),
    KSK_FIRST := Point(
        "a KSK roll before the first algorithm roll",
        "algorithm-roll-first",
    ),
    CSK_FIRST := Point(
        "a CSK roll before the first algorithm roll",
        "algorithm-roll-first",
    ),
    NO_SUM := Point(
        "only the DS TTL, though the sum is due",
        "the-sum",
    ),
    RAISED := Point(
        "the DNSKEY TTL rises when it must not",
        "steady-dnskey-ttl",
    ),
    MIXED := Point(
        "a KSK of one algorithm with a ZSK of another",
        "whole-sets",
    ),
    ONE_SIDE := Point(
        "an algorithm roll of the KSKs only",
        "whole-sets",
    ),
    ALL_AT_ONCE := Point(
        "a zone of two algorithms rolls both at once",
        "one-of-each-kind",
    ),
    NOT_IN_USE := Point(
        "a CSK roll brings in an algorithm, by an old key that was never in use",
        "only-algorithm-roll",
    ),
    BACK_AT_ONCE := Point(
        "a DS set is taken back before the parent has it",
        "parent-ends-first",
    ),
    NOT_HELD_BACK := Point(
        "going unsigned, the second wait is made when it is accepted",
        "hold-back",
    ),
)

# Two signers.
PAIRS = (
    KEYS_UNSEEN := Point(
        "a signer doesn't watch until the other's servers give its new keys",
        "others-give-yours",
    ),
    OTHER_TTL := Point(
        "the TTL of the other's DNSKEY sets isn't counted",
        "others-ttl",
    ),
    TAKEN_OUT := Point(
        "an old ZSK of the other is taken out before the other's second wait",
        "after-others-wait2",
    ),
    DS_ALONE := Point(
        "first keys: each has the DS of its own keys set when its first wait is over",
        "one-change-for-both",
    ),
    DS_OWN := Point(
        "CDS has the keys of one signer only, and so has what is asked of the parent",
        "ds-of-both",
    ),
    CDS_ON_ONE := Point(
        "CDS comes and goes on the servers of one signer only",
        "cds-on-both",
    ),
    CDS_BY_SIGNERS := Point(
        "CDS is signed by a key of signers= only",
        "every-zone-key-signs-cds",
    ),
    CDS_BY_ALL := Point(
        "CDS is signed by each key of signers=",
        "no-more-signatures",
    ),
    CDS_UNCOUNTED := Point(
        "the TTL of CDS isn't counted in the zone's TTL",
        "cds-counts",
    ),
    CDS_UNCHANGED := Point(
        "the signatures of CDS don't change with the keys",
        "cds-signed-anew",
    ),
    DOUBLE_SIGNATURE := Point(
        "two signers roll ZSKs by a double-signature roll",
        "zsks-by-zsk-roll",
    ),
    AT_ONCE := Point(
        "both ask for a change of the DS set at once, each by what it saw before",
        "one-change-at-a-time",
    ),
    JOINS_EARLY := Point(
        "the servers of who joins are named before its second wait",
        "named-after-wait2",
    ),
    LEAVES_EARLY := Point(
        "the DS of who leaves goes first",
        "ds-after-ns",
    ),
    NS_TTL := Point(
        "when one leaves, nobody waits for the TTL of the NS sets",
        "ns-ttl",
    ),
    UNSIGNED_ALONE := Point(
        "one signer goes unsigned, and the other doesn't",
        "not-unsigned-alone",
    ),
    ALGORITHM_ALONE := Point(
        "one signer changes its algorithm, and the other doesn't",
        "same-algorithms",
    ),
)

# How a zone breaks. Some caches hold no chain of trust; or a chain, but not a signature by every
# algorithm; or no signature of CDS that they can check; or more than two signatures, of which two
# are by keys that they don't know; or a signature that is no longer valid. Or a step never ends.
NO_CHAIN, NOT_EVERY, NO_CDS = "no chain", "not every algorithm", "no chain to CDS"
TOO_MANY, EXPIRED, NO_END = "too many signatures", "a signature expired", "no end of a step"

# How a zone breaks by a point, if that isn't NO_CHAIN.
BREAKS = {
    CDS_BY_ZONE: NO_END,
    CDS_BY_SIGNERS: NO_CDS,
    CDS_UNCOUNTED: NO_CDS,
    CDS_UNCHANGED: NO_CDS,
    CDS_STAYS: TOO_MANY,
    CDS_BY_ALL: TOO_MANY,
    DOUBLE_SIGNATURE: TOO_MANY,
    ALL_AT_ONCE: TOO_MANY,
    NOT_RENEWED: EXPIRED,
    RAISED: NOT_EVERY,
    MIXED: NOT_EVERY,
    ONE_SIDE: NOT_EVERY,
    NOT_IN_USE: NOT_EVERY,
    ALGORITHM_ALONE: NOT_EVERY,
    CDS_ON_ONE: NO_END,
}

# What some points need to break a zone soon: which rolls, and which world.
ORDERS = {
    SAME_KEY: [KSK_DOUBLE_DS_ROLL] * 8,
    CDS_LEFT: [KSK_DOUBLE_DS_ROLL] * 8,
    CDS_STAYS: [ALGORITHM_ROLL] * 8,
    RAISED: [ALGORITHM_ROLL] * 8,
    UNSIGNED_ONLY: [],
    BACK_AT_ONCE: [KSK_ROLL] * 8,
}
WORLDS = {
    NOT_KEPT: {"least": 4},
    CDS_LEFT: {"slow": 0.5, "takes_cds": True},
    CDS_BY_ZONE: {"takes_cds": True},
    CDS_ON_ONE: {"takes_cds": True},
    CDS_UNCOUNTED: {"ttls": {"cds": (8,), "zone": (1,)}},
    UNSIGNED_ONLY: {"ttls": {"dnskey": (8,), "zone": (1,)}},
    EARLY_ENDS: {"ttls": {"dnskey": (1, 8)}},
    CDS_UNCHANGED: {"ttls": {"cds": (8,), "zone": (1,)}},
    RAISED: {"ttls": {"dnskey": (1, 8)}},
    BACK_AT_ONCE: {"takes_cds": False, "slow": 0},
    NS_TTL: {"slow": 0},
}
