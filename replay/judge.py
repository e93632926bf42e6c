"""Whether a record is safe: a second judge, written only from the definition of a safe record.

A record is a list of positions; position 0 is the new set. At position n caches may hold each DS
set, each DNSKEY set with its signers and each set of zone signers that was published at a position
up to n and that no report has retired. The record is safe if at each position each choice of a DS
set, a DNSKEY set and a set of zone signers that caches may hold has a chain of trust.
"""

import sys
from pathlib import Path
from typing import NamedTuple, Optional

sys.path.append(str(Path(__file__).resolve().parent.parent / "library" / "python"))

from keyset.rolls import ROLLS  # noqa: E402 (it isn't installed)

# The kinds of sets that the first and the second report of a roll speak of.
SPEAKS_OF = {roll: row.watched[:2] for roll, row in ROLLS.items()}


class Report(NamedTuple):
    roll: str
    second: bool
    ttl: int


class Position(NamedTuple):
    """What a position has. A key is its reference with the position of its add; `step` is the roll
    that the call started, or whose first wait it was."""

    moment: Optional[int]
    step: Optional[str]
    report: Optional[Report]
    ds: frozenset
    dnskey: frozenset
    signers: frozenset
    zone: frozenset


NEW_SET = Position(None, None, None, *[frozenset()] * 4)


def base(record, at):
    """What the report at a position counts from: the last step of its roll below it."""
    roll = record[at].report.roll
    return max((n for n in range(at) if record[n].step == roll), default=None)


def set_of(record, kind, n):
    """The set of a kind at a position; a DNSKEY set with its signers."""
    labels = ("dnskey", "signers") if kind == "dnskey" else (kind,)
    return [getattr(record[n], label) for label in labels]


def origin(record, kind, n):
    """The position at which the set of a kind came that is there at position n."""
    while n and set_of(record, kind, n - 1) == set_of(record, kind, n):
        n -= 1
    return n


def time(record, n):
    return max((p.moment for p in record[: n + 1] if p.moment is not None), default=0)


def is_retired(record, kind, q, n):
    """Whether no cache holds the set of position q at n any more."""
    for at in range(n + 1):
        report, moment = record[at].report, record[at].moment
        if report is None or moment is None:
            continue
        if kind not in SPEAKS_OF[report.roll][report.second]:
            continue
        counted_from = base(record, at)
        if counted_from is None or q >= counted_from:
            continue
        if moment + report.ttl <= time(record, n):
            return True
    return False


def held(record, kind, n):
    """The sets that caches may hold at n, each with the least position that has it."""
    sets = {}
    for q in range(n + 1):
        p = record[q]
        published = {"ds": p.ds, "dnskey": (p.dnskey, p.signers), "zone": p.zone}[kind]
        if published not in sets and not is_retired(record, kind, q, n):
            sets[published] = q
    return sets


def has_chain(ds, dnskey, signers, zone):
    return not ds or bool(ds & dnskey & signers and dnskey & zone)


def verdict(record):
    """None if the record is safe, else the first positions of sets without a chain: `at`, `ds`,
    `dnskey`, `zone`."""
    for n in range(len(record)):
        broken = [
            (n, p, q, z)
            for ds, p in held(record, "ds", n).items()
            for (dnskey, signers), q in held(record, "dnskey", n).items()
            for zone, z in held(record, "zone", n).items()
            if not has_chain(ds, dnskey, signers, zone)
        ]
        if broken:
            return min(broken)
    return None


def chain_line(record):
    broken = verdict(record)
    if broken is None:
        return "chain safe"
    return "chain broken at={} ds={} dnskey={} zone={}".format(*broken)
