"""OpenDNSSEC's keys, by `ods-enforcer key list`. Their private halves stay in its PKCS#11 store,
and the public ones are in the DNSKEY set that its zone gives."""

from __future__ import annotations

import re

from ..errors import UNAVAILABLE, Failure
from ..signers import Key
from ..signers.daemon import said
from . import Inventory, SourceKey, SourceOptions, expect

THERE, OUT, NONE, COMES, GOES = "omnipresent", "hidden", "NA", "rumoured", "unretentive"
# A key that the enforcer has only just made has no states yet.
NEW = "(null)"
STATES = {THERE, OUT, COMES, GOES, NEW, NONE}
# What the operator has to say of a DS record that comes or goes.
DS_WAITS = {
    COMES: "'ods-enforcer key ds-seen', once the parent has it; then",
    GOES: "'ods-enforcer key ds-gone', once the parent has it no more; then",
}
# A row of `--debug`: zone, role, the states of DS, DNSKEY and both kinds of signatures, two flags,
# and the number of the key in its store; and one of `--verbose`.
DEBUG = re.compile(r"(?P<zone>\S+)\s+(?P<role>KSK|ZSK|CSK)\s+(?P<ds>\S+)\s+(?P<dnskey>\S+)\s+"
                   r"(?P<keys>\S+)\s+(?P<rest>\S+)\s+[01]\s+[01]\s+(?P<id>[0-9a-f]+)\s*",
                   re.IGNORECASE)
VERBOSE = re.compile(r"(?P<zone>\S+)\s+(?:KSK|ZSK|CSK)\s+.*\s(?P<algorithm>\d+)\s+"
                     r"(?P<id>[0-9a-f]{16,})\s+\S+\s+(?P<tag>\d+)\s*", re.IGNORECASE)
STOPS = (
    "'ods-enforcer stop' first: the enforcer rolls nothing from then on. The signer goes on to"
    " renew signatures meanwhile",
    "the private halves stay in the PKCS#11 store, as the objects {ids}: what signs from now on has"
    " to reach them there. Knot can, by 'keymgr ZONE import-pkcs11'; --signer 'hook COMMAND'"
    " has any other such signer driven",
    "only after the first 'vaqsider act', whose serial has to be higher, and once all servers have"
    " it: 'ods-signer stop'",
)


def inventory(zone: str, options: SourceOptions) -> Inventory:
    """What the enforcer says. The records of its keys are taken from the servers."""
    rows, tags = _rows(zone, options.source), _tags(options.source)
    records = {(it.tag, it.algorithm): it for it in options.records()}
    keys, moving, ids = [], [], []
    for row in rows:
        counts = _states(row)
        if counts == [OUT] * len(counts):
            continue
        at = tags.get(row["id"].lower())
        is_moving = set(counts) != {THERE}
        if is_moving:
            moving.append(_moving(row, counts, at))
        if at in records:
            ids.append(row["id"])
            keys.append(_source_key(row, records[at]))
        elif not is_moving:
            raise Failure(f"the servers give no DNSKEY record of the key {at or row['id']}",
                          UNAVAILABLE)
    return Inventory(keys, moving, [it.format(ids=" ".join(ids)) for it in STOPS])


def _source_key(row: re.Match[str], key: Key) -> SourceKey:
    role = row["role"].upper()
    return SourceKey(key, role != "ZSK", role != "KSK", reference=_uri(row["id"]))


def _uri(number: str) -> str:
    """An object of a PKCS#11 store by its number (RFC 7512)."""
    return "pkcs11:id=" + "".join(f"%{number[at:at + 2]}" for at in range(0, len(number), 2))


def _rows(zone: str, socket: str | None) -> list[re.Match[str]]:
    """The rows of the zone's keys."""
    found = filter(None, map(DEBUG.fullmatch, _list("--debug", socket)))
    name = zone.rstrip(".").lower()
    rows = [it for it in found if it["zone"].rstrip(".").lower() == name]
    expect(bool(rows), f"ods-enforcer key list: no keys of {zone} that are known")
    return rows


def _tags(socket: str | None) -> dict[str, tuple[int, int]]:
    """The tag and the algorithm of each key, by its number in the store."""
    found = filter(None, map(VERBOSE.fullmatch, _list("--verbose", socket)))
    return {it["id"].lower(): (int(it["tag"]), int(it["algorithm"])) for it in found}


def _states(row: re.Match[str]) -> list[str]:
    """The states of a key's records that count."""
    states = [row[it] for it in ("ds", "dnskey", "keys", "rest")]
    expect(set(states) <= STATES, f"ods-enforcer key list: a state that isn't known: {row[0]}")
    return [it for it in states if it != NONE]


def _moving(row: re.Match[str], counts: list[str], at: tuple[int, int] | None) -> str:
    """What is in progress with a key."""
    states = ", ".join("new" if it == NEW else it for it in counts)
    waits = ["wait until 'ods-enforcer key list --debug' says omnipresent"]
    if row["ds"] in DS_WAITS:
        waits.insert(0, DS_WAITS[row["ds"]])
    return f"key {at[0] if at else row['id']} is {states}: {' '.join(waits)}"


def _list(how: str, socket: str | None) -> list[str]:
    """What the enforcer says by its socket, which a setting of its own may have elsewhere."""
    where = ("--socket", socket) if socket else ()
    return said(("ods-enforcer", *where, "key", "list", how)).splitlines()
