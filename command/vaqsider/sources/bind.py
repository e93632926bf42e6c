"""BIND's keys: `K*.key` and `K*.private` in its key-directory, and `K*.state` if it signs by a
dnssec-policy. A state is hidden, rumoured, omnipresent or unretentive."""

from __future__ import annotations

import time
from pathlib import Path

from ..errors import UNAVAILABLE, Failure
from ..keyfiles import KeyFile, read
from ..signers import Key
from ..signers.daemon import said
from ..signers.inline import InlineKey
from . import Inventory, SourceKey, SourceOptions, expect, fields_of, read_text

STATES = {"DNSKEYState": "its DNSKEY record", "KRRSIGState": "its signature of the DNSKEY set",
          "ZRRSIGState": "its signatures of the zone", "DSState": "its DS record"}
HIDDEN, THERE = "hidden", "omnipresent"
UNTIL = {
    "DSState": "'rndc dnssec -checkds' tells named that the parent has it, or has it no more",
}
STOPS = (
    "named may roll nothing from now on: take dnssec-policy (or auto-dnssec) and inline-signing out"
    " of the zone of {zone}, and let its file be the signed one that 'vaqsider act' writes",
    "keep the keys' .private files where they are: 'vaqsider act --keys {folder}' signs by them",
    "put named's last serial, of 'rndc zonestatus {zone}', into the unsigned zone, if 'act' writes"
    " another file than named's signed one",
    "only after the first 'vaqsider act': 'rndc reconfig', then 'rndc reload {zone}'. Until then"
    " named gives what it has signed. If you stay with named as signer, see --signer bind-inline",
    "move the .state files away, so that no dnssec-policy goes on from them",
)


def inventory(zone: str, options: SourceOptions) -> Inventory:
    """What named's folder says."""
    folder = Path(options.source or ".")
    expect(folder.is_dir(), f"{folder}: it is no folder: name named's key-directory by --source")
    files = [read(path) for path in sorted(folder.glob("K*.key"))]
    files = [it for it in files if it.owner.rstrip(".").lower() == zone.rstrip(".").lower()]
    expect(bool(files), f"{folder}: no key files of {zone}")
    keys, moving = [], []
    for file in files:
        state = file.path.with_suffix(".state")
        key, said_of_it = (_by_state if state.is_file() else _by_times)(file, state)
        keys += [key] if key else []
        moving += said_of_it
    stops = [it.format(zone=zone, folder=folder) for it in STOPS]
    return Inventory(keys, moving, stops)


def _by_state(file: KeyFile, path: Path) -> tuple[SourceKey | None, list[str]]:
    """A key as a dnssec-policy has it."""
    fields = fields_of(read_text(path))
    is_ksk, is_zsk = (fields.get(it) == "yes" for it in ("KSK", "ZSK"))
    of_kind = {"DNSKEYState": True, "KRRSIGState": is_ksk, "ZRRSIGState": is_zsk, "DSState": is_ksk}
    states = {name: fields.get(name, "") for name, counts in of_kind.items() if counts}
    odd = {it for it in states.values() if it not in (HIDDEN, THERE, "rumoured", "unretentive")}
    if odd or not (is_ksk or is_zsk):
        raise Failure(f"{path}: a state file that isn't known", UNAVAILABLE)
    goal = fields.get("GoalState", THERE)
    if goal == HIDDEN and set(states.values()) == {HIDDEN}:
        return None, []
    moving = [f"{file.path.name}: {STATES[name]} is {state}, and is to be {goal}: wait until "
              f"{UNTIL.get(name, 'rndc dnssec -status says so')}"
              for name, state in states.items() if state != goal]
    if goal == HIDDEN and not moving:
        moving = [f"{file.path.name} is about to leave: wait until its roll is over"]
    return _source_key(file, is_ksk, is_zsk), moving


def _by_times(file: KeyFile, _: Path) -> tuple[SourceKey | None, list[str]]:
    """A key without a state: by its times."""
    words = ("dnssec-settime", "-u", "-p", "all", str(file.path.resolve()))
    held = InlineKey(file, said(words), now := time.time())
    if not (held.is_published or held.is_active):
        coming = min((at for name, at in held.times.items()
                      if at > now and name in ("Publish", "Activate")), default=None)
        comes = [f"{file.path.name} comes in at {coming}: take that time out by dnssec-settime"]
        return None, comes if coming else []
    moving = []
    if held.is_published != held.is_active:
        moving.append(f"{file.path.name} is published and doesn't sign, or the other way round: "
                      "wait until its roll is over, or take it out")
    ahead = [name for name in ("Inactive", "Delete", "Revoke") if held.times.get(name, 0) > now]
    if ahead:
        moving.append(f"{file.path.name} is to leave ({', '.join(ahead)}): take these times out by "
                      "dnssec-settime, or wait until it has left")
    return _source_key(file, file.is_sep, not file.is_sep), moving


def _source_key(file: KeyFile, is_ksk: bool, is_zsk: bool) -> SourceKey:
    return SourceKey(Key.of(file.data, file.path.name, file), is_ksk, is_zsk, None, file.path)
