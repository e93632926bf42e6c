"""PowerDNS's keys, by `pdnsutil show-zone` or its API. Their private halves come out there too,
unless they are to stay: then each is called by its number there."""

from __future__ import annotations

from functools import partial

from ..errors import USAGE, Failure
from ..signers import by_flags
from ..signers.pdns import Pdnsutil, PowerDns
from ..signers.pdns_api import Api
from . import Inventory, SourceKey, SourceOptions, expect

STOPS = (
    "nobody may roll by pdnsutil any more: the script says which keys are published and active",
    "CDS: 'pdnsutil unset-publish-cds {zone}' and 'pdnsutil unset-publish-cdnskey {zone}'; from"
    " then on 'vaqsider act --signer pdns' gives them, with direct-dnskey=yes",
    "if PowerDNS is to sign no more: let it have the signed file of 'vaqsider act' ('pdnsutil"
    " load-zone', then 'pdnsutil set-presigned {zone}'), under a higher serial, before any key"
    " goes",
)


def inventory(zone: str, options: SourceOptions) -> Inventory:
    """What PowerDNS has, by its tool."""
    return _inventory(zone, Pdnsutil(zone.rstrip(".") + ".", options.source), options.stay)


def inventory_by_api(zone: str, options: SourceOptions) -> Inventory:
    """What PowerDNS has, by its API."""
    if options.source is None:
        raise Failure("--source: say the URL of PowerDNS's API", USAGE)
    api = Api(zone.rstrip(".") + ".", options.source, options.store)
    return _inventory(zone, api, options.stay)


def _inventory(zone: str, store: PowerDns, stay: bool) -> Inventory:
    """Its users roll by hand: a key of which only one of both flags is set is in mid-roll."""
    held = store.held()
    expect(bool(held), f"PowerDNS has no keys for {zone}")
    signers, signs = by_flags(it.key for it in held if it.is_active)
    keys, moving = [], []
    for it in held:
        tag = it.key.tag
        if it.is_published and not it.is_active:
            moving.append(f"key {tag} is published and not active: finish or take back that roll, "
                          "by activate-zone-key or unpublish-zone-key")
        if it.is_active and not it.is_published:
            moving.append(f"key {tag} is active and not published: deactivate-zone-key first")
        if it.is_active or it.is_published:
            private = None if stay else partial(store.private, it)
            keys.append(SourceKey(it.key, it.key in signers, it.key in signs, private,
                                  reference=f"pdns:{it.id}"))
    return Inventory(keys, moving, [it.format(zone=zone) for it in STOPS])
