"""Where there is no chain of trust now, by the sets that servers give: a resolver may have each set
from another server."""

from __future__ import annotations

from collections.abc import Iterable, Iterator

from . import comparing
from .asking import Answer, Record, Server, dns
from .looking import Look


def broken(look: Look) -> Iterator[str]:
    """Where there is no chain of trust: from a DS set to a DNSKEY set, or from that to the zone."""
    sets = {kind: _different(look, kind) for kind in ("ds", "dnskey", "zone", "ns")}
    above = {server: it for server, it in sets["ds"].items() if _usable(look, it)}
    for parent, ds in above.items():
        for server, keys in sets["dnskey"].items():
            if not _is_linked(look, ds, keys):
                yield f"no chain: DS of {parent}, DNSKEY of {server}"
    for server, keys in sets["dnskey"].items() if above else ():
        for kind in ("zone", "ns"):
            for other, answer in sets[kind].items():
                if not _is_signed(look, answer, keys.records):
                    type_ = comparing.TYPES[kind][0]
                    yield f"no chain: DNSKEY of {server}, {type_} of {other}"


def _different(look: Look, kind: str) -> dict[Server, Answer]:
    """The answers of this kind that differ, each with the first server that gives it."""
    found = {(frozenset(answer.records), frozenset(answer.signatures)): (server, answer)
             for (of, _, server), answer in reversed(look.answers.items())
             if of == kind and not answer.fault and (answer.records or kind != "ns")}
    return dict(sorted(found.values(), key=lambda it: it[0]))


def _usable(look: Look, ds: Answer) -> list[Record]:
    """The DS records that a validator can go by: without one the zone counts as unsigned."""
    return [it for it in ds.records if it.digest_type in comparing.DIGESTS]


def _is_linked(look: Look, ds: Answer, keys: Answer) -> bool:
    """Whether a key that the DS set names is in the DNSKEY set, and signs it."""
    named = [key for key in keys.records for it in _usable(look, ds)
             if comparing.ds_of(key, it.digest_type, look.due.zone) == it]
    return _is_signed(look, keys, named)


def _is_signed(look: Look, answer: Answer, keys: Iterable[Record]) -> bool:
    """Whether one of these keys has a valid signature in an answer."""
    return any(
        comparing.fits(look.due.zone, answer.records, signature, key, look.now)
        for signature in answer.signatures for key in keys
        if (signature.key_tag, signature.algorithm) == (dns.dnssec.key_id(key), key.algorithm)
    )
