"""The keys of the tests: of algorithm 13, each with a private half that is a small number. So sets
can be signed in a test, and no private key is kept."""

from __future__ import annotations

from functools import lru_cache

import dns.dnssec
import dns.name
import dns.rdata
import dns.rrset
from cryptography.hazmat.primitives.asymmetric import ec

ECDSAP256SHA256 = 13
# The numbers of the stored key files, by tag: tests/command/files. That of 46352 is a KSK.
NUMBERS = {64103: 42116, 10133: 40693, 46350: 96527, 46352: 37156}


@lru_cache(maxsize=None)
def private(number: int):
    return ec.derive_private_key(number, ec.SECP256R1())


def dnskey(number: int, flags: int):
    """The DNSKEY record of a key."""
    return dns.dnssec.make_dnskey(private(number).public_key(), ECDSAP256SHA256, flags)


def add(number: int, flags: int) -> tuple[int, str]:
    """A new key, which can sign from now on: its tag, and the data of its record."""
    record = dnskey(number, flags)
    tag = dns.dnssec.key_id(record)
    NUMBERS[tag] = number
    return tag, record.to_text()


def sign(zone: str, records, tag: int, begin: int, end: int, ttl: int = 60):
    """A signature of these records by the key of this tag."""
    name = dns.name.from_text(zone)
    flags = 257 if tag in (64103, 46352) else 256
    of = dnskey(NUMBERS[tag], flags)
    if dns.dnssec.key_id(of) != tag:
        of = dnskey(NUMBERS[tag], 513 - flags)
    rrset = dns.rrset.from_rdata_list(name, ttl, records)
    return dns.dnssec.sign(rrset, private(NUMBERS[tag]), name, of, begin, end)
