"""Servers of tests that are files: SERVER.TYPE has what the server gives of a type, and the file
`signed` what it gives of all. In them a signature `AAAA` stands for a right one, and a digest `00`
for the digest of the key file with this tag. Without such a file there is no answer."""

from __future__ import annotations

import contextlib
from pathlib import Path

import dns.dnssec
import dns.exception
import dns.flags
import dns.message
import dns.name
import dns.rdata
import dns.rdatatype
import dns.resolver
import dns.rrset

from tests.command import testkeys
from vaqsider import asking

# In seconds: the machine may be busy with proofs.
REAL, PATIENCE = (asking.exchange, asking.is_address), 1.2


def exchange(query, address: str, port: int):
    """The response of a server that is files, with one record in each set, as the command reads
    it."""
    question = query.question[0]
    kind = dns.rdatatype.to_text(question.rdtype)
    response = dns.message.make_response(query)
    response.flags |= dns.flags.AA
    records, signatures = [], []
    for owner, ttl, type_, data in lines_of(address, kind):
        (signatures if type_ == "RRSIG" else records).append((owner, int(ttl), data))
    made = [(owner, ttl, record_of(kind, data)) for owner, ttl, data in records]
    of = [record for _, _, record in made]
    made += [(owner, ttl, signature_of(data, of)) for owner, ttl, data in signatures]
    for owner, ttl, record in made:
        name = dns.name.from_text(owner)
        response.answer.append(dns.rrset.from_rdata(name, ttl, record))
    return response


def lines_of(address: str, kind: str):
    """The records of a type and their signatures: owner, TTL, type, data."""
    path = Path(f"{address}.{kind}")
    if not path.is_file():
        path = Path(address)
    if not path.is_file() or path.name != "signed" and path.suffix != f".{kind}":
        raise dns.exception.Timeout
    for line in path.read_text().splitlines():
        owner, ttl, _, type_, data = line.split(None, 4)
        if type_ == kind or type_ == "RRSIG" and data.split()[0] == kind:
            yield owner, ttl, type_, data


def record_of(kind: str, data: str):
    """A record, with the digest of its key file if it has none."""
    tag, digest = data.split()[0], data.split()[-1]
    if kind in ("DS", "CDS") and digest == "00" and tag != "0":
        (path,) = Path().glob(f"K*+{int(tag):05}.key")
        text = next(it for it in path.read_text().splitlines() if not it.startswith(";"))
        owner, _, key = text.partition(" IN DNSKEY ")
        key = dns.rdata.from_text("IN", "DNSKEY", key)
        data = dns.dnssec.make_ds(owner, key, "SHA256").to_text()
    return dns.rdata.from_text("IN", kind, data)


def signature_of(data: str, records):
    """A signature, made now if it stands for a right one."""
    *_, end, begin, tag, zone, signature = data.split()
    if signature != "AAAA" or not records:
        return dns.rdata.from_text("IN", "RRSIG", data)
    return testkeys.sign(zone, records, int(tag), begin, end)


def install() -> None:
    """From now on the command asks these servers only, and no resolver."""
    asking.exchange, asking.is_address = exchange, lambda name: True
    nobody = dns.resolver.Resolver(configure=False)
    nobody.nameservers = []
    dns.resolver.default_resolver = nobody


@contextlib.contextmanager
def network():
    """The command asks over the network, as it does by itself, and soon gives up."""
    before = asking.exchange, asking.is_address, asking.SECONDS
    resolver = dns.resolver.default_resolver
    asking.exchange, asking.is_address, asking.SECONDS = *REAL, PATIENCE
    try:
        yield
    finally:
        asking.exchange, asking.is_address, asking.SECONDS = before
        dns.resolver.default_resolver = resolver
