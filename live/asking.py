"""Asks a server, or watches what all servers give."""

import asyncio
import time

from dnspython import dns
from processes import SceneFailure

PATIENCE = 40


async def ask(address, port, zone, kind, is_recursive=False):
    """The answer of one server, or None."""
    query = dns.message.make_query(zone, kind, want_dnssec=True, payload=4096)
    if not is_recursive:
        query.flags &= ~dns.flags.RD
    try:
        answer, _ = await dns.asyncquery.udp_with_fallback(query, address, timeout=2, port=port)
    except (dns.exception.DNSException, OSError, EOFError):
        return None
    return answer


def tags_of(answer, kind):
    """The tags of the keys that sign a set in an answer."""
    number = dns.rdatatype.from_text(kind)
    return {
        data.key_tag
        for rrset in answer.answer if rrset.rdtype == dns.rdatatype.RRSIG
        for data in rrset if data.type_covered == number
    }


def data_of(answer, kind):
    """The data of a set in an answer, as a set of texts as `dns.rdata` writes them."""
    number = dns.rdatatype.from_text(kind)
    return {
        data.to_text() for rrset in answer.answer if rrset.rdtype == number for data in rrset
    }


def is_signed_by_ds(answer, kind, keys, ds):
    """Whether a set in an answer has a valid signature by a key of the DNSKEY set in the answer
    `keys` that one of these DS records names."""
    (name,), number = {rrset.name for rrset in answer.answer}, dns.rdatatype.from_text(kind)
    named = [
        key for rrset in keys.answer if rrset.rdtype == dns.rdatatype.DNSKEY
        for key in rrset if dns.dnssec.make_ds(name, key, "SHA256").to_text() in ds
    ]
    found = {
        rrset.rdtype: rrset for rrset in answer.answer if number in (rrset.rdtype, rrset.covers)
    }
    if not named or dns.rdatatype.RRSIG not in found:
        return False
    try:
        dns.dnssec.validate(
            found[number], found[dns.rdatatype.RRSIG],
            {name: dns.rdataset.from_rdata_list(0, named)},
        )
    except dns.dnssec.ValidationFailure:
        return False
    return True


async def watch(servers, port, zone, kind, is_so, what):
    """Asks the servers one by one, until each gives what is expected."""
    until = time.monotonic() + PATIENCE
    for address in servers:
        while True:
            answer = await ask(address, port, zone, kind)
            if answer is not None and is_so(answer):
                break
            if time.monotonic() > until:
                raise SceneFailure(f"{address} doesn't give {what} of {zone}:\n{answer}")
            await asyncio.sleep(0.1)
