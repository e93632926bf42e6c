"""Name servers on addresses of the loopback, whose sets are signed when they are asked, and how
they can lie."""

from __future__ import annotations

import socket
import struct
import threading
from dataclasses import dataclass, replace

import dns.dnssec
import dns.flags
import dns.message
import dns.name
import dns.rcode
import dns.rdata
import dns.rdataclass
import dns.rdatatype
import dns.rrset

from tests.command import testkeys

KSK, OLD, NEW, OTHER = 64103, 10133, 46350, 46352
NOW = 275
ZONE = "example.com"
# The addresses of the zone's servers, of the parent's, and of the resolver.
FIRST, SECOND, PARENT, RESOLVER, SILENT = (f"127.0.9.{number}" for number in range(1, 6))


@dataclass(frozen=True)
class Set:
    """A set of records as a server gives it, with the tags of those who sign it."""

    records: tuple
    by: tuple = ()
    ttl: int = 60
    begin: int = 0
    end: int = 2592000
    owner: str = ZONE
    rdclass: str = "IN"
    # What was signed, if it isn't this set.
    signed: tuple = ()

    def rrsets(self):
        name, rdclass = dns.name.from_text(self.owner), dns.rdataclass.from_text(self.rdclass)
        data = [dns.rdata.from_text("IN", *it.split(None, 1)) for it in self.records]
        made = [data]
        if self.by:
            of = [dns.rdata.from_text("IN", *it.split(None, 1)) for it in self.signed] or data
            made.append([testkeys.sign(ZONE, of, tag, self.begin, self.end, self.ttl)
                         for tag in self.by])
        for of in filter(None, made):
            rrset = dns.rrset.from_rdata_list(name, self.ttl, of)
            rrset.rdclass = rdclass
            yield rrset


def dnskey(tag: int, flags: int) -> str:
    return f"DNSKEY {testkeys.dnskey(testkeys.NUMBERS[tag], flags).to_text()}"


def ds(tag: int, digest_type: str = "SHA256") -> str:
    key = testkeys.dnskey(testkeys.NUMBERS[tag], 257)
    return f"DS {dns.dnssec.make_ds(dns.name.from_text(ZONE), key, digest_type).to_text()}"


def soa(serial: int) -> str:
    return f"SOA ns.{ZONE}. h.{ZONE}. {serial} 3600 600 86400 60"


# What servers of the zone give, and those of its parent.
KEYS = (dnskey(KSK, 257), dnskey(OLD, 256), dnskey(NEW, 256))
RIGHT = {
    "DNSKEY": Set(KEYS, (KSK,)), "SOA": Set((soa(7),), (NEW,)),
    "NS": Set((f"NS ns1.{ZONE}.", f"NS ns2.{ZONE}."), (NEW,)),
}
# What a server gives that comes back with what it had before the roll.
BEFORE = {
    "DNSKEY": Set(KEYS[:2], (KSK,)), "SOA": Set((soa(5),), (OLD,)),
    "NS": replace(RIGHT["NS"], by=(OLD,)),
}
ABOVE = {"DS": Set((ds(KSK),)), "NS": Set((f"NS ns1.{ZONE}.",))}


class LoopbackServer(threading.Thread):
    """A server on one address, over UDP and TCP."""

    def __init__(self, address: str, port: int):
        super().__init__(daemon=True)
        self.answer = honest({})
        self.udp = socket.socket(socket.AF_INET, socket.SOCK_DGRAM)
        self.tcp = socket.socket()
        self.tcp.setsockopt(socket.SOL_SOCKET, socket.SO_REUSEADDR, 1)
        for it in (self.udp, self.tcp):
            it.bind((address, port))
        self.tcp.listen(8)

    def __enter__(self):
        self.start()
        threading.Thread(target=self.over_tcp, daemon=True).start()
        return self

    def __exit__(self, *_):
        for it in (self.udp, self.tcp):
            it.close()

    def run(self):
        while True:
            try:
                data, sender = self.udp.recvfrom(4096)
            except OSError:
                return
            for wire in self.answer(dns.message.from_wire(data), False):
                self.udp.sendto(wire, sender)

    def over_tcp(self):
        while True:
            try:
                connection, _ = self.tcp.accept()
            except OSError:
                return
            with connection:
                (length,) = struct.unpack("!H", connection.recv(2))
                query = dns.message.from_wire(connection.recv(length))
                for wire in self.answer(query, True):
                    connection.sendall(struct.pack("!H", len(wire)) + wire)


def world(step: str) -> dict:
    """What servers have to give in a step: the zone's and the parent's. Only in the step that waits
    for signatures the new key signs."""
    if step in ("zone", "state"):
        return {**ABOVE, **RIGHT}
    keys = {"ds": KEYS[:2]}.get(step, KEYS)
    by_old = {kind: replace(RIGHT[kind], by=(OLD,)) for kind in ("SOA", "NS")}
    return {**ABOVE, **RIGHT, **by_old, "DNSKEY": Set(keys, (KSK,))}


# What servers give that don't lie.
NOW_RIGHT: dict = {}


def honest(sets=None, extra=None):
    """Answers as a server with authority does: these sets, or those that are right."""

    def answer(query, is_tcp):
        given = NOW_RIGHT if sets is None else sets() if callable(sets) else sets
        response = dns.message.make_response(query)
        response.flags |= dns.flags.AA
        kind = dns.rdatatype.to_text(query.question[0].rdtype)
        if query.flags & dns.flags.RD or not query.ednsflags & dns.flags.DO:
            response.set_rcode(dns.rcode.NOTIMP)
        elif kind in given:
            response.answer += given[kind].rrsets()
        else:
            response.authority += Set((soa(7),)).rrsets()
        if extra:
            extra(response, is_tcp)
        return [response.to_wire()]

    return answer


def changed(**changes):
    """A server's sets with one of them changed: its name, and what is otherwise."""
    ((kind, values),) = changes.items()
    return honest(lambda: {**NOW_RIGHT, kind: replace(NOW_RIGHT[kind], **values)})


def coded(rcode):
    """A server that has no answer."""

    def extra(response, is_tcp):
        response.answer.clear()
        response.set_rcode(rcode)

    return honest(extra=extra)


def no_authority(response, is_tcp):
    response.flags &= ~dns.flags.AA


def other_question(response, is_tcp):
    response.question[0].rdtype = dns.rdatatype.A


def truncated(response, is_tcp):
    if not is_tcp:
        response.flags |= dns.flags.TC
        response.answer.clear()


def in_bytes(change):
    """A server whose answer is changed on the wire."""
    return lambda query, is_tcp: [change(wire) for wire in honest()(query, is_tcp)]


def other_id(wire):
    return bytes([wire[0] ^ 1]) + wire[1:]


def no_tcp(query, is_tcp):
    """Says that it is truncated, and has no more over TCP."""
    return [] if is_tcp else honest(extra=truncated)(query, is_tcp)


def same_tag(record: str) -> str:
    """Another key with the same tag: two words of it change places, and the sum stays."""
    kind, flags, protocol, algorithm, key = record.replace(" ", "|", 4).split("|")
    data = dns.rdata.from_text("IN", kind, f"{flags} {protocol} {algorithm} {key}")
    first, second, rest = data.key[:2], data.key[2:4], data.key[4:]
    return f"{kind} {data.replace(key=second + first + rest).to_text()}"
