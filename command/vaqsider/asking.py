"""Asks name servers, by dnspython. Only an answer with authority counts, to just this question, and
with records of this owner and class."""

from __future__ import annotations

import sys
from concurrent.futures import ThreadPoolExecutor
from dataclasses import dataclass, replace
from typing import Any, Callable, Iterable, TypeVar

from .errors import UNAVAILABLE, Failure

PACKAGES = {"dns": "python3-dnspython", "cryptography": "python3-cryptography"}

# dns.query would load what asks over HTTPS, which takes longer than all else that a word does.
for name in ("httpx", "requests"):
    sys.modules.setdefault(name, None)  # type: ignore[arg-type]  # None: it isn't there

try:
    import cryptography  # noqa: F401 (dns.dnssec checks signatures by it)
    import dns as dns  # (Others have it from here.)
    import dns.dnssec
    import dns.exception
    import dns.flags
    import dns.message
    import dns.name
    import dns.query
    import dns.rcode
    import dns.rdataclass
    import dns.rdatatype
    import dns.resolver
    import dns.serial
    from dns.inet import is_address
except ImportError as error:
    package = PACKAGES.get(str(error.name).partition(".")[0], PACKAGES["dns"])
    text = f"{package} is missing for {sys.executable}: install it to ask servers"
    raise Failure(text, UNAVAILABLE) from None

# The data of a record. dnspython has a class for each type, whose members are those of that type.
Record = Any
Item = TypeVar("Item")
Result = TypeVar("Result")
# How long to wait for one answer, how often to ask, and the largest answer over UDP.
SECONDS, TRIES, PAYLOAD = 2, 2, 1232
# At most so many servers are asked at once.
AT_ONCE = 32
# What a server may do to a question, other than answer it.
FAULTS = (OSError, EOFError, ValueError, dns.exception.DNSException)
# A name has no such records: it isn't a fault of the resolver.
NONE = (dns.resolver.NoAnswer, dns.resolver.NXDOMAIN)


@dataclass(frozen=True, order=True)
class Server:
    """A server with one of its addresses, or with the fault for which there is none."""

    name: str
    address: str
    fault: str = ""

    def __str__(self) -> str:
        return self.name if self.address in ("", self.name) else f"{self.name} ({self.address})"


@dataclass(frozen=True)
class Answer:
    """The set that a server gives, with its highest TTL, or the fault for which it gives none. If
    there are no records, the TTL is that of the answer that says so."""

    fault: str = ""
    records: tuple[Record, ...] = ()
    signatures: tuple[Record, ...] = ()
    ttl: int = 0


def exchange(query: dns.message.Message, address: str, port: int) -> dns.message.Message:
    """The response of a server: over UDP, and over TCP after truncation."""
    return dns.query.udp_with_fallback(
        query, address, timeout=SECONDS, port=port, ignore_unexpected=True, one_rr_per_rrset=True
    )[0]


def respond(server: Server, port: int, zone: str, kind: str) -> dns.message.Message | str:
    """The response of a server to a question that asks for no recursion, or a fault in words."""
    if server.fault:
        return server.fault
    fault = "no answer"
    for _ in range(TRIES):
        query = dns.message.make_query(zone, kind, want_dnssec=True, payload=PAYLOAD)
        query.flags &= ~dns.flags.RD
        try:
            return exchange(query, server.address, port)
        except dns.exception.Timeout:
            fault = "no answer"
        except dns.query.BadResponse:
            fault = "no answer: what came is of another question"
        except (OSError, EOFError) as error:
            fault = f"no answer: {getattr(error, 'strerror', None) or 'over TCP'}"
        except FAULTS:
            fault = "no answer: what came can't be read"
    return fault


def ask(server: Server, port: int, zone: str, kind: str) -> Answer:
    """The set of this type at the top of the zone, as one server gives it."""
    response = respond(server, port, zone, kind)
    if isinstance(response, str):
        return Answer(response)
    if response.rcode() != dns.rcode.NOERROR:
        return Answer(f"no answer: {dns.rcode.to_text(response.rcode())}")
    if not response.flags & dns.flags.AA:
        return Answer("no answer: it has no authority for the zone")
    records = _of(response.answer, zone, kind)
    signed = _of(response.answer, zone, "RRSIG")
    of_kind = dns.rdatatype.from_text(kind)
    signatures = tuple(data for _, data in signed if data.type_covered == of_kind)
    ttls = [ttl for ttl, _ in records]
    if not ttls:
        ttls = [min(it.ttl, it[0].minimum) for it in response.authority
                if it.rdtype == dns.rdatatype.SOA]
    data = tuple(dict.fromkeys(data for _, data in records))
    return Answer("", data, signatures, max(ttls, default=0))


def _of(section: Iterable[dns.rrset.RRset], zone: str, kind: str) -> list[tuple[int, Record]]:
    """The records of this owner, class and type in a section, each with its TTL."""
    name, of_kind = dns.name.from_text(zone), dns.rdatatype.from_text(kind)
    is_in = (name, dns.rdataclass.IN, of_kind)
    return [(it.ttl, it[0]) for it in section if (it.name, it.rdclass, it.rdtype) == is_in]


def side_by_side(function: Callable[[Item], Result], items: Iterable[Item]) -> list[Result]:
    """What a function gives for each of these, asked at the same time."""
    items = list(items)
    if len(items) < 2:
        return list(map(function, items))
    with ThreadPoolExecutor(min(AT_ONCE, len(items))) as pool:
        return list(pool.map(function, items))


# The servers of a zone. They are looked up anew in each round.


def by_name(names: list[str]) -> list[Server]:
    """The servers that the command line names, by an address or by their name."""
    found = ([Server(it, it)] if is_address(it) else addresses_of(it) for it in names)
    return [server for servers in found for server in servers]


def look_up(name: str, kind: str) -> list[Record] | None:
    """What the system's resolver finds, or None if it fails."""
    try:
        return list(dns.resolver.resolve(name, kind, search=False, lifetime=2 * SECONDS))
    except NONE:
        return []
    except FAULTS:
        return None


def addresses_of(name: str) -> list[Server]:
    """Each address of a server."""
    found = {kind: look_up(name, kind) for kind in ("A", "AAAA")}
    servers = [Server(name, it.address) for of in found.values() for it in of or ()]
    failed = [kind for kind, of in found.items() if of is None]
    if failed and servers:
        servers.append(Server(name, "", f"its {failed[0]} records can't be looked up"))
    return servers or [Server(name, "", "no address")]


def with_addresses(names: Iterable[str]) -> list[Server]:
    return sorted({server for of in side_by_side(addresses_of, names) for server in of})


def parent_of(zone: str) -> str:
    """The zone above, or the name above if the resolver doesn't find it."""
    above = dns.name.from_text(zone)
    above = above.parent() if above != dns.name.root else above
    try:
        above = dns.resolver.zone_for_name(above)
    except FAULTS:
        pass
    return above.to_text(omit_final_dot=True)


def of_parent(zone: str, parent: str | None) -> list[Server]:
    """The servers of the parent, as its own NS records name them."""
    found = look_up(parent or parent_of(zone), "NS") or ()
    return with_addresses(set(map(_target, found)))


def of_zone(zone: str, parents: list[Server], port: int) -> list[Server]:
    """The servers of a zone: those that the servers of the parent name, and those that the zone's
    own servers name. If the parent names none, it begins with what the resolver finds, and says
    that the parent's are lacking."""
    def named(servers: Iterable[Server]) -> set[str]:
        found = side_by_side(lambda server: named_by(server, port, zone), sorted(servers))
        return set().union(*found)

    names = named(parents)
    lacking = [] if names or not zone.strip(".") else _naming_none(zone, parents)
    names = names or set(map(_target, look_up(zone, "NS") or ()))
    asked: set[Server]
    found, asked = set(with_addresses(names)), set()
    while new := found - asked:
        asked |= new
        found |= set(with_addresses(named(new) - names))
        names = {server.name for server in found}
    return [*sorted(found), *lacking] if found else []


def _naming_none(zone: str, parents: list[Server]) -> list[Server]:
    """The servers of the parent, none of which names a server of the zone."""
    missing = [Server(f"the parent of {zone}", "", "none of its servers is found")]
    return [replace(it, fault=it.fault or "it names no server of the zone")
            for it in parents] or missing


def named_by(server: Server, port: int, zone: str) -> set[str]:
    """The names in the zone's NS set, of an answer or of a referral."""
    response = respond(server, port, zone, "NS")
    if isinstance(response, str):
        return set()
    records = _of(response.answer, zone, "NS") + _of(response.authority, zone, "NS")
    return {_target(data) for _, data in records}


def _target(data: Record) -> str:
    target: dns.name.Name = data.target
    return target.to_text(omit_final_dot=True)
