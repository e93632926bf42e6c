"""Name servers that lie, on addresses of the loopback, and what the command says of each. A server
answers from sets that are signed when it is asked; a lie changes a set, a signature, or the answer.
"""

from __future__ import annotations

import json
import socket
from contextlib import ExitStack
from dataclasses import dataclass, replace
from pathlib import Path

import dns.flags
import dns.message
import dns.rcode
import dns.rdatatype
import dns.resolver

from tests.command import answering
from tests.command.loopback import (
    ABOVE, BEFORE, FIRST, KEYS, KSK, NEW, NOW, NOW_RIGHT, OLD, OTHER, PARENT, RESOLVER, RIGHT,
    SECOND, SILENT, ZONE, LoopbackServer, Set, changed, coded, dnskey, ds, honest, in_bytes,
    no_authority, no_tcp, other_id, other_question, same_tag, soa, truncated, world,
)
from tests.command.terminal import folder, typed


@dataclass(frozen=True)
class Lie:
    """A lie, in the step that waits for a kind of sets, and what the command has to say of it; and
    how the same servers' state ends: 3 if a resolver may find no chain."""

    name: str
    step: str
    answer: object
    says: tuple = ()
    state: int = None


NOT_GIVEN = ("DNSKEY none, not 10133,46350,64103", "no signature by 64103")
ANOTHER = "no answer: what came is of another question"
WRONG_DS = ds(KSK)[:-4] + "0000"
ROWS = (
    Lie("honest", "dnskey", honest()),
    Lie("honest", "zone", honest()),
    Lie("honest", "ds", honest()),
    Lie("over TCP", "dnskey", honest(extra=truncated)),
    Lie("other id", "dnskey", in_bytes(other_id), (ANOTHER,)),
    Lie("other question", "dnskey", honest(extra=other_question), (ANOTHER,)),
    Lie("seven bytes", "dnskey", in_bytes(lambda wire: wire[:7]),
        ("no answer: what came can't be read",)),
    Lie("cut off", "dnskey", in_bytes(lambda wire: wire[:90]),
        ("no answer: what came can't be read",)),
    Lie("other owner", "dnskey", changed(DNSKEY={"owner": f"a.{ZONE}"}), NOT_GIVEN, 3),
    Lie("other class", "dnskey", changed(DNSKEY={"rdclass": "CH"}), NOT_GIVEN, 3),
    Lie("no authority", "dnskey", honest(extra=no_authority),
        ("no answer: it has no authority for the zone",)),
    Lie("SERVFAIL", "dnskey", coded(dns.rcode.SERVFAIL), ("no answer: SERVFAIL",)),
    Lie("REFUSED", "dnskey", coded(dns.rcode.REFUSED), ("no answer: REFUSED",)),
    Lie("NXDOMAIN", "dnskey", coded(dns.rcode.NXDOMAIN), ("no answer: NXDOMAIN",)),
    Lie("silent", "dnskey", lambda query, is_tcp: [], ("no answer",)),
    Lie("no TCP", "dnskey", no_tcp, ("no answer: over TCP",)),
    Lie("one key less", "dnskey", changed(DNSKEY={"records": KEYS[:2]}),
        ("DNSKEY 10133,64103, not 10133,46350,64103",), 3),
    Lie("a key more", "dnskey", changed(DNSKEY={"records": (*KEYS, dnskey(OTHER, 257))}),
        ("DNSKEY 10133,46350,46352,64103, not 10133,46350,64103",)),
    Lie("a key of the same tag", "dnskey",
        changed(DNSKEY={"records": (*KEYS[:2], same_tag(KEYS[2]))}),
        ("DNSKEY 46350 isn't that of Kexample.com.+013+46350.key",), 3),
    Lie("both of the same tag", "dnskey", changed(DNSKEY={"records": (*KEYS, same_tag(KEYS[2]))}),
        ("DNSKEY 10133,46350,46350,64103, not 10133,46350,64103",)),
    Lie("other algorithm and tag", "dnskey",
        changed(DNSKEY={"records": (*KEYS[:2], KEYS[2].replace(" 13 ", " 14 "))}),
        ("DNSKEY 10133,46351,64103, not 10133,46350,64103",), 3),
    Lie("other flags and algorithm", "dnskey",
        changed(DNSKEY={"records": (*KEYS[:2], KEYS[2].replace("256 3 13", "257 3 12"))}),
        ("DNSKEY 46350 isn't that of Kexample.com.+013+46350.key",), 3),
    Lie("expired", "dnskey", changed(DNSKEY={"end": 274}),
        ("the signature of DNSKEY by 64103 has expired at 274",), 3),
    Lie("not yet valid", "dnskey", changed(DNSKEY={"begin": 276}),
        ("the signature of DNSKEY by 64103 isn't valid before 276",), 3),
    Lie("valid for just now", "dnskey", changed(DNSKEY={"begin": 275, "end": 275})),
    Lie("by another key", "dnskey", changed(DNSKEY={"by": (OLD,)}), ("no signature by 64103",), 3),
    Lie("of another set", "dnskey", changed(DNSKEY={"signed": KEYS[:2]}),
        ("the signature of DNSKEY by 64103 is false",), 3),
    Lie("by the old key", "zone", changed(SOA={"by": (OLD,)}), ("signed by 10133, not 46350",)),
    Lie("by both", "zone", changed(SOA={"by": (OLD, NEW)}),
        ("signed by 10133,46350, not 46350",)),
    Lie("not signed", "zone", changed(SOA={"by": ()}), ("signed by none, not 46350",), 3),
    Lie("expired", "zone", changed(SOA={"end": 274}),
        ("the signature of SOA by 46350 has expired at 274",), 3),
    Lie("of another serial", "zone", changed(SOA={"signed": (soa(6),)}),
        ("the signature of SOA by 46350 is false",), 3),
    Lie("SHA-384", "ds", changed(DS={"records": (ds(KSK, "SHA384"),)})),
    Lie("both digests", "ds", changed(DS={"records": (ds(KSK), ds(KSK, "SHA384"))})),
    Lie("no DS", "ds", honest({}), ("DS none, not 64103",)),
    Lie("wrong digest", "ds", changed(DS={"records": (WRONG_DS,)}),
        ("DS 64103 13 2 isn't that of Kexample.com.+013+64103.key: another digest",), 3),
    Lie("a wrong digest more", "ds", changed(DS={"records": (ds(KSK), WRONG_DS)}),
        ("DS 64103 13 2 isn't that of Kexample.com.+013+64103.key: another digest",)),
    Lie("wrong algorithm", "ds", changed(DS={"records": (ds(KSK).replace(" 13 ", " 8 "),)}),
        ("DS 64103 8 2 isn't that of Kexample.com.+013+64103.key: its algorithm isn't 13",), 3),
    Lie("unknown digest type", "ds", changed(DS={"records": (f"DS 64103 13 3 {'00' * 32}",)}),
        ("DS 64103 13 3 isn't that of Kexample.com.+013+64103.key: "
         "its digest type isn't known",)),
    Lie("another DS", "ds", changed(DS={"records": (ds(OTHER),)}), ("DS 46352, not 64103",), 3),
    Lie("a DS more", "ds", changed(DS={"records": (ds(KSK), ds(OTHER))}),
        ("DS 46352,64103, not 64103",)),
    Lie("no authority", "ds", honest(extra=no_authority),
        ("no answer: it has no authority for the zone",)),
)
ROWS += (
    Lie("an old serial", "state", changed(SOA={"records": (soa(6),)}),
        ("serial 6, and another server has 7",)),
    Lie("a serial before 0", "state", changed(SOA={"records": (soa(2**32 - 1),)}),
        ("serial 4294967295, and another server has 7",)),
    Lie("back with old sets", "state", honest(BEFORE), (
        "DNSKEY 10133,64103, not 10133,46350,64103", "signed by 10133, not 46350",
        "NS signed by 10133, not 46350", "serial 5, and another server has 7"), 3),
    Lie("NS has expired", "state", changed(NS={"end": 274}),
        ("the signature of NS by 46350 has expired at 274",), 3),
    Lie("CDS is in", "state", honest({**RIGHT, "CDS": Set((f"C{ds(KSK)}",), (KSK, NEW))}),
        ("gives CDS still",)),
    Lie("the zone has expired", "beside", changed(SOA={"end": 274}),
        ("the signature of SOA by 10133 has expired at 274",), 3),
    Lie("the zone by both", "beside", changed(SOA={"by": (OLD, NEW)}),
        ("signed by 10133,46350, not 10133",)),
    Lie("wrong digest", "above", changed(DS={"records": (WRONG_DS,)}),
        ("DS 64103 13 2 isn't that of Kexample.com.+013+64103.key: another digest",), 3),
    Lie("all is empty", "state", honest({}), (
        "DNSKEY none, not 10133,46350,64103", "no signature by 64103",
        "signed by none, not 46350", "no SOA record", "NS signed by none, not 46350",
        "no NS record"), 3),
)
# Steps in which a set is wrong that nothing waits for: of the zone, or of its parent.
BESIDE = ("beside", "above")
REPORT = {"dnskey": "report1 zsk-roll", "zone": "report2 zsk-roll", "ds": "report2 algorithm-roll"}


def scripts() -> None:
    """A script for each step: it waits for the DNSKEY set, for signatures, for the DS set."""
    start = Path("start.script").read_text()
    Path("dnskey.script").write_text(start)
    Path("zone.script").write_text(f"{start}report1 zsk-roll 60 210\nwait1 zsk-roll 270\n")
    Path("ds.script").write_text("".join(start.splitlines(True)[:6]))


def of_rows(servers, port: int):
    """What the command says of each row, otherwise than it has to."""
    asked = ["--server", FIRST, "--server", SECOND, "--parent-server", PARENT, "--port", port]
    for row in ROWS:
        for server in servers.values():
            server.answer = honest()
        liar = PARENT if row.step in ("ds", "above") else SECOND
        servers[liar].answer = row.answer
        if row.step not in BESIDE:
            yield from of_state(row, liar, asked)
        if row.step != "state":
            yield from of_watch(row, liar, asked)


def of_watch(row: Lie, liar: str, asked: list):
    """What `watch` says otherwise than it has to: of the kind that is awaited, or of others."""
    step, is_beside = ("dnskey", True) if row.step in BESIDE else (row.step, False)
    NOW_RIGHT.update(world(step))
    text, status = typed(["watch", f"{step}.script", *asked, "--json"], NOW)
    output = json.loads(text) if text.startswith("{") else {"lacking": [], "beside": [], "next": []}
    found = [(it["server"], it["text"]) for it in output["beside" if is_beside else "lacking"]]
    is_due = [it.startswith(REPORT[step]) for it in output["next"]]
    wanted = sorted((liar, it) for it in row.says)
    is_right = found == wanted and is_due == [True] * (is_beside or not wanted)
    if not is_right or bool(status) != bool(wanted) or is_beside and status != (row.state or 1):
        yield f"liars: {row.step}, {row.name}: {status}: {text}"


def of_state(row: Lie, liar: str, asked: list):
    """The state of these servers, otherwise than it has to be."""
    NOW_RIGHT.update(world("state"))
    text, status = typed(["watch", "zone.script", "--state", *asked, "--json"], NOW)
    output = json.loads(text) if text.startswith("{") else {"lacking": [], "rows": []}
    found = {(it["server"], it["text"]) for it in output["lacking"]}
    wanted = int(bool(row.says)) if row.state is None else row.state
    servers = [it["server"] for it in output["rows"]]
    if (found, status) != ({(liar, it) for it in row.says}, wanted) or servers != asked[1:6:2]:
        yield f"liars: state, {row.step}, {row.name}: {status}: {text}"


# What the system's resolver finds, and with which code it answers else.
ADDRESSES = {
    ("com.", "SOA"): ("SOA a.up. h.up. 1 1 1 1 1",), ("com.", "NS"): ("NS a.up.",),
    ("a.up.", "A"): (f"A {PARENT}",), (f"ns1.{ZONE}.", "A"): (f"A {FIRST}",),
    (f"ns2.{ZONE}.", "A"): (f"A {SECOND}",),
}
WELL = (f"ns1.{ZONE} ({FIRST})", f"ns2.{ZONE} ({SECOND})")


def resolver(table, rcode=dns.rcode.NOERROR):
    """A resolver that finds what is in a table. Of other names and types it knows that there are no
    such records, unless it says otherwise."""

    def answer(query, is_tcp):
        response = dns.message.make_response(query)
        response.flags |= dns.flags.RA
        question = query.question[0]
        name, kind = question.name.to_text(), dns.rdatatype.to_text(question.rdtype)
        records = table.get((name, kind), ())
        if records:
            response.answer += Set(records, owner=name).rrsets()
        elif records is None:
            response.set_rcode(dns.rcode.SERVFAIL)
        elif name not in (name for name, _ in table):
            response.set_rcode(rcode)
        return [response.to_wire()]

    return answer


@dataclass(frozen=True)
class Lookup:
    """How servers are found: what the resolver says, what the parent's NS set and the zone's own
    have, and what lacks; if nothing does, who was asked. The parent may answer in another way."""

    name: str
    resolver: object = resolver(ADDRESSES)
    above: tuple = ("NS ns1.example.com.",)
    own: tuple = ("NS ns1.example.com.", "NS ns2.example.com.")
    says: tuple = ()
    asked: tuple = WELL
    more: tuple = ()
    parent: object = None


KNOWN = {**ADDRESSES, (f"{ZONE}.", "NS"): (f"NS ns1.{ZONE}.",)}
NAMES_NONE = ((f"a.up ({PARENT})", "it names no server of the zone"),)
LOST = {key: of for key, of in ADDRESSES.items() if key[0] != f"ns2.{ZONE}."}
FOUND = (
    Lookup("the zone names one more"),
    Lookup("the parent names one more", above=RIGHT["NS"].records, own=("NS ns1.example.com.",)),
    Lookup("the resolver refuses an address", resolver(LOST, dns.rcode.REFUSED),
           says=((f"ns2.{ZONE}", "no address"),)),
    Lookup("the resolver fails at an address", resolver(LOST, dns.rcode.SERVFAIL),
           says=((f"ns2.{ZONE}", "no address"),)),
    Lookup("a name isn't there", resolver(LOST, dns.rcode.NXDOMAIN),
           says=((f"ns2.{ZONE}", "no address"),)),
    Lookup("a second address is silent",
           resolver({**ADDRESSES, (f"ns2.{ZONE}.", "A"): (f"A {SECOND}", f"A {SILENT}")}),
           says=((f"ns2.{ZONE} ({SILENT})", "no answer"),)),
    Lookup("a server that is named", more=("--server", f"ns2.{ZONE}"), asked=WELL[1:]),
    Lookup("the parent that is named", resolver({key: of for key, of in ADDRESSES.items()
                                                if key != ("com.", "SOA")}),
           more=("--parent", "com")),
    Lookup("only the other kind of address fails",
           resolver({**ADDRESSES, (f"ns2.{ZONE}.", "AAAA"): None}),
           says=((f"ns2.{ZONE}", "its AAAA records can't be looked up"),)),
    Lookup("the parent is silent", resolver(KNOWN), says=NAMES_NONE,
           parent=lambda query, is_tcp: []),
    Lookup("the parent refuses", resolver(KNOWN), parent=coded(dns.rcode.REFUSED), says=NAMES_NONE),
    Lookup("the parent has no NS record", resolver(KNOWN), above=(), says=NAMES_NONE),
    Lookup("the parent isn't found",
           resolver({key: of for key, of in KNOWN.items() if key != ("com.", "NS")}),
           says=((f"the parent of {ZONE}", "none of its servers is found"),)),
)


def of_found(servers, port: int):
    """Whom the command asks if no server is named to it, otherwise than it has to."""
    nearest = dns.resolver.Resolver(configure=False)
    nearest.nameservers, nearest.port = [RESOLVER], port
    dns.resolver.default_resolver = nearest
    for row in FOUND:
        own = {**world("dnskey"), "NS": Set(row.own, (OLD,))}
        servers[FIRST].answer = servers[SECOND].answer = honest(own)
        above = {"DS": ABOVE["DS"], **({"NS": Set(row.above)} if row.above else {})}
        servers[PARENT].answer = row.parent or honest(above, as_referral)
        servers[RESOLVER].answer = row.resolver
        text, _ = typed(["watch", "dnskey.script", "--port", port, *row.more, "--json"], NOW)
        output = json.loads(text)
        found = tuple((it["server"], it["text"]) for it in output["lacking"])
        if found != row.says or not row.says and output["asked"]["servers"] != list(row.asked):
            yield f"liars: {row.name}: {text}"


def as_referral(response, is_tcp):
    """The parent has no authority for the zone's NS set."""
    if response.question[0].rdtype == dns.rdatatype.NS:
        response.flags &= ~dns.flags.AA
        response.authority, response.answer = response.answer, []


def of_meanwhile(servers, port: int):
    """If a line is written while the servers are asked, no call is made by their answers."""
    lines, right = Path("dnskey.script").read_text(), honest()
    Path("meanwhile.script").write_text(lines)

    def answer(query, is_tcp):
        Path("meanwhile.script").write_text(f"{lines}abort zsk-roll\n{lines.splitlines()[-1]}\n")
        return right(query, is_tcp)

    servers[FIRST].answer, servers[SECOND].answer = answer, right
    NOW_RIGHT.update(world("dnskey"))
    asked = ["--server", FIRST, "--server", SECOND, "--parent-server", PARENT, "--port", port]
    said, status = typed(["watch", "meanwhile.script", *asked, "--ttl", 60, "--call"], NOW)
    if status != 75 or "report1 zsk-roll" in Path("meanwhile.script").read_text():
        yield f"liars: a line that was written meanwhile: {status}: {said}"
    yield from of_notes_meanwhile(servers, asked)


def of_notes_meanwhile(servers, asked):
    """Nor is anything noted of the parent's TTL, if something is noted meanwhile."""
    notes = "before 60 60 60\npublished ds 5 60 71\n"
    Path("dnskey.notes").write_text(notes)
    above = honest({**ABOVE, "DS": replace(ABOVE["DS"], ttl=600)})

    def answer(query, is_tcp):
        Path("dnskey.notes").write_text(f"{notes}published ds 5 70 {NOW + 5}\n")
        return above(query, is_tcp)

    servers[FIRST].answer, servers[PARENT].answer = honest(), answer
    said, status = typed(["watch", "dnskey.script", "--state", *asked], NOW)
    if status != 75 or " 600 " in Path("dnskey.notes").read_text():
        yield f"liars: a line that was noted meanwhile: {status}: {said}"
    Path("dnskey.notes").unlink()


def negative(response, is_tcp):
    """That there is no such set, for 90 seconds; beside it something that lasts longer."""
    response.authority = [*Set(("SOA ns. h. 1 1 1 1 700",), ttl=90).rrsets(),
                          *Set(("NSEC a.example.com. NS",), ttl=3600).rrsets()]


def two_ttls(response, is_tcp):
    """One record of the set has a higher TTL; and a signature of another set is there too."""
    response.answer = [*Set(KEYS[:1], (KSK,), ttl=300).rrsets(), *Set(KEYS[1:], ttl=60).rrsets(),
                       list(RIGHT["SOA"].rrsets())[1]]


def only_the_second():
    """A server that answers only the second question."""
    asked = []
    return lambda query, is_tcp: honest()(query, is_tcp) if asked else asked.append(1) or []


def of_answers(servers, port: int):
    """What is read of answers: TTLs, signatures, and a question that was lost."""
    from vaqsider import asking

    NOW_RIGHT.update(world("zone"))
    rows = ((honest({}, negative), "DS", lambda it: (it.ttl, it.records), (90, ())),
            (honest(extra=two_ttls), "DNSKEY", lambda it: (it.ttl, len(it.signatures)), (300, 1)),
            (only_the_second(), "SOA", lambda it: it.fault, ""))
    for answer, kind, part, wanted in rows:
        servers[FIRST].answer = answer
        given = part(asking.ask(asking.Server(FIRST, FIRST), port, ZONE, kind))
        if given != wanted:
            yield f"liars: of an answer for {kind} is read {given}, not {wanted}"


def twice_signed(response, is_tcp):
    """A second signature of the SOA record, which ends sooner."""
    if response.question[0].rdtype == dns.rdatatype.SOA:
        response.answer.append(list(replace(RIGHT["SOA"], end=900).rrsets())[1])


def of_ends(servers, port: int):
    """A look keeps when the first signature expires; of two by one key the later one counts."""
    asked = ["--server", FIRST, "--server", SECOND, "--parent-server", PARENT, "--port", port]
    NOW_RIGHT.update(world("state"))
    for answer, wanted in ((changed(SOA={"end": 900}), 900), (honest(extra=twice_signed), 2592000)):
        for server in servers.values():
            server.answer = honest()
        servers[SECOND].answer = answer
        said, status = typed(["watch", "zone.script", "--state", *asked], NOW)
        kept = json.loads(Path("zone.look").read_text())["until"]
        if (status, kept) != (0, wanted):
            yield f"liars: signatures end at {kept}, not {wanted}: {status}: {said}"


def free_port() -> int:
    """A port that is free on all these addresses, as far as one can know."""
    with socket.socket() as one:
        one.bind((FIRST, 0))
        return one.getsockname()[1]


def faults():
    """What the command says otherwise than it has to of servers that lie."""
    with folder(), answering.network(), ExitStack() as stack:
        scripts()
        port = free_port()
        servers = {address: stack.enter_context(LoopbackServer(address, port))
                   for address in (FIRST, SECOND, PARENT, RESOLVER)}
        checks = of_rows, of_answers, of_ends, of_meanwhile, of_found
        return [fault for check in checks for fault in check(servers, port)]
