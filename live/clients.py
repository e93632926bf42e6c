"""Clients, who ask all resolvers all the time, and judge the answers."""

import asyncio
import itertools
import struct
import time
from collections import Counter
from typing import NamedTuple

import dns.edns
import dns.exception
import dns.flags
import dns.message
import dns.rcode
import dns.rdatatype

from keys import HOSTS
from places import RESOLVERS

# Seconds between two questions to one resolver about one zone, and between tries of one of them.
PACE, RETRY = 0.08, 2
TRIES = 4
ADDRESS = bytes((192, 0, 2, 1))
SETS = ("SOA", "NS", "DNSKEY", "DS", "CDS", "CDNSKEY")
NOERROR, NXDOMAIN = dns.rcode.NOERROR, dns.rcode.NXDOMAIN
AD = 0x20


class Question(NamedTuple):
    name: str
    kind: str
    rcode: int
    has_address: bool


class FalseAnswer(NamedTuple):
    """An answer that a client must not get."""

    moment: float
    resolver: str
    question: Question
    what: str

    def __str__(self):
        clock = time.strftime("%H:%M:%S", time.localtime(self.moment))
        return (
            f"{clock}.{int(self.moment % 1 * 1000):03} {self.resolver} "
            f"{self.question.name} {self.question.kind}: {self.what}"
        )


class Line(asyncio.DatagramProtocol):
    """The unanswered questions of one client to one resolver, by their numbers. Numbers count up:
    by random ones two questions would now and then have the same, and one of them no answer."""

    def __init__(self):
        self.waiting, self.numbers = {}, itertools.count()

    def connection_made(self, transport):
        self.transport = transport

    def datagram_received(self, data, address):
        future = self.waiting.pop(data[:2], None)
        if future and not future.done():
            future.set_result(data)

    def error_received(self, error):
        pass

    async def ask(self, query):
        """The answer to a question, or None if none comes, and how often it was asked again."""
        number = struct.pack("!H", next(self.numbers) & 0xFFFF)
        self.waiting[number] = future = asyncio.get_running_loop().create_future()
        try:
            for again in range(TRIES):
                self.transport.sendto(number + query[2:])
                done, _ = await asyncio.wait([future], timeout=RETRY)
                if done:
                    return future.result(), again
            return None, again
        finally:
            self.waiting.pop(number, None)


class Clients:
    """The clients who ask about one zone. From `secure_from` each answer has to be validated."""

    def __init__(self, zone, dice, port):
        self.zone, self.dice, self.port = zone, dice, port
        self.counts, self.faults = Counter(), []
        self.secure_from, self.tasks, self.lines = float("inf"), [], []
        # The moment up to which a lie may be seen.
        self.mended = float("inf")

    async def begin(self):
        for resolver in RESOLVERS.items():
            await self.begin_to_ask(*resolver)

    async def begin_to_ask(self, resolver, address):
        _, line = await asyncio.get_running_loop().create_datagram_endpoint(
            Line, remote_addr=(address, self.port)
        )
        self.lines.append(line)
        self.tasks.append(asyncio.ensure_future(self.go_on(resolver, line)))

    async def end(self):
        for task in self.tasks:
            task.cancel()
        await asyncio.gather(*self.tasks, return_exceptions=True)
        for line in self.lines:
            line.transport.close()

    async def go_on(self, resolver, line):
        """Asks one resolver, question after question, also while some aren't answered yet."""
        asking = set()
        try:
            while True:
                task = asyncio.ensure_future(self.ask(resolver, line, self.question()))
                asking.add(task)
                task.add_done_callback(asking.discard)
                await asyncio.sleep(PACE * self.dice.uniform(0.5, 1.5))
        finally:
            for task in asking:
                task.cancel()

    def question(self):
        """A question for a known name, for a new one, or for a set of the zone's own name."""
        zone, pick = self.zone, self.dice.random()
        fresh = f"{self.dice.randrange(1 << 40):x}"
        if pick < 0.3:
            return Question(f"h{self.dice.randrange(HOSTS)}.{zone}", "A", NOERROR, True)
        if pick < 0.5:
            return Question(f"{fresh}.w.{zone}", "A", NOERROR, True)
        if pick < 0.65:
            return Question(f"{fresh}.{zone}", "A", NXDOMAIN, False)
        if pick < 0.7:
            return Question(f"h{self.dice.randrange(HOSTS)}.{zone}", "TXT", NOERROR, False)
        return Question(zone, self.dice.choice(SETS), NOERROR, False)

    async def ask(self, resolver, line, question):
        query = dns.message.make_query(
            question.name, question.kind, want_dnssec=True, payload=4096
        )
        asked = time.time()
        answer, again = await line.ask(query.to_wire())
        self.counts["again"] += again
        self.count(resolver, question, asked, answer)

    def count(self, resolver, question, asked, answer):
        """Counts an answer, and keeps it if it is a fault."""
        self.counts["asked"] += 1
        if answer is None:
            return self.fault(resolver, question, asked, "no answer")
        _, flags = struct.unpack_from("!HH", answer)
        rcode = flags & 0xF
        if rcode != question.rcode:
            return self.fault(resolver, question, asked, status_of(answer))
        if question.has_address and ADDRESS not in answer:
            return self.fault(resolver, question, asked, "another address")
        if flags & AD:
            self.counts["AD"] += 1
        elif asked >= self.secure_from:
            self.fault(resolver, question, asked, f"not checked: {records(answer)}")

    def fault(self, resolver, question, asked, what):
        self.counts[what.split(" ")[0]] += 1
        self.faults.append(FalseAnswer(asked, resolver, question, what))


def records(answer):
    """The records of an answer, in short."""
    message = dns.message.from_wire(answer)
    return "; ".join(
        f"{dns.rdatatype.to_text(rrset.rdtype)} {rrset.ttl}"
        for section in (message.answer, message.authority) for rrset in section
    )


def status_of(answer):
    """The status of an answer, with its extended errors."""
    try:
        message = dns.message.from_wire(answer)
    except dns.exception.DNSException as error:
        return f"malformed: {error}"
    extended = [
        option.to_text() for option in message.options if option.otype == dns.edns.OptionType.EDE
    ]
    return " ".join([dns.rcode.to_text(message.rcode()), *extended])
