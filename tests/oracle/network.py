"""The network of an operator of the game: the definitions of `crates/dnssec_network/specs`, written
again for its servers. Times are instants, as the operator's fastest clock shows them."""

from dataclasses import dataclass
from math import inf

from judge import SPEAKS_OF, base, origin
from tests.oracle.notes import due
from tests.oracle.zone import SECOND

KINDS = ("ds", "dnskey", "zone")


def names(keys):
    return frozenset(name for name, _ in keys)


@dataclass
class Version:
    """A version of a kind of sets: the position whose sets it has, the highest TTL, the last whole
    second in which its signatures are valid, and from when to when each server gave it."""

    position: int
    ttl: int
    expiration: float
    spans: list  # of pairs: the first instant, and the first one after

    def last(self):
        """The last instant at which a server gave it."""
        return max((end - 1 for _, end in self.spans), default=-inf)

    def is_held(self, time):
        """Whether some cache may hold it."""
        sinces = (min(end - 1, time) for begin, end in self.spans if begin <= time)
        return any(time < since + (self.ttl + 1) * SECOND for since in sinces)


@dataclass
class PastReport:
    """A report that was made by now, with the position of its step. For each kind that it speaks
    of, the position at which the sets came that its step left."""

    at: int
    moment: int
    ttl: int
    base: int
    came: dict

    def over(self):
        """The instant at which its TTL is over."""
        return (self.moment + self.ttl) * SECOND


class Network:
    """The servers of an operator, with its record. It begins at a start, for one that joins when
    its servers are asked; then nothing older than the position `first` may be held. It ends when
    they are asked no more, or when the zone begins to go unsigned."""

    def __init__(self, operator):
        self.operator, self.world = operator, operator.world
        self.record, self.zone = operator.keyset.record, operator.zone
        self.ahead = max(operator.ahead)
        self.made_at = [0, *(time + self.ahead for time in operator.made_at[1:])]
        # The keys of the operator that had a DS once.
        self.own = frozenset(name for position in self.record for name, _ in position.ds)
        self.servers = {"ds": self.world.parent, "dnskey": self.zone, "zone": self.zone}
        self.versions = {kind: self.numbered(kind) for kind in KINDS}
        ends = (operator.unsigned_from, self.zone.asked_to)
        self.end = min((end + self.ahead for end in ends if end is not None), default=inf)
        joined = self.zone.times[0] < self.zone.asked_from
        self.start = self.zone.asked_from + self.ahead if joined else 0
        self.first = min(self.shown(kind, self.start) for kind in KINDS) if joined else 0
        self.ever_reported = [*self.all_reports()]
        zone = frozenset().union(*(position.zone for position in self.record))
        # The zone keys of the DNSKEY set of each position, by their names.
        self.zone_keys = [names(position.dnskey & zone) for position in self.record]

    def sets(self, kind, number):
        """The sets of a kind in a version of the servers: those of CDS count as the zone's."""
        version = self.servers[kind].versions[number]
        return [version[each] for each in ((kind, "cds") if kind == "zone" else (kind,))
                if version[each]]

    def value(self, kind, number):
        """What the record would have of it: of a DS set, the keys of this operator."""
        value = self.sets(kind, number)[0].value
        return value & self.own if kind == "ds" else value

    def numbered(self, kind):
        """The versions of a kind, with numbers that rise only if its sets change."""
        servers, versions, number_of = self.servers[kind], [], []
        for number in range(len(servers.versions)):
            if not number or self.sets(kind, number) != self.sets(kind, number - 1):
                versions.append(self.version(kind, number, versions))
            number_of.append(len(versions) - 1)
        for history in servers.history:
            ends = [time for time, _ in history[1:]] + [inf]
            for (begin, number), end in zip(history, ends):
                self.gives(servers, versions[number_of[number]], begin, end)
        return versions

    def gives(self, servers, version, begin, end):
        """A server gave it for a while, and may have been asked in a part of that."""
        begin = max(begin, servers.asked_from)
        end = min(end, inf if servers.asked_to is None else servers.asked_to)
        if begin < end:
            version.spans.append((begin + self.ahead, end + self.ahead))

    def version(self, kind, number, versions):
        sets, value = self.sets(kind, number), self.value(kind, number)
        ttl = max(self.world.keeps(rrset.ttl) for rrset in sets)
        expiration = min(rrset.expires // SECOND - 1 for rrset in sets) if kind != "ds" else inf
        return Version(self.position(kind, number, value, versions), ttl, expiration, [])

    def position(self, kind, number, value, versions):
        """That of the last call by then that asks for these sets, or another one if the notes name
        it; if the sets are those of before, the same one. The first version is what was there
        before the first call."""
        if not versions:
            return 0
        by_then = self.servers[kind].times[number] + self.ahead
        if self.value(kind, number - 1) == value:
            # (Call 1 publishes nothing: its sets are those of before, which have no call in notes.)
            return versions[-1].position or int(self.made_at[1] <= by_then)
        fits = {
            n for n, position in enumerate(self.record)
            if self.made_at[n] <= by_then and due(kind, position) == value
        }
        notes = self.operator.notes
        by_notes = notes and notes.versions[kind][len(versions)].position
        return by_notes if by_notes in fits else max(fits)

    def held(self, kind, time):
        return [version for version in self.versions[kind] if version.is_held(time)]

    def shown(self, kind, time):
        """The least position whose sets a server gives at a time."""
        return min(version.position for version in self.versions[kind]
                   for begin, end in version.spans if begin <= time < end)

    def breakpoints(self):
        """The instants at which what caches may hold changes."""
        every = [version for kind in KINDS for version in self.versions[kind]]
        begins = {begin for version in every for begin, _ in version.spans}
        ends = {end - 1 + (version.ttl + 1) * SECOND for version in every
                for _, end in version.spans if end < inf}
        return sorted(time for time in begins | ends if self.start <= time < self.end)

    def all_reports(self):
        """Those that were made after the position `first`."""
        for at, position in enumerate(self.record):
            if position.report and self.first < at:
                step = base(self.record, at)
                kinds = SPEAKS_OF[position.report.roll][position.report.second]
                came = {kind: origin(self.record, kind, step) for kind in kinds}
                yield PastReport(at, position.moment, position.report.ttl, step, came)

    def reports(self, time):
        """Those of them that were made by this time."""
        return [report for report in self.ever_reported if self.made_at[report.at] <= time]

    # The premises. Each gives the faults up to a time.

    def is_published(self, position, time):
        return self.first <= position < len(self.record) and self.made_at[position] <= time

    def is_network(self, time):
        """`IsNetworkOf`"""
        if sorted(self.made_at) != self.made_at:
            yield "calls aren't in order"
        for kind in KINDS:
            for version in self.held(kind, self.start):
                if not self.is_published(version.position, self.start):
                    yield f"{kind}: held at the start, and not published"
            for version in self.versions[kind]:
                for begin, end in version.spans:
                    at = max(begin, self.start)
                    if at < min(end, time + 1) and not self.is_published(version.position, at):
                        yield f"{kind}: given at {at}, and not published"

    def reports_are_true(self, time):
        """`ReportsAreTrue`"""
        for report in self.reports(time):
            for kind, came in report.came.items() if report.over() <= time else []:
                if any(version.position < came for version in self.held(kind, time)):
                    yield f"{kind}: report {report.at} is false"

    def none_lies_ahead(self, time):
        """`NoneLiesAhead`"""
        for n, position in enumerate(self.record):
            if position.moment is not None and self.made_at[n] <= time:
                if position.moment * SECOND > self.made_at[n]:
                    yield f"moment {position.moment} lies ahead"

    def none_goes_back(self, time):
        """`NoneGoesBack`; servers of the game never give an earlier version."""
        for report in self.reports(time):
            for kind, came in report.came.items():
                given = [version for version in self.versions[kind]
                         if any(begin <= time for begin, _ in version.spans)]
                later = [version.position >= came for version in given]
                if sorted(later) != later:
                    yield f"{kind}: a version goes back over what report {report.at} speaks of"

    def is_renewed(self, time):
        """`IsRenewed`"""
        for kind in KINDS:
            for version in self.versions[kind]:
                last = min(version.last(), time)
                if last + version.ttl * SECOND > version.expiration * SECOND + self.ahead:
                    yield f"{kind}: signatures end too early"

    def notes_are_true(self, time):
        """`ReportsAreByNotes`: the facts are true, and no report is lower than what is due."""
        newest = dict.fromkeys(KINDS, 0)
        for word, kind, *numbers in map(str.split, self.operator.notes.lines[1:]):
            *of, moment = map(int, numbers)
            newest[kind] += word == "published"
            version = self.versions[kind][newest[kind]]
            later = self.versions[kind][newest[kind]:]
            if word == "published":
                first = min((begin for each in later for begin, _ in each.spans), default=inf)
                if (version.position, version.ttl) != tuple(of) or first < moment * SECOND:
                    yield f"{kind}: published at {moment} is false"
            elif any(begin <= moment * SECOND < end
                     for each in self.versions[kind][: newest[kind]] for begin, end in each.spans):
                yield f"{kind}: everywhere at {moment} is false"
        asked = {(each.call, each.roll, each.moment): each.due
                 for each in self.operator.notes.questions}
        for report in self.reports(time):
            _, roll, ttl, moment = (line := self.operator.script[report.at - 1]).split()
            least = asked.get((line.split()[0], roll, int(moment)))
            if least is not None and int(ttl) < least:
                yield f"report {report.at} is lower than what is due"
