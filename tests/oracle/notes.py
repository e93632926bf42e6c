"""Notes that an operator of the game keeps, as in docs/REFERENCE.md, and the TTL due by them.
The rule for it is that of the page, written again here."""

from itertools import combinations
from typing import NamedTuple, Optional

from judge import SPEAKS_OF, base, origin, time
from tests.oracle.zone import SECOND


class ReportQuestion(NamedTuple):
    """What was due at a report: the script and the notes at that moment; the report's TTL, or None
    if it was not due yet; and the highest TTL by rule 1 of docs/OPERATORS.md as it is played, if it
    was seen at once when each older set had left the servers."""

    call: str
    roll: str
    script: str
    notes: str
    moment: int
    due: Optional[int]
    most: Optional[int]


class NotedVersion:
    """A version of a kind of sets. All servers were seen to give a later one at `left_at`."""

    def __init__(self, position, ttl, sets):
        self.position, self.ttl, self.sets, self.left_at = position, ttl, sets, None


class GameNotes:
    """The notes of one operator, who takes the moments from one machine. If it `reports` by them,
    it makes each report with the TTL that they say, except those that ask for a sum. For DS sets it
    reports at least the TTL of CDS. With `less` it reports this many seconds less."""

    def __init__(self, operator, reports, less=0):
        self.operator, self.world, self.reports = operator, operator.world, reports
        self.less = less
        # How far notes and rule 1 may differ because of the clocks.
        self.slack = 2 * (operator.margin // SECOND + 1)
        self.questions = []
        sources = {"ds": self.world.parent, "dnskey": operator.zone, "zone": operator.zone}
        self.sources, self.looked = sources, dict.fromkeys(sources, 0)
        # The number of the servers' version that brought the newest version of a kind, if that
        # wasn't seen everywhere yet.
        self.waits = dict.fromkeys(sources)
        self.versions = {
            kind: [NotedVersion(0, self.ttl(kind, 0), self.sets(kind, 0))] for kind in sources
        }
        self.lines = ["before " + " ".join(str(self.ttl(kind, 0)) for kind in sources)]

    def sets(self, kind, number):
        """The sets of a kind in a version of the servers: those of CDS count as the zone's."""
        version = self.sources[kind].versions[number]
        kinds = (kind, "cds") if kind == "zone" else (kind,)
        return [version[each] for each in kinds if version[each]]

    def ttl(self, kind, number):
        return max(self.world.keeps(rrset.ttl) for rrset in self.sets(kind, number))

    def value(self, kind, number):
        return self.sets(kind, number)[0].value

    def down(self):
        return (self.world.now + self.operator.ahead[0]) // SECOND

    def up(self):
        return -(-(self.world.now + self.operator.ahead[0] + self.operator.margin) // SECOND)

    def look(self):
        """Notes what was published since the last look, and what was seen on all servers."""
        for kind, servers in self.sources.items():
            for number in range(self.looked[kind] + 1, len(servers.versions)):
                if self.sets(kind, number) != self.sets(kind, number - 1):
                    self.note_version(kind, number)
            self.looked[kind] = len(servers.versions) - 1
            if self.waits[kind] is not None and min(servers.at) >= self.waits[kind]:
                self.note_sight(kind)

    def note_version(self, kind, number):
        """The sets of the last call that asks for them, or those of the version before with another
        TTL. (A parent that reads CDS may take those of a call before the last.)"""
        value, at = self.value(kind, number), self.versions[kind][-1].position
        if value != self.value(kind, number - 1):
            record = self.operator.keyset.record
            at = next(n for n in reversed(range(len(record))) if due(kind, record[n]) == value)
        # (Nothing is published before call 2, so what was there before call 1 is that of call 1.)
        at = max(1, at)
        ttl, sets = self.ttl(kind, number), self.sets(kind, number)
        self.versions[kind].append(NotedVersion(at, ttl, sets))
        self.waits[kind] = number
        # (The call may have been given a later moment, by the clock of another machine.)
        moment = max(self.down(), time(self.operator.keyset.record, at))
        self.lines.append(f"published {kind} {at} {ttl} {moment}")

    def note_sight(self, kind):
        self.waits[kind], moment = None, self.up()
        for version in self.versions[kind][:-1]:
            version.left_at = moment if version.left_at is None else version.left_at
        self.lines.append(f"everywhere {kind} {moment}")

    def goes_back(self):
        """How often a version has the sets of an earlier call than the version before it."""
        return sum(
            later.position < version.position
            for versions in self.versions.values()
            for version, later in zip(versions, versions[1:])
        )

    def goes_back_over_a_report(self):
        """Whether a version goes back to before sets that some report speaks of."""
        record = self.operator.keyset.record
        return any(
            later.position < came <= version.position
            for n, at in enumerate(record)
            if at.report
            for kind in SPEAKS_OF[at.report.roll][at.report.second]
            for came in [origin(record, kind, base(record, n))]
            for version, later in combinations(self.versions[kind], 2)
        )

    # Reports

    def older(self, roll, second):
        """For each kind of sets that a report speaks of: the position at which the sets came that
        the roll's last step left, the newest version, and the versions that are older."""
        record = self.operator.keyset.record
        step = max(n for n, at in enumerate(record) if at.step == roll)
        for kind in SPEAKS_OF[roll][second]:
            came, versions = origin(record, kind, step), self.versions[kind]
            yield came, versions[-1], [each for each in versions if each.position < came]

    def least(self, roll, second, moment):
        """The TTL of a report, or None if it is not due yet."""
        ttl = 0
        for came, newest, older in self.older(roll, second):
            if newest.position < came or any(version.left_at is None for version in older):
                return None
            ttl = max([ttl, *(version.left_at + version.ttl + 1 - moment for version in older)])
        return ttl

    def is_sharp(self, roll, second):
        """Whether it was seen at once when each older set had left the servers."""
        gone = self.operator.gone
        return all(
            version.left_at - max(gone.get(rrset, 0) for rrset in version.sets) <= self.slack
            for _, _, older in self.older(roll, second)
            for version in older
        )

    def report(self, call, roll, moment, ttl, is_sum):
        """Asks which report is due, and asks again until it is, if it is made by the notes. Gives
        its moment and its TTL: those of the notes, else the given ones."""
        by_notes = self.reports and not is_sum
        while self.asks(call, roll, ttl) is None and by_notes:
            for _ in range(SECOND):
                self.operator.passes()
                yield
        last = self.questions[-1]
        while by_notes and self.operator.rounded_down() < last.moment:
            self.operator.passes()
            yield
        if not by_notes:
            return moment, ttl
        # (With a DS set the TTL of CDS counts too. CDS is no kind of the notes.)
        speaks_of_ds = "ds" in SPEAKS_OF[roll][call == "report2"]
        due = max(0, last.due - self.less)
        return last.moment, max(due, ttl) if speaks_of_ds else due

    def asks(self, call, roll, ttl):
        self.look()
        second, moment = call == "report2", self.up()
        ttl_due, most = self.least(roll, second, moment), None
        if ttl_due is not None and self.is_sharp(roll, second):
            most = max(ttl, self.slack)
        script = "\n".join(["zone example.com", *self.operator.script])
        self.questions.append(ReportQuestion(
            call, roll, script, "\n".join(self.lines), moment, ttl_due, most
        ))
        return ttl_due


def due(kind, position):
    """The set of a kind that is due at a position of a record."""
    labels = ("dnskey", "signers") if kind == "dnskey" else (kind,)
    names = [frozenset(name for name, _ in getattr(position, label)) for label in labels]
    return tuple(names) if kind == "dnskey" else names[0]
