"""The zone of the game with its parent, their servers, and what caches may hold."""

import heapq
from itertools import count, product
from math import inf

from judge import has_chain
from tables import SETS
from tests.oracle.points import EXPIRED, NO_CDS, NO_CHAIN, NOT_EVERY, TOO_MANY, WORLDS

# The instants in a second.
SECOND = 8
BEGIN = 1000 * SECOND

# The TTLs of sets; the times for which signatures are valid; the longest that a server takes.
TTLS = (1, 2, 2, 3, 5, 8)
VALID, SLOWEST = (60, 120), 16


class CacheFault(Exception):
    """Some caches hold sets that a validator refuses: in which way, and which sets."""

    def __init__(self, how, sets):
        super().__init__(f"{how}: {sets}")
        self.how = how


class Rrset:
    """A set of one kind as servers give it, with the time for which caches keep it, and the moment
    when its signatures expire."""

    def __init__(self, value, ttl, time, expires):
        self.value, self.ttl, self.time, self.expires = value, ttl, time, expires
        self.givers, self.left_at, self.last = 0, None, 0

    def end(self):
        """When it will have left all caches, as far as is known."""
        return inf if self.givers else self.left_at + self.time


class Servers:
    """Servers that are reached one by one. `versions` are those published so far, and `at` says
    which of them each server gives. A version has its sets by their kinds. Servers that nobody asks
    give nothing to caches."""

    def __init__(self, world, number, version, is_asked=True):
        self.world, self.versions, self.at = world, [version], [0] * number
        # When each version was published, and when each server got which.
        self.times, self.history = [world.now], [[(world.now, 0)] for _ in self.at]
        self.is_asked = self.was_asked = False
        self.asked_from = self.asked_to = None
        if is_asked:
            self.name()

    def sets(self, number):
        return [pair for pair in self.versions[number].items() if pair[1]]

    def publish(self, **changed):
        """Publishes a version, and gives its number."""
        self.versions.append({**self.versions[-1], **changed})
        self.times.append(self.world.now)
        number = len(self.versions) - 1
        for _, rrset in self.sets(number):
            rrset.last = number
        for server in range(len(self.at)):
            self.world.later(self.world.delay(), self.arrive, server, number)
        return number

    def arrive(self, server, number):
        if number > self.at[server]:
            before, self.at[server] = self.at[server], number
            self.history[server].append((self.world.now, number))
            if self.is_asked:
                self.gives(number)
                self.gives_no_more(before)

    def gives(self, number):
        for kind, rrset in self.sets(number):
            rrset.givers += 1
            self.world.holds(kind, rrset)

    def gives_no_more(self, number):
        for _, rrset in self.sets(number):
            rrset.givers -= 1
            if not rrset.givers:
                rrset.left_at = self.world.now

    def name(self):
        """From now on they are asked."""
        self.is_asked = self.was_asked = True
        self.asked_from = self.world.now
        for number in self.at:
            self.gives(number)

    def name_no_more(self):
        """From now on nobody asks them."""
        self.is_asked, self.asked_to = False, self.world.now
        for number in self.at:
            self.gives_no_more(number)


class World:
    """The zone, its parent, and what caches may hold."""

    def __init__(self, dice, leaves=()):
        self.dice, self.algorithms, self.key_numbers = dice, {}, count(1)
        self.now, self.queue, self.order = BEGIN, [], count()
        self.held, self.pairs = {"ds": [], "dnskey": [], "zone": [], "cds": []}, []
        self.is_new, self.judged, self.given_at = True, {}, BEGIN
        # Some caches keep all sets for a least time, or for some time longer than the TTL.
        self.least, self.more = dice.choice(((0, 0), (0, 0), (4, 0), (0, 3)))
        # How often a server takes long; whether the parent reads CDS.
        self.slow, self.takes_cds = dice.choice((0, 0.1, 0.4)), dice.random() < 0.6
        # TTLs of some kinds of sets, if they have others.
        self.ttls = {}
        for point in leaves:
            vars(self).update(WORLDS.get(point, {}))
        # The servers of each signer, and who has the DS set changed just now.
        self.zones, self.changes_ds = [], None
        self.parent = Servers(self, dice.randint(1, 3), {"ds": self.rrset(frozenset())})
        self.later(0, self.scan)
        self.later(0, self.another_ttl)
        self.instants = self.choices = 0
        # How many false lines were acted upon. Until they are mended, the zone may be broken.
        self.forgiven = 0

    def another_zone(self, is_asked=True):
        """The servers of one more signer. They give the zone unsigned."""
        nothing = frozenset()
        unsigned = {"dnskey": self.rrset((nothing, nothing)), "zone": self.rrset(nothing)}
        servers = Servers(self, self.dice.randint(2, 4), {**unsigned, "cds": None}, is_asked)
        self.zones.append(servers)
        return servers

    def rrset(self, value, most=None, kind=None):
        """A set with some TTL, which may be at most that of another set."""
        ttls = self.ttls.get(kind, TTLS)
        ttl = self.dice.choice([ttl for ttl in ttls if ttl <= (most or max(ttls))])
        expires = self.now + self.dice.randint(*VALID) * SECOND
        return Rrset(value, ttl, self.lasts(ttl), expires)

    def keeps(self, ttl):
        """How long some cache keeps a set with this TTL."""
        return max(ttl, self.least) + self.more

    def lasts(self, ttl):
        """For how many instants some cache may hold a set with this TTL after it got it. A cache
        counts whole seconds, from an instant of its own."""
        return self.keeps(ttl) * SECOND + SECOND - 1

    def delay(self):
        """How long a server takes to get a version. Now and then it takes long."""
        most = 2 if self.dice.random() > self.slow else SLOWEST
        return self.dice.randint(0, most * SECOND)

    def later(self, delay, call, *arguments):
        heapq.heappush(self.queue, (self.now + delay, next(self.order), call, arguments))

    def scan(self):
        """The parent reads the CDS of one server. It takes it if a key that is in the DS set and in
        the DNSKEY set signs it, and if the zone doesn't break by it."""
        asked = [(zone, at) for zone in self.zones if zone.is_asked for at in zone.at]
        if self.takes_cds and asked:
            zone, at = self.dice.choice(asked)
            self.reads(zone.versions[at])
        self.later(self.dice.randint(1, 3 * SECOND), self.scan)

    def reads(self, version):
        if not version["cds"]:
            return
        keys, signers = version["cds"].value
        present = self.parent.versions[-1]["ds"].value
        signing = signers & version["dnskey"].value[0] & present
        if keys != present and signing and (keys & version["dnskey"].value[1] or not keys):
            self.parent.publish(ds=self.rrset(keys))

    def give_ds(self, keys):
        """Gives the parent its DS set by another way than CDS."""
        self.given_at = max(self.given_at, self.now + self.dice.randint(0, 12 * SECOND))
        self.later(self.given_at - self.now, lambda: self.parent.publish(ds=self.rrset(keys)))

    def another_ttl(self):
        if self.now > BEGIN:
            self.parent.publish(ds=self.rrset(self.parent.versions[-1]["ds"].value))
        self.later(self.dice.randint(1, 60 * SECOND), self.another_ttl)

    def holds(self, kind, rrset):
        if rrset not in self.held[kind]:
            self.held[kind].append(rrset)
            if kind != "ds":
                self.later(max(0, rrset.expires - self.now), self.expire, rrset)
        self.is_new = True

    def expire(self, rrset):
        if self.now < rrset.end() and any(ds.value for ds in self.held["ds"]):
            raise CacheFault(EXPIRED, rrset.value)

    def tick(self):
        self.now += 1
        while self.queue[0][0] <= self.now:
            _, _, call, arguments = heapq.heappop(self.queue)
            call(*arguments)
        # (Between two changes sets leave caches, and none comes in.)
        if self.is_new:
            self.is_new = False
            self.look()

    def look(self):
        """Looks at each choice of sets that some cache may hold now."""
        for kind, sets in self.held.items():
            self.held[kind] = [rrset for rrset in sets if self.now < rrset.end()]
        now = product(self.held["ds"], self.held["dnskey"])
        checked = [pair for pair in self.pairs if self.is_checked(*pair)]
        self.pairs = [*dict.fromkeys([*checked, *now])]
        self.instants += 1
        for ds, dnskey in self.pairs:
            for rrset in self.held["zone"]:
                self.judge(self.lacks, ds.value, *dnskey.value, rrset.value)
            for rrset in self.held["cds"]:
                self.judge(self.lacks_cds, ds.value, *dnskey.value, rrset.value[1])

    def is_checked(self, ds, dnskey):
        """Whether a validator still keeps this DNSKEY set that it has checked by this DS set."""
        keys, signers = dnskey.value
        is_good = self.each_of(ds.value) <= self.each_of(ds.value & keys & signers)
        return is_good and self.now < min(dnskey.end(), ds.end() + dnskey.time)

    def judge(self, lacks, *sets):
        self.choices += 1
        if (lacks, sets) not in self.judged:
            self.judged[lacks, sets] = lacks(*sets)
        if (how := self.judged[lacks, sets]) and not self.forgiven:
            raise CacheFault(how, self.text_of(*sets))

    def forgives(self, lines):
        """This many more false lines are acted upon, or fewer."""
        self.forgiven += lines
        self.is_new = True

    def lacks(self, ds, keys, signers, zone):
        """What a validator misses in these sets, if anything."""
        if not has_chain(ds, keys, signers, zone):
            return NO_CHAIN
        entry, signing = self.each_of(ds & keys & signers), self.each_of(keys & zone)
        if self.each_of(ds) - (entry & signing):
            return NOT_EVERY
        return TOO_MANY if ds and (hides(signers, ds) or hides(zone, keys)) else None

    def lacks_cds(self, ds, keys, _, signers):
        """The same for CDS, if the sets have a chain."""
        if self.each_of(ds) - self.each_of(keys & signers):
            return NO_CDS
        return TOO_MANY if ds and hides(signers, keys) else None

    def each_of(self, names):
        """The algorithms of these keys."""
        return {self.algorithms[name] for name in names}

    def text_of(self, *sets):
        named = (",".join(sorted(names)) or "-" for names in sets)
        return " ".join(f"{label}={names}" for label, names in zip(SETS, named))


def hides(signers, known_keys):
    """Whether a resolver that looks at only two signatures may see none by a known key."""
    return len(signers) > 2 and len(signers - known_keys) > 1
