"""An operator of the game: a key set, the servers of its zone, clocks and notes."""

from collections import Counter

from keyset.rolls import WATCHED
from tables import SETS, KeySet
from tests.oracle.book import ASKS, COURSES, RunbookError
from tests.oracle.points import (
    A_SECOND, AT_ONCE, BEFORE_START, CDS_BY_ALL, CDS_BY_SIGNERS, CDS_BY_ZONE, CDS_LEFT, CDS_ON_ONE,
    CDS_STAYS, CDS_UNCHANGED, CDS_UNCOUNTED, DS_OWN, EARLY, EARLY_ENDS, KEYS_UNSEEN, LOWERED,
    NOT_KEPT, NOT_RENEWED, NO_END, NO_MARGIN, NO_SUM, OTHER_TTL, RAISED, ROUNDED, SKIPPED,
    TAKEN_OUT, TTL_OF_0,
)
from tests.oracle.zone import SECOND, SLOWEST

# For how many seconds at most a roll may stand still after its last step.
MOST_IDLE = 200
GONE = "unsigned"


class Standstill(Exception):
    """A step never ends."""

    how = NO_END


class Operator:
    """Follows the guides, except for the points that it leaves out. With another signer it has an
    `other`. Its methods that take time yield at each instant."""

    def __init__(self, world, book, leaves=frozenset(), is_asked=True):
        self.world, self.dice, self.book, self.leaves = world, world.dice, book, leaves
        self.keyset, self.zone, self.other = KeySet(), world.another_zone(is_asked), None
        self.script = []  # the accepted lines
        self.made_at = [0]  # when each position of the record was made
        self.may_slip = True
        self.unsigned_from = None  # when it first began to go unsigned, by a report that isn't true
        self.done = Counter()
        # How far the clocks of its machines are ahead, and how far they differ at most.
        self.ahead = [self.dice.randint(-SECOND, SECOND) for _ in range(3)]
        if ROUNDED in leaves:
            self.ahead = [0]
        self.margin = 0 if NO_MARGIN in leaves else max(self.ahead) - min(self.ahead)
        # The moment from which no server gave a set; by servers, the version before which all have
        # gone; and the sets of rolls that were ended early.
        self.gone, self.gone_before, self.early = {}, Counter(), set()
        self.keys = {}  # by algorithm: a KSK and a ZSK, or a CSK
        self.leaving = set()  # old keys of rolls up to their second wait
        self.idle, self.is_steady = 0, False
        self.notes = None  # its notes of what was published and seen, if it keeps any
        # In a roll that both make in step: how often this one has waited for the other.
        self.in_step, self.met = False, 0

    # Clocks and notes

    def rounded_up(self):
        moment = self.world.now + self.dice.choice(self.ahead) + self.margin
        return moment // SECOND if ROUNDED in self.leaves else -(-moment // SECOND)

    def rounded_down(self):
        moment = self.world.now + self.dice.choice(self.ahead)
        return -(-moment // SECOND) if ROUNDED in self.leaves else moment // SECOND

    def lives(self):
        """At each instant it notes which sets are gone, renews signatures, and now and then changes
        a TTL."""
        for servers in [self.zone, self.world.parent, *([self.other.zone] if self.other else [])]:
            slowest = min(servers.at)
            for past in range(self.gone_before[servers], slowest):
                for _, rrset in servers.sets(past):
                    if rrset.last < slowest:
                        self.gone[rrset] = self.rounded_up()
            self.gone_before[servers] = slowest
        kinds = [kind for kind, rrset in self.zone.sets(-1) if self.is_due(rrset)]
        if self.dice.random() < 0.015:
            kinds.append(self.dice.choice(("dnskey", "zone")))
        if kinds:
            self.zone.publish(**{kind: self.again(kind) for kind in kinds})
        if self.notes:
            self.notes.look()

    def is_due(self, rrset):
        """Whether its signatures have to be renewed."""
        left = rrset.expires - self.world.now
        return left < rrset.time + SLOWEST * SECOND and NOT_RENEWED not in self.leaves

    def passes(self):
        self.idle += 1
        if self.idle > MOST_IDLE * SECOND:
            raise Standstill("a step doesn't come to its end")

    def pause(self, most):
        for _ in range(self.dice.randint(0, most)):
            self.passes()
            yield

    def lets_pass(self, ttl):
        yield from self.lets_pass_until(self.rounded_up() + ttl)

    def lets_pass_until(self, over):
        while self.rounded_down() < over:
            self.passes()
            yield

    def again(self, kind):
        """The set that is published, with another TTL and new signatures."""
        rrset = self.rrset(kind, self.zone.versions[-1][kind].value)
        if NOT_RENEWED in self.leaves:
            rrset.expires = self.zone.versions[-1][kind].expires
        return rrset

    def rrset(self, kind, value):
        """A set with some TTL. That of a DNSKEY set doesn't rise when it must not."""
        steady = self.is_steady or (self.other and self.other.is_steady)
        now = self.zone.versions[-1]["dnskey"].ttl if kind == "dnskey" and steady else None
        return self.world.rrset(value, now, kind)

    def before(self, kind, since):
        """The sets of this kind that caches got before the version `since`, or all of them. CDS
        counts as a set of the zone. The other signer's DNSKEY sets count too."""
        if kind == "ds":
            return [version["ds"] for version in self.world.parent.versions[:since]]
        versions = self.zone.versions[:since] if self.zone.was_asked else []
        kinds = {kind, "cds"} if kind == "zone" and CDS_UNCOUNTED not in self.leaves else {kind}
        sets = [version[each] for version in versions for each in kinds if version[each]]
        if kind == "dnskey" and self.other and OTHER_TTL not in self.leaves:
            first = None if since is None else self.seen_from()
            sets += [version["dnskey"] for version in self.other.zone.versions[:first]]
        return [rrset for rrset in sets if EARLY_ENDS not in self.leaves or rrset not in self.early]

    def seen_from(self):
        """The first version of the other since which its DNSKEY set has the keys that sign here."""
        versions, keys = self.other.zone.versions, self.zone_keys()
        first = len(versions)
        while first and keys <= versions[first - 1]["dnskey"].value[0]:
            first -= 1
        return first

    def highest(self, kind, since, unsigned_only=False):
        """The highest TTL under which a cache may still hold one of these sets, and the second more
        that a cache may count."""
        if TTL_OF_0 in self.leaves:
            return 0
        sets, now = self.before(kind, since), self.rounded_down()
        more = 0 if A_SECOND in self.leaves else 1

        def keeps(ttl):
            return self.world.keeps(ttl) + more

        if LOWERED in self.leaves:
            last = (self.world.parent if kind == "ds" else self.zone).versions[-1][kind]
            return keeps(last.ttl) if last else 0
        if unsigned_only:
            sets = [rrset for rrset in sets if kind == "zone" and not rrset.value]
        if NOT_KEPT in self.leaves:
            return max((rrset.ttl for rrset in sets), default=0)
        held = (rrset for rrset in sets
                if rrset not in self.gone or now < self.gone[rrset] + keeps(rrset.ttl))
        return max((keeps(rrset.ttl) for rrset in held), default=0)

    # Calls

    def call(self, line):
        if self.notes:
            self.notes.look()
        answer = self.keyset.call(line)
        if not answer.startswith("ok"):
            raise RunbookError(f"{line}: {answer}")
        self.script.append(line)
        self.made_at.append(self.world.now)
        self.idle = 0
        return answer.split()[1:]

    def add(self, kind, algorithm):
        name = f"{kind[0].upper()}{next(self.world.key_numbers)}"
        self.world.algorithms[name] = algorithm
        self.call(f"add-{kind} {name} - {algorithm} {name[1:]} {self.rounded_down()} yes")
        return name

    def start(self, roll, old, new):
        self.leaving |= set(old)
        return self.call(f"start {roll} {listed(old)} {listed(new)} {self.rounded_down()}")

    def due(self):
        """The sets that have to be published."""
        return {label: frozenset(self.keyset.picked_names(*SETS[label])) for label in SETS}

    def ds(self):
        """The DS set of the parent. If there is another signer, it has that signer's keys too."""
        mine = self.due()["ds"]
        if not self.other or DS_OWN in self.leaves:
            return mine
        if AT_ONCE in self.leaves:
            return mine | (self.world.parent.versions[-1]["ds"].value - self.own())
        return mine | self.other.due()["ds"]

    def has_ds(self, version):
        """Whether a version of the parent has the DS that is due, and no other DS of own keys."""
        return version["ds"].value & self.own() == self.due()["ds"]

    def own(self):
        return {name for name, key in self.keyset.keys.items() if key.kind != "include"}

    # Another signer

    def zone_keys(self):
        """The keys of the DNSKEY set that sign the zone here, or may."""
        return frozenset(self.keyset.picked_names("ZSK", "present"))

    def shown(self):
        """The keys that the other has in its DNSKEY set."""
        keys = self.zone_keys() | {key for key in self.leaving if key[0] in "ZC"}
        return keys - (self.leaving - self.due()["zone"] if TAKEN_OUT in self.leaves else set())

    def follow(self):
        """Brings the other's keys that sign the zone into the DNSKEY set, as public keys."""
        while True:
            wanted = self.other.shown() if self.other else set()
            here = {name for name, key in self.keyset.keys.items() if key.kind == "include"}
            shown = here & self.due()["dnskey"]
            for name in sorted(wanted - here):
                algorithm = self.world.algorithms[name]
                self.call(f"add-public {name} {algorithm} {name[1:]} {self.rounded_down()} yes")
            for name in sorted(wanted ^ shown):
                answer = "yes" if name in wanted else "no"
                self.call(f"set-present {name} {answer} {self.rounded_down()}")
            if wanted != shown:
                due = self.due()
                self.zone.publish(dnskey=self.rrset("dnskey", (due["dnskey"], due["signers"])))
            for _ in range(self.dice.randint(1, 3 * SECOND)):
                yield

    def meets(self):
        """In a roll that both make in step, waits until the other has come as far."""
        if self.in_step:
            self.met += 1
            while self.other.met < self.met:
                self.passes()
                yield

    def comes_to(self, step):
        """Waits until the step may begin, as there is only one change of the DS set at a time."""
        yield from self.meets()
        if self.other and "ds" in step.does and not self.in_step and AT_ONCE not in self.leaves:
            while self.world.changes_ds not in (None, self):
                self.idle = 0
                yield
            self.world.changes_ds = self

    # Steps

    def publish(self, parts):
        """Publishes parts of the zone, at once or one after another, at times with other TTLs.
        Gives the number of the version that brought each kind of sets."""
        since, changed, parts = {}, {}, self.dice.sample(sorted(parts), len(parts))
        at_once = self.dice.random() < 0.5
        for part in parts:
            changed |= self.changed(part, changed)
            if at_once and part != parts[-1]:
                continue
            number = len(self.zone.versions)
            since |= {kind: number for kind in changed}
            for kind in ("dnskey", "zone"):
                if kind not in changed and self.dice.random() < 0.2:
                    changed[kind] = self.again(kind)
            self.zone.publish(**changed)
            changed = {}
            if part != parts[-1]:
                yield from self.pause(SECOND)
        return since

    def changed(self, part, beside):
        """The sets of a part of the zone, and those that change with it, by their kinds."""
        due = self.due()
        if part != "cds":
            cds = {**self.zone.versions[-1], **beside}["cds"]
            if cds and CDS_UNCHANGED not in self.leaves:
                beside["cds"] = self.cds(cds.value[0])
            keys = (due["dnskey"], due["signers"]) if part == "dnskey" else due["zone"]
            return {part: self.rrset(part, keys)}
        keys = self.ds()
        if self.other and self.other.zone.is_asked and CDS_ON_ONE not in self.leaves:
            self.other.zone.publish(cds=self.other.cds(keys))
        return {"cds": self.cds(keys)}

    def cds(self, keys):
        """CDS for these keys, signed by one that has a DS now and by those that sign the zone."""
        due, present = self.due(), self.world.parent.versions[-1]["ds"].value
        signers = sorted(due["signers"] & present or due["signers"])
        if CDS_BY_ALL not in self.leaves:
            signers = signers[:1]
        if CDS_BY_ZONE in self.leaves:
            signers = []
        zone = due["zone"] if CDS_BY_SIGNERS not in self.leaves else frozenset()
        return self.rrset("cds", (keys, zone.union(signers)))

    def takes_cds_out(self):
        """Takes CDS out, and watches until no server gives it. Then the other may change the DS
        set."""
        zones = [self.zone]
        if self.other and CDS_ON_ONE not in self.leaves:
            zones.append(self.other.zone)
        for zone in zones:
            zone.publish(cds=None)
        while CDS_LEFT not in self.leaves and any(map(gives_cds, zones)):
            self.passes()
            yield
        if self.world.changes_ds is self:
            self.world.changes_ds = None

    def do(self, step, actions):
        """Does what the step says. Gives the versions with its sets."""
        self.compare(step, actions)
        if "RemoveCdsRrset" in actions and CDS_STAYS in self.leaves:
            yield from self.takes_cds_out()
        if "ds" in step.does:
            yield from self.meets()
        since, world = (yield from self.publish(step.does - {"ds"})), self.world
        # (The first DS set doesn't come by CDS.)
        if "ds" in step.does and not (world.takes_cds and world.parent.versions[-1]["ds"].value):
            world.give_ds(self.ds())
        return since

    def compare(self, step, actions):
        """What the runbook says has to be what the key set asks for. A set that it leaves out has
        to be as it is already."""
        due, now = self.due(), self.zone.versions[-1]
        as_is = {"dnskey"} if now["dnskey"].value == (due["dnskey"], due["signers"]) else set()
        as_is |= {"zone"} if now["zone"].value == due["zone"] else set()
        asked = {ASKS[action] for action in actions if action in ASKS}
        watched = {WATCHED[action] for action in actions if action in WATCHED}
        if step.does - asked or asked - step.does - as_is:
            raise RunbookError(f"{COURSES.name}: {step.does} is done, and {asked} is asked for")
        if step.watches - watched - {"cds"} or watched - step.watches - as_is:
            raise RunbookError(
                f"{COURSES.name}: {step.watches} is watched, and {watched} is asked for"
            )

    def watch(self, step, since):
        """Watches until all servers have what the step says."""
        first = max((since[kind] for kind in step.watches if kind in since), default=0)
        while not self.is_everywhere(step.watches, first):
            self.passes()
            yield

    def is_everywhere(self, kinds, first):
        every = any if EARLY in self.leaves else all
        seen = every(number >= first for number in self.zone.at)
        if "ds" in kinds:
            parent = self.world.parent
            seen = seen and every(self.has_ds(parent.versions[at]) for at in parent.at)
        if self.other and "dnskey" in kinds and KEYS_UNSEEN not in self.leaves:
            seen = seen and every(number >= self.seen_from() for number in self.other.zone.at)
        return seen

    def report(self, call, roll, step, since, began, unsigned_only=False):
        """Reports once the clock has reached the report's moment. Gives the TTL."""
        moment = self.rounded_up()
        while self.rounded_down() < moment and ROUNDED not in self.leaves:
            self.passes()
            yield
        # (The parent may meanwhile have given its old set another TTL.)
        versions = self.world.parent.versions
        since["ds"] = len(versions)
        while since["ds"] and self.has_ds(versions[since["ds"] - 1]):
            since["ds"] -= 1
        join, kinds = step.report
        # (A sum counts the present DNSKEY set too.)
        firsts = [since[kind] if kind in step.watches else None for kind in kinds]
        ttls = [self.highest(*pair, unsigned_only) for pair in zip(kinds, firsts)]
        ttl = ttls[0] if NO_SUM in self.leaves else join(ttls)
        if step.takes_cds_out and CDS_STAYS not in self.leaves:
            ttl = max(ttl, self.highest("cds", None))
        if BEFORE_START in self.leaves:
            moment = began - ttl
        self.is_steady = step.is_steady and RAISED not in self.leaves
        if self.notes:
            moment, ttl = yield from self.notes.report(call, roll, moment, ttl, join is sum)
        self.call(f"{call} {roll} {ttl} {moment}")
        return ttl

    def wait(self, call, roll, ttl):
        """Asks, each second, until the wait is over."""
        last, ahead = 0, ttl + self.margin if SKIPPED in self.leaves else 0
        while True:
            moment = self.rounded_down() + ahead
            if moment > last and not self.keyset.refusal(f"{call} {roll} {moment}"):
                self.is_steady = False
                return self.call(f"{call} {roll} {moment}")
            last = max(last, moment)
            self.passes()
            yield


def gives_cds(zone):
    return any(zone.versions[at]["cds"] for at in zone.at)


def listed(names):
    return ",".join(names) or "-"
