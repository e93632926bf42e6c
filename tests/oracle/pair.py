"""A zone of the game with two signers."""

from keyset.rolls import (
    ALGORITHM_ROLL, CSK_ROLL, KSK_DOUBLE_DS_ROLL, KSK_ROLL, ZSK_DOUBLE_SIGNATURE_ROLL, ZSK_ROLL,
)
from tests.oracle.book import FIRST_KEYS
from tests.oracle.course import Follower
from tests.oracle.points import (
    ALGORITHM_ALONE, DOUBLE_SIGNATURE, DS_ALONE, JOINS_EARLY, LEAVES_EARLY, NS_TTL, UNSIGNED_ALONE,
)
from tests.oracle.zone import SECOND

JOINED, LEFT = "joined", "left"
# The rolls that each makes for itself.
OWN = (KSK_ROLL, KSK_DOUBLE_DS_ROLL, ZSK_ROLL, CSK_ROLL)


class Pair:
    """Two signers of a zone."""

    def __init__(self, world, book, leaves):
        self.world, self.dice, self.leaves = world, world.dice, leaves
        self.book = book
        self.first = Follower(world, book, leaves)
        self.second = None

    def signers(self):
        return [self.first, *([self.second] if self.second else [])]

    def meet(self, is_asked):
        """From now on there is a second signer."""
        self.second = Follower(self.world, self.book, self.leaves, is_asked)
        self.first.other, self.second.other = self.second, self.first

    def course(self):
        """First keys of both, or of one that the other then joins; rolls of each, a change of the
        algorithm, more rolls; then one leaves, or both go unsigned and come back."""
        together = self.dice.random() < 0.5
        if not together:
            yield from self.first.first_keys()
            yield from self.first.rolls(self.dice.sample(OWN, 1))
        self.meet(together)
        always = self.first.follow(), self.second.follow()
        for _ in self.both(together):
            for each in always:
                next(each)
            yield

    def both(self, together):
        if together:
            yield from self.first_keys()
        else:
            yield from self.at_once(self.joins(), self.first.rolls(self.dice.sample(OWN, 1)))
        yield from self.each()
        yield from self.change_algorithm()
        yield from self.each()
        if self.dice.random() < 0.5:
            yield from self.leaves_it()
        else:
            yield from self.go_unsigned()

    def at_once(self, *courses):
        going = list(courses)
        while going:
            going = [course for course in going if next(course, course) is None]
            yield

    def in_step(self, *courses):
        """Both make the same calls. Each call waits until both have made the one before."""
        for signer in self.signers():
            signer.in_step, signer.met = DS_ALONE not in self.leaves, 0
        yield from self.at_once(*courses)
        for signer in self.signers():
            signer.in_step = False

    def first_keys(self):
        yield from self.in_step(self.first.first_keys(), self.second.first_keys())

    def each(self):
        """Each signer makes some rolls of its own."""
        rolls = OWN
        if DOUBLE_SIGNATURE in self.leaves:
            rolls = [ZSK_DOUBLE_SIGNATURE_ROLL if roll == ZSK_ROLL else roll for roll in OWN]
        orders = [self.dice.sample(rolls, self.dice.randint(0, 3)) for _ in self.signers()]
        yield from self.at_once(*(one.rolls(order) for one, order in zip(self.signers(), orders)))

    def change_algorithm(self):
        changes = self.first.choose()
        plans = [signer.plan_algorithm(*changes) for signer in self.signers()]
        if ALGORITHM_ALONE in self.leaves:
            for signer, plan in zip(self.signers(), plans):
                yield from signer.roll(*plan)
        else:
            rolls = (signer.roll(*plan) for signer, plan in zip(self.signers(), plans))
            yield from self.in_step(*rolls)

    def go_unsigned(self):
        if UNSIGNED_ALONE in self.leaves:
            yield from self.first.unsigned()
        yield from self.in_step(self.first.unsigned(), self.second.unsigned())
        yield from self.first_keys()

    def joins(self):
        """The second signer joins a zone that the first signs."""
        one = self.second
        one.keys = {each: one.whole(each) for each in self.first.keys}
        course = one.roll(ALGORITHM_ROLL, [], sum(one.keys.values(), []), FIRST_KEYS)
        for _ in course:
            if JOINS_EARLY in self.leaves and not one.zone.is_asked and one.due()["ds"]:
                one.zone.name()
            yield
        if not one.zone.is_asked:
            one.zone.name()
        one.done[JOINED] += 1

    def leaves_it(self):
        """One of the two leaves, and the other goes on."""
        one, other = self.dice.sample(self.signers(), 2)
        if LEAVES_EARLY in self.leaves:
            yield from self.drops_ds(one, other)
        # (All servers get the new NS set, and then its old TTL passes.)
        yield from one.pause(SECOND * 12)
        ttl = self.world.keeps(self.dice.choice((1, 3, 8)))
        self.world.later(ttl * SECOND, one.zone.name_no_more)
        yield from other.lets_pass(0 if NS_TTL in self.leaves else ttl)
        yield from other.lets_pass(max(one.highest(kind, None) for kind in ("dnskey", "zone")))
        if LEAVES_EARLY not in self.leaves:
            yield from self.drops_ds(one, other)
        while one.zone.is_asked:
            yield
        other.other, self.first, self.second = None, other, None
        yield from other.pause(6 * SECOND)
        yield from other.rolls(self.dice.sample(OWN, 2))
        yield from other.unsigned()
        other.done[LEFT] += 1

    def drops_ds(self, one, other):
        """The DS of the signer that leaves goes: the parent has only the keys of the other."""
        yield from other.comes_to(other.book[KSK_ROLL][1])
        other.other = None
        yield from other.publish({"cds"})
        if not self.world.takes_cds:
            self.world.give_ds(other.due()["ds"])
        wanted = other.due()["ds"]
        parent = self.world.parent
        while any(parent.versions[at]["ds"].value != wanted for at in parent.at):
            other.passes()
            yield
        yield from other.takes_cds_out()
