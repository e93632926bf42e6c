"""The rolls of an operator of the game, and the course of a zone with one signer."""

from keyset.rolls import ALGORITHM_ROLL, CSK_ROLL, KSK_DOUBLE_DS_ROLL, ROLLS, rolls_of
from tables import KeySet
from tests.oracle.book import EARLY_END, FIRST_KEYS, UNSIGNED, RunbookError
from tests.oracle.points import (
    ALL_AT_ONCE, BACK_AT_ONCE, CDS_STAYS, CSK_FIRST, EARLY_ENDS, KSK_FIRST, MIXED, NOT_HELD_BACK,
    NOT_IN_USE, ONE_SIDE, PARENT_FIRST, SAME_KEY, UNSIGNED_ONLY,
)
from tests.oracle.signer import GONE, Operator
from tests.oracle.zone import SECOND

BESIDE, SLIPS = "beside", "false lines"
ALGORITHMS = (8, 13, 14, 15)
KINDS = {"K": "ksk", "Z": "zsk", "C": "csk"}
KSK_ROLLS = rolls_of("ksk")


class Follower(Operator):
    """Makes rolls as the runbooks have them."""

    def roll(self, roll, old, new, name=None):
        """A roll, or the first keys, from the start to the deletion of the old keys."""
        new = yield from self.begun_in_vain(roll, old, new)
        steps = self.book[name or roll]
        yield from self.comes_to(steps[0])
        began, actions = self.rounded_down(), self.start(roll, old, new)
        if PARENT_FIRST in self.leaves and "ds" in steps[1].does:
            self.world.give_ds(frozenset(name for name in new if name[0] in "KC"))
        since = None
        for half, step in enumerate(steps, 1):
            if since is None:
                since = yield from self.do(step, actions)
            yield from self.watch(step, since)
            if step.takes_cds_out and (half == 3 or CDS_STAYS not in self.leaves):
                yield from self.takes_cds_out()
            if half < 3:
                unsigned_only = UNSIGNED_ONLY in self.leaves and (name, half) == (FIRST_KEYS, 1)
                call = f"report{half}"
                ttl = yield from self.report(call, roll, step, since, began, unsigned_only)
                yield from self.comes_to(steps[half])
                since = yield from self.slip(half, roll, ttl, steps[half])
                if since is None:
                    actions = yield from self.wait(f"wait{half}", roll, ttl)
        self.end(roll, old)
        self.done[name or roll] += 1

    def end(self, roll, old, *others):
        """The end of a roll, and the deletion of its old keys and of others."""
        self.leaving -= set(old)
        self.call(f"done {roll}")
        for key in (*old, *others):
            self.call(f"delete {key}")

    def begun_in_vain(self, roll, old, new):
        """Now and then a start is ended early. Gives the new keys of the next one."""
        often = 0.6 if {SAME_KEY, EARLY_ENDS} & self.leaves else 0.15
        if self.in_step or self.dice.random() >= often:
            return new
        # (It may have been the other roll of such KSKs.)
        early = self.dice.choice(KSK_ROLLS if roll in KSK_ROLLS else [roll])
        yield from self.ended_early(early, old, new)
        must = KSK_DOUBLE_DS_ROLL == early == roll and SAME_KEY not in self.leaves
        if must or SAME_KEY not in self.leaves and self.dice.random() < 0.5:
            return [self.another(key) for key in new]
        return new

    def slip(self, half, roll, ttl, step):
        """Now and then a wait is accepted too early because of a false line, and acted upon. Then
        the line is mended as in docs/EMERGENCY.md. Gives the versions of the step, if it stays."""
        wait = f"wait{half} {roll}"
        if self.in_step or self.notes or not self.may_slip or self.dice.random() > 0.1:
            return None
        if not self.keyset.refusal(f"{wait} {self.rounded_down()}"):
            return None
        at = max(n for n, line in enumerate(self.script) if line.startswith(f"report{half} {roll}"))
        over = int(self.script[at].split()[-1]) + ttl
        line = f"{wait} {self.rounded_down()}0"
        self.world.forgives(1)
        since = yield from self.do(step, self.call(line))
        yield from self.pause(6 * SECOND)
        self.done[SLIPS] += 1
        if self.rounded_down() < over:
            yield from self.takes_back(line, step, since)
            since = None
            yield from self.lets_pass_until(over)
        else:
            self.script[self.script.index(line)] = f"{wait} {over}"
            self.run()
        self.world.forgives(-1)
        return since

    def takes_back(self, line, step, since):
        """Removes a line that was acted upon, and what was published for it."""
        if "ds" in step.does and BACK_AT_ONCE not in self.leaves:
            yield from self.watch(step, since)
        self.script.remove(line)
        self.run()
        since = yield from self.publish(step.does & {"dnskey", "zone"})
        yield from self.watch(step._replace(watches=step.does & {"dnskey", "zone"}), since)
        if "ds" in step.does:
            yield from self.takes_cds_out()
            yield from self.publish({"cds"})
            if not self.world.takes_cds:
                self.world.give_ds(self.ds())
            yield from self.watch(step._replace(watches={"ds"}), {})
            yield from self.takes_cds_out()

    def run(self):
        """Runs the script again."""
        self.keyset = KeySet()
        for line in self.script:
            if not self.keyset.call(line).startswith("ok"):
                raise RunbookError(f"{line}: it was accepted before")

    def ended_early(self, roll, old, new):
        """A start of the roll, and its early end after a while."""
        first, zone = self.book[roll][0], self.zone.versions
        yield from self.comes_to(first)
        begun = len(zone)
        yield from self.do(first, self.start(roll, old, new))
        yield from self.pause(6 * SECOND)
        self.early |= {rrset for version in zone[begun:] for rrset in version.values() if rrset}
        step = self.book[EARLY_END][roll]
        actions = self.call(f"abort {roll}")
        self.leaving -= set(old)
        since = yield from self.do(step, actions)
        yield from self.watch(step, since)
        if step.takes_cds_out:
            yield from self.takes_cds_out()
        self.done[EARLY_END] += 1

    def another(self, key):
        """A new key instead of this one, which is deleted."""
        algorithm = self.world.algorithms[key]
        self.call(f"set-stale {key}")
        self.call(f"delete {key}")
        made = self.add(KINDS[key[0]], algorithm)
        keys = self.keys[algorithm]
        keys[keys.index(key)] = made
        return made

    def unsigned(self):
        """Goes unsigned, as in docs/EMERGENCY.md."""
        self.unsigned_from = self.unsigned_from or self.world.now
        roll, old, key = ALGORITHM_ROLL, sum(self.keys.values(), []), self.add("csk", 13)
        began = self.rounded_down()
        self.start(roll, old, [key])
        self.call(f"set-stale {key}")
        self.call(f"report1 {roll} 0 {began}")
        yield from self.comes_to(UNSIGNED[0])
        actions = self.call(f"wait1 {roll} {began}")
        since = yield from self.do(UNSIGNED[0], actions)
        yield from self.watch(UNSIGNED[0], since)
        yield from self.takes_cds_out()
        ttl = yield from self.report("report2", roll, UNSIGNED[0], since, began)
        yield from self.comes_to(UNSIGNED[1])
        over = 0 if NOT_HELD_BACK in self.leaves else self.rounded_up() + ttl
        while (now := self.rounded_down()) < over:
            self.passes()
            yield
        actions = self.call(f"wait2 {roll} {now}")
        since = yield from self.do(UNSIGNED[1], actions)
        yield from self.watch(UNSIGNED[1], since)
        self.is_steady = False
        self.end(roll, old, key)
        self.done[GONE] += 1

    # The course of a zone

    def whole(self, algorithm, is_csk=False):
        """New keys of an algorithm: a KSK and a ZSK, or a CSK."""
        return [self.add(kind, algorithm) for kind in (["csk"] if is_csk else ["ksk", "zsk"])]

    def first_keys(self):
        self.keys = {13: self.whole(13)}
        if MIXED in self.leaves:
            self.keys[13] = [self.add("ksk", 13), self.add("zsk", 15)]
        yield from self.roll(ALGORITHM_ROLL, [], sum(self.keys.values(), []), FIRST_KEYS)
        if ONE_SIDE in self.leaves:
            yield from self.roll(ALGORITHM_ROLL, self.keys[13][:1], [self.add("ksk", 15)])
        if NOT_IN_USE in self.leaves:
            self.keys[8] = [self.add("csk", 8)]
            yield from self.roll(CSK_ROLL, [self.add("ksk", 8)], self.keys[8])

    def course(self, order):
        if {KSK_FIRST, CSK_FIRST} & self.leaves:
            kind = "ksk" if KSK_FIRST in self.leaves else "csk"
            self.keys = {13: [self.add(kind, 13), self.add(kind, 13)]}
            yield from self.roll(f"{kind}-roll", self.keys[13][:1], self.keys[13][1:])
            return
        yield from self.first_keys()
        yield from self.rolls(order)
        yield from self.unsigned()
        yield from self.first_keys()

    def rolls(self, order):
        rolls = list(order)
        while rolls:
            pair = [rolls.pop(0)]
            if rolls and ROLLS[pair[0]].tolerates(rolls[0]):
                pair += [rolls.pop(0)] if self.dice.random() < 0.7 else []
            for each in [each for each, keys in self.keys.items() if len(keys) == 1]:
                if pair[0] not in (CSK_ROLL, ALGORITHM_ROLL):
                    yield from self.roll(*self.plan(CSK_ROLL, [each]))
            going = [self.roll(*self.plan(roll)) for roll in pair]
            self.done[BESIDE] += len(pair) - 1
            while going:
                going = [roll for roll in going if next(roll, roll) is None]
                yield
            if pair[0] == ALGORITHM_ROLL and self.notes:
                yield from self.zsk_by_algorithm_roll()

    def plan(self, roll, algorithms=None):
        """A roll with its old and its new keys, of one algorithm."""
        if roll == ALGORITHM_ROLL:
            return self.plan_algorithm(*self.choose())
        before = dict(self.keys)
        chosen = [*before] if ALL_AT_ONCE in self.leaves else [self.dice.choice([*before])]
        old, new = [], []
        for each in algorithms or chosen:
            if roll == CSK_ROLL:
                self.keys[each] = self.whole(each, not algorithms and len(before[each]) == 2)
                old, new = old + before[each], new + self.keys[each]
            else:
                ksk, zsk = before[each]
                if "zsk" in ROLLS[roll].kinds:
                    old, new = [*old, zsk], [*new, self.add("zsk", each)]
                    self.keys[each] = [self.keys[each][0], new[-1]]
                else:
                    old, new = [*old, ksk], [*new, self.add("ksk", each)]
                    self.keys[each] = [new[-1], self.keys[each][1]]
        return roll, old, new

    def zsk_by_algorithm_roll(self):
        """An algorithm roll of a ZSK only, which leaves the DS set as it is."""
        each = next((each for each, keys in self.keys.items() if len(keys) == 2), None)
        if each:
            ksk, zsk = self.keys[each]
            self.keys[each] = [ksk, self.add("zsk", each)]
            yield from self.roll(ALGORITHM_ROLL, [zsk], self.keys[each][1:])

    def choose(self):
        """Which algorithms leave, and which come: at most one leaves, one comes, and two stay."""
        here, others = [*self.keys], [each for each in ALGORITHMS if each not in self.keys]
        if ALL_AT_ONCE in self.leaves:
            return here, self.dice.sample(others, 2)
        old, new = [self.dice.choice(here)], [self.dice.choice(others)]
        if self.dice.random() < 0.5:
            return (old, []) if len(here) > 1 else ([], new)
        return old, new

    def plan_algorithm(self, leaving, coming):
        old = sum((self.keys.pop(each) for each in leaving), [])
        for each in coming:
            self.keys[each] = self.whole(each, self.dice.random() < 0.3)
        return ALGORITHM_ROLL, old, sum((self.keys[each] for each in coming), [])
