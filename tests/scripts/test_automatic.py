"""Plays zones that roll by themselves: an operator does what `keyset next` says, and nothing else.
Whatever caches may hold is looked at as in tests/oracle/runbooks.py, and each call is made by the
key set of `replay/tables.py`. What is said is compared with the definition, as
tests/oracle/what_next.py has it, and at its end each script is answered by the program: all its
calls are accepted.

    python3 -m tests.scripts.test_automatic ROLLS ZONE JOBS
            how many rolls are played at least, from which zone on, and how many at once

The policies are random, and change on the way: lifetimes and demands, the rolls by which keys are
renewed, the algorithm, CSKs in place of KSKs and ZSKs and back. A lifetime that is too short has to
be refused. TTLs, the number of servers and their delays are random too. Then come operators who
note what isn't true: some of their zones have to break. Each minute standard error says how far it
has come.
"""

import random
import subprocess
import sys
import time
from collections import Counter
from dataclasses import dataclass
from multiprocessing import Pool
from typing import Iterator, Optional, Sequence

from judge import chain_line, has_chain, time as judged_time
from keyset import programs
from keyset.rolls import CALLS, ROLLS, rolls_of
from tests.oracle.notes import GameNotes, NotedVersion, due
from tests.oracle.policy import Policy
from tests.oracle.signer import Operator, Standstill
from tests.oracle.spread import NoteHistory
from tests.oracle.what_next import AT_REST, View, answer_of, shown
from tests.oracle.zone import SECOND, SLOWEST, CacheFault, World

ROLLS_OF_A_ZONE, ROLLS_IN_THE_GATE = 12, 240
ALGORITHMS = (8, 13, 14, 15)
# What an untrue note says: that all servers give a version if one does, or half of a TTL.
EARLY, HALF = "seen on all servers once one gives it", "half of the TTL"
# How often the program is asked again, though the definition says the same as before.
AGAIN = 0.1
# How often the game says how far it has come, in seconds.
SAY_EVERY = 60


class WrongAnswer(Exception):
    """`next` said what it must not say."""


def run(word: str, lines: Sequence[str]) -> str:
    """What the program says. A refusal is what it says of a fault."""
    text = "".join(f"{line}\n" for line in lines)
    done = subprocess.run(programs.find(word), input=text, capture_output=True, text=True)
    if done.returncode not in (0, 1):
        raise WrongAnswer(f"status {done.returncode}: {done.stderr}")
    return done.stdout.rstrip("\n") if done.returncode == 0 else f"refused: {done.stderr.strip()}"


def policy_at_random(dice: random.Random, now: int) -> Policy:
    """What is wanted of a zone's keys from now on."""
    of_two = tuple(dice.choice(rolls_of(kind)) for kind in ("ksk", "zsk"))
    rolls = dice.choice([rolls_of("csk"), of_two])
    policy = Policy.of(dice.choice(ALGORITHMS), rolls)
    policy.delete_after = dice.choice((0, 0, 30, 90))
    for renewal in policy.renewals.values():
        if dice.random() < 0.8:
            renewal.lifetime = dice.randint(5, 300)
        if dice.random() < 0.3:
            renewal.once = now + dice.randint(0, 60)
    return policy


def in_some_order(dice: random.Random, policy: Policy) -> list[str]:
    """The lines of a policy: only the first has its place."""
    first, *more = policy.lines()
    return [first, *dice.sample(more, len(more))]


class TrueNotes(GameNotes):
    """Notes of an operator to whom `next` says what to publish: a version with the sets that are
    due now has those of the last call."""

    def note_version(self, kind, number):
        record = self.operator.keyset.record
        at, value = len(record) - 1, self.value(kind, number)
        if due(kind, record[at]) != value:
            super().note_version(kind, number)
            return
        ttl, moment = self.ttl(kind, number), max(self.down(), judged_time(record, at))
        self.versions[kind].append(NotedVersion(at, ttl, self.sets(kind, number)))
        self.waits[kind] = number
        self.lines.append(f"published {kind} {max(1, at)} {ttl} {moment}")


class UntrueNotes(TrueNotes):
    """Notes of an operator who notes what isn't true."""

    def __init__(self, operator, lie):
        self.lie = lie
        super().__init__(operator, reports=False)

    def ttl(self, kind, number):
        ttl = super().ttl(kind, number)
        return ttl // 2 if self.lie == HALF else ttl

    def look(self):
        super().look()
        for kind, servers in self.sources.items():
            if self.lie == EARLY and self.waits[kind] is not None:
                if max(servers.at) >= self.waits[kind]:
                    self.note_sight(kind)


class LenientWorld(World):
    """Validators that ask for every algorithm look at sets that caches hold now. For those that
    keep a DNSKEY set which was checked by an older DS set a report needs a sum of TTLs, and `next`
    gives the TTL of the notes. They find a chain."""

    def judge(self, lacks, *sets):
        held = any(rrset.value == sets[0] for rrset in self.held["ds"])
        if held or not has_chain(*sets):
            super().judge(lacks, *sets)


class NextOperator(Operator):
    """Does what `next` says."""

    def __init__(self, world: World, lie: Optional[str]) -> None:
        # The clock is right, and the DS set is changed by hand.
        super().__init__(world, {})
        self.ahead, self.margin, world.takes_cds = [0], 0, False
        self.lines_read, self.given_ds, self.last = 0, None, ("", 0)
        self.counts, self.lasts, self.history = Counter(), {}, NoteHistory()
        self.notes = UntrueNotes(self, lie) if lie else TrueNotes(self, reports=False)

    def is_due(self, rrset) -> bool:
        """With a second to spare: the slowest server takes that long to the instant."""
        return rrset.expires - self.world.now < rrset.time + (SLOWEST + 1) * SECOND

    def catch_up(self) -> None:
        """Reads what was noted since the last time."""
        self.notes.look()
        for line in self.notes.lines[self.lines_read:]:
            self.history.take(line)
        self.lines_read = len(self.notes.lines)

    def asks(self) -> str:
        """What is said has to be what the definition says. If that says the same as before, and
        nothing was noted, the program is asked only now and then."""
        self.catch_up()
        now = self.rounded_down()
        view = View(self.keyset, self.lasts, None, self.history, now)
        wanted = shown(self.policy, answer_of(self.policy, view))
        if self.last == (wanted, self.lines_read) and self.dice.random() > AGAIN:
            return wanted
        self.last = wanted, self.lines_read
        said = self.program_says(now)
        if said != wanted:
            raise WrongAnswer(f"{said}, and by the definition: {wanted}")
        return said

    def program_says(self, now: int) -> str:
        self.counts["asked"] += 1
        script = ["zone example.com", *self.script]
        return run("next", [*self.text, "", *script, "", *self.notes.lines, f"next {now}"])

    def course(self, rolls: int) -> Iterator[None]:
        """Plays so many rolls."""
        self.catch_up()
        self.another_policy()
        while sum(self.done.values()) < rolls:
            yield from self.obey(self.asks())
            self.long_enough()

    def another_policy(self) -> None:
        self.policy = policy_at_random(self.dice, self.rounded_down())
        self.text = in_some_order(self.dice, self.policy)
        self.long_enough()

    def long_enough(self) -> None:
        """A lifetime that is too short by the notes is refused, and made longer."""
        self.catch_up()
        while fault := self.policy.too_short(self.history):
            said = self.program_says(self.rounded_down())
            if said != f"refused: policy: {fault.text}":
                raise WrongAnswer(f"{said}, and by the definition: {fault.text}")
            self.counts["refused"] += 1
            self.policy.renewals[fault.role].lifetime = fault.takes + self.dice.randint(0, 100)
            self.text = in_some_order(self.dice, self.policy)

    def obey(self, line: str) -> Iterator[None]:
        word, *fields = line.split()
        self.counts[word] += 1
        if word == "publish":
            yield from self.publishes(fields[0])
        elif word == "watch":
            yield from self.lets_a_second_pass()
        elif word == "key":
            self.add(fields[0], int(fields[1]))
        elif word == "until":
            yield from self.sleeps(int(fields[0]))
        elif word in (*CALLS, "delete"):
            self.makes(line)
        elif line == AT_REST:
            self.another_policy()
            yield from self.lets_a_second_pass()
        else:
            raise WrongAnswer(line)

    def makes(self, line: str) -> None:
        """Makes the call, which has to be accepted."""
        self.call(line)
        word, roll, *_ = line.split()
        if word == "wait2":
            self.lasts[roll] = len(self.keyset.record) - 1
        if word == "done":
            self.done[roll] += 1
            if self.dice.random() < 0.25:
                self.another_policy()

    def closes(self) -> None:
        """All calls are accepted by the program too, and the chain is safe."""
        answers = run("", ["zone example.com", *self.script]).splitlines()
        refused = [answer for answer in answers[:-2] if not answer.startswith("ok")]
        if refused or answers[-1] != "chain safe":
            raise WrongAnswer(f"{refused}, {answers[-1]}")

    def publishes(self, kind: str) -> Iterator[None]:
        if kind != "ds":
            yield from self.publish({kind})
        elif self.given_ds != self.ds():
            self.given_ds = self.ds()
            self.world.give_ds(self.given_ds)
        yield from self.lets_a_second_pass()

    def lets_a_second_pass(self) -> Iterator[None]:
        for _ in range(SECOND):
            self.passes()
            yield

    def sleeps(self, second: int) -> Iterator[None]:
        """Until then, or a random while."""
        if second <= self.rounded_down():
            raise WrongAnswer(f"until {second}, which is over")
        early = self.dice.random() < 0.3
        for _ in range((second - self.rounded_down()) * SECOND):
            if self.rounded_down() >= second or (early and self.dice.random() < 0.02):
                break
            yield

    def passes(self) -> None:
        """A roll in progress has to go on."""
        if self.keyset.phases:
            super().passes()


@dataclass
class ZoneResult:
    """What came of a zone, and by which fault it ended, if by one."""

    done: Counter
    counts: Counter
    instants: int
    choices: int
    fault: str = ""


def play(zone: int, lie: Optional[str] = None) -> ZoneResult:
    world = LenientWorld(random.Random(zone))
    one, fault = NextOperator(world, lie), ""
    try:
        for _ in one.course(ROLLS_OF_A_ZONE):
            one.lives()
            world.tick()
        one.closes()
        if zone % 40 == 7 and (lasts := chain_line(one.keyset.record)) != "chain safe":
            fault = lasts
    except (CacheFault, Standstill) as end:
        fault = str(end)
    except WrongAnswer as wrong:
        raise WrongAnswer(f"zone {zone}, {one.policy}: {wrong}") from wrong
    return ZoneResult(one.done, one.counts, world.instants, world.choices, fault)


def results(zones: range, jobs: int) -> Iterator[ZoneResult]:
    """Plays zones one after another, or so many at once."""
    if jobs == 1:
        yield from map(play, zones)
        return
    with Pool(jobs) as pool:
        yield from pool.imap_unordered(play, zones)


def follow(zones: range, jobs: int, wrong: list[str]) -> str:
    """Plays operators who note what is true. Gives a line of counts."""
    total, count, last_said = ZoneResult(Counter(), Counter(), 0, 0), 0, time.monotonic()
    for one in results(zones, jobs):
        count += 1
        total.done += one.done
        total.counts += one.counts
        total.instants += one.instants
        total.choices += one.choices
        if one.fault:
            wrong.append(f"automatic: a zone broke or stopped: {one.fault}")
        if time.monotonic() - last_said > SAY_EVERY:
            last_said = time.monotonic()
            so_far = f"{count} zones, {sum(total.done.values())} rolls, {len(wrong)} faults"
            print(f"automatic, so far: {so_far}", file=sys.stderr, flush=True)
    if missing := [roll for roll in ROLLS if not total.done[roll]]:
        wrong.append(f"automatic: never played: {' '.join(missing)}")
    asked = ", ".join(f"{number} {word}" for word, number in sorted(total.counts.items()))
    return (
        f"{count} zones, {sum(total.done.values())} rolls by what a policy says ({asked}): at "
        f"{total.instants} instants {total.choices} choices of sets are as promised"
    )


def lies(wrong: list[str]) -> str:
    """Plays operators who note what isn't true, until one of their zones is broken."""
    zones = 0
    for lie in (EARLY, HALF):
        for zone in range(60):
            zones += 1
            if play(zone, lie).fault:
                break
        else:
            wrong.append(f"automatic: no zone breaks by notes that say {lie}")
    return f"by 2 kinds of untrue notes some zone of {zones} breaks"


def zones_of(rolls: int, first: int = 0) -> range:
    """Zones from this one on, which make so many rolls at least."""
    return range(first, first - (-rolls // ROLLS_OF_A_ZONE))


def test_automatic_zones(program, say):
    wrong: list[str] = []
    say(f"automatic: {follow(zones_of(ROLLS_IN_THE_GATE), 1, wrong)}")
    assert wrong == []


def test_automatic_lies(program, say):
    wrong: list[str] = []
    say(f"automatic: {lies(wrong)}")
    assert wrong == []


def main() -> int:
    began, wrong = time.monotonic(), []
    least, first, jobs = map(int, sys.argv[1:])
    try:
        print(f"automatic: {follow(zones_of(least, first), jobs, wrong)}", flush=True)
        print(f"automatic: {lies(wrong)}")
    except WrongAnswer as fault:
        wrong.append(f"automatic: {fault}")
    print(*wrong, sep="\n", end="\n" if wrong else "")
    print(f"automatic: {time.monotonic() - began:.0f} s, {'FAILED' if wrong else 'passed'}")
    return 1 if wrong else 0


if __name__ == "__main__":
    sys.exit(main())
