"""Networks of the game, premise by premise.

Zones of `tests/oracle/runbooks.py` whose operators follow the guides are networks of their records.
Each premise of the theorems on resolvers is checked up to each instant at which what caches may
hold changes, by the definitions of `crates/dnssec_network/specs`, which `tests/oracle/network.py`
has written again; and each choice of sets that caches may hold then has a chain of trust. Some
zones make all six rolls, by notes. Others have two signers, one of which may join or leave: they
keep the guide's rules as these are defined. If a signer leaves out a point that the definition has,
it isn't met in some zone.
"""

import random
from itertools import permutations, product

import pytest

from judge import has_chain
from keyset.rolls import ROLLS
from tests.oracle import runbooks
from tests.oracle.book import left_out, read_book
from tests.oracle.network import KINDS, Network, names
from tests.oracle.notes import GameNotes
from tests.oracle.pair import Pair
from tests.oracle.points import (
    DS_ALONE, DS_OWN, JOINS_EARLY, KEYS_UNSEEN, LEAVES_EARLY, OTHER_TTL, PAIRS, POINTS, TAKEN_OUT,
)
from tests.oracle.signer import Standstill
from tests.oracle.zone import SECOND, CacheFault, World

ZONES, TWO = 2, 4
# Points of the guide for two signers that its definition has.
GUIDE = KEYS_UNSEEN, OTHER_TTL, TAKEN_OUT, DS_ALONE, DS_OWN, JOINS_EARLY, LEAVES_EARLY


def chains(network, time):
    """The choices of sets that caches may hold at a time, and those without a chain."""
    held = [[version.position for version in network.held(kind, time)] for kind in KINDS]
    choices = set(product(*held))
    return len(choices), [
        f"no chain at {time}: {choice}" for choice in choices
        if not has_chain(*sets(network.record, *choice))
    ]


def sets(record, ds, dnskey, zone):
    return record[ds].ds, record[dnskey].dnskey, record[dnskey].signers, record[zone].zone


def alone(seed, order, book, unsaid):
    """A zone of one signer, whose reports are by notes. Gives instants, choices and faults."""
    _, signers, fault = runbooks.play(
        seed, order, book, unsaid, lambda one: GameNotes(one, True)
    )
    [one] = signers
    network, choices, faults = Network(one), 0, [str(fault)] if fault else []
    times = network.breakpoints()
    for now in times:
        number, broken = chains(network, now)
        choices += number
        faults += broken + list(network.reports_are_true(now))
    for premise in (network.is_network, network.none_lies_ahead, network.none_goes_back,
                    network.is_renewed, network.notes_are_true):
        faults += premise(times[-1])
    return len(times), choices, faults


def pair(seed, book, unsaid):
    """A zone of two signers, whose clocks agree and who make no false lines."""
    world = World(random.Random(seed), unsaid)
    both, fault = Pair(world, book, unsaid), None
    ever = []
    try:
        for _ in both.course():
            for signer in both.signers():
                if signer not in ever:
                    ever.append(signer)
                    signer.ahead, signer.margin, signer.may_slip = [0], 0, False
                signer.lives()
            world.tick()
    except (CacheFault, Standstill) as stopped:
        fault = stopped
    return ever, [str(fault)] if fault else []


def between(signers):
    """The networks of two signers, and the instants at which what caches may hold changes, from
    when both are asked up to when one isn't any more."""
    networks = [Network(one) for one in signers]
    begin = max(network.start for network in networks)
    end = min(network.end for network in networks)
    every = {now for network in networks for now in network.breakpoints()}
    return networks, sorted(now for now in every if begin <= now < end)


def two(seed, book, unsaid):
    """Gives instants, choices and faults of a zone of two signers."""
    signers, faults = pair(seed, book, unsaid)
    networks, times = between(signers)
    choices = 0
    for now in times:
        for network in networks:
            faults += network.reports_are_true(now)
        for keeper, signer in (networks, networks[::-1]):
            faults += publishes_keys(keeper, signer, now)
            number, broken = public_chains(keeper, signer, now)
            choices, faults = choices + number, faults + broken
    for network in networks:
        faults += [*network.is_network(times[-1]), *network.none_lies_ahead(times[-1])]
    faults += keeps_guide(networks, times)
    return len(times), choices, faults


def until_unmet(point, book, unsaid):
    """How many zones it takes until one doesn't keep the guide's rules as they are defined, if its
    signers leave this point out; None if all do."""
    for seed in range(20):
        signers, _ = pair(seed, book, unsaid | {point})
        if len(signers) == 2:
            networks, times = between(signers)
            if times and any(keeps_guide(networks, times)):
                return seed + 1
    return None


def keeps_guide(networks, times):
    """`KeepKeyRules` and `HaveDsTogether`, up to the last of these instants"""
    for both in (networks, networks[::-1]):
        yield from keep_key_rules(*both, times[-1])
    for now in times:
        yield from have_ds_together(*networks, now)


def have_ds_together(one, other, now):
    """`HaveDsTogether`"""
    parent = one.world.parent
    for number, version in enumerate(parent.versions):
        ds = version["ds"].value
        if ds and is_held(parent, number, now) and not (ds & one.own and ds & other.own):
            yield f"both: at {now} a DS set has keys of one only: {sorted(ds)}"


def had_since(signer, base, time):
    """The zone keys that the signer's sets have had since this position: `HasHadSince`."""
    return frozenset.intersection(*(
        keys for keys, made in zip(signer.zone_keys[base:], signer.made_at[base:]) if made <= time
    ))


def lacks(keeper, position, signer, base, time):
    """Not `HasKeysSince`"""
    return had_since(signer, base, time) - names(keeper.record[position].dnskey)


def publishes_keys(keeper, signer, now):
    """`PublishesKeysOf`"""
    bases = {signer.first} | {report.base for report in signer.reports(now)
                              if "dnskey" in report.came and report.over() <= now}
    for base, version in product(bases, keeper.held("dnskey", now)):
        if lacks(keeper, version.position, signer, base, now):
            yield f"at {now} a set lacks a zone key that the other has had since {base}"


def keep_key_rules(keeper, signer, time):
    """`KeepKeyRules`, up to a time at which both are asked."""
    begin = max(keeper.start, signer.start)
    reports = [report for report in signer.reports(time) if "dnskey" in report.came]
    reported = [(signer.first, signer.start)]
    reported += [(report.base, report.moment * SECOND) for report in reports]
    for base, moment in reported:
        seen = max(moment, begin)
        for position in under_way(keeper, seen) if seen <= time else ():
            if lacks(keeper, position, signer, base, seen):
                yield f"comes: at {seen} the set of {position} lacks a key of {base}"
        for version in keeper.held("dnskey", begin) if moment <= begin else ():
            if lacks(keeper, version.position, signer, base, begin):
                yield f"joins: the set of {version.position} lacks a key of {base}"
    yield from stays(keeper, signer, begin, time)
    for report in reports:
        if signer.made_at[report.base] > report.moment * SECOND:
            yield f"after: report {report.at} is of before its step"
        if begin < report.moment * SECOND:
            yield from counted(keeper, signer, report)


def stays(keeper, signer, begin, time):
    """The field of this name: an old key leaves only after it has left the other's own set."""
    for position, made in enumerate(keeper.made_at[1:], 1):
        if begin < made <= time:
            now = max(q for q, made_by in enumerate(signer.made_at) if made_by <= made)
            before, then = (names(keeper.record[p].dnskey) for p in (position - 1, position))
            if (before - then) & signer.zone_keys[now]:
                yield f"stays: call {position} takes a key of the other out"


def counted(keeper, signer, report):
    """The field of this name: what lasts longer than the report's TTL has the keys already."""
    moment = report.moment * SECOND
    for version in keeper.versions["dnskey"]:
        lasts = any(
            begin < moment and report.over() < min(end, moment) - 1 + (version.ttl + 1) * SECOND
            for begin, end in version.spans
        )
        if lasts and lacks(keeper, version.position, signer, report.base, moment):
            yield f"counted: report {report.at} doesn't count the TTL of {version.position}"


def under_way(keeper, time):
    """The positions whose DNSKEY sets servers give at a time, or have still to get."""
    least = min((version.position for version in keeper.versions["dnskey"]
                 for begin, end in version.spans if begin <= time < end), default=0)
    return [p for p in range(least, len(keeper.record)) if keeper.made_at[p] <= time]


def public_chains(keeper, signer, now):
    """The choices of a DS set, a DNSKEY set of the keeper and signatures of the other that caches
    may hold, and those without a chain."""
    parent = keeper.world.parent
    held = {
        names_of for number, version in enumerate(parent.versions)
        if (names_of := version["ds"].value) is not None and is_held(parent, number, now)
    }
    dnskey = {v.position for v in keeper.held("dnskey", now)}
    zone = {v.position for v in signer.held("zone", now)}
    choices = [*product(held, dnskey, zone)]
    return len(choices), [
        f"no chain at {now}" for ds, q, z in choices
        if not has_chain(ds, names(keeper.record[q].dnskey), names(keeper.record[q].signers),
                         names(signer.record[z].zone))
    ]


def is_held(parent, number, now):
    """Whether a cache may hold this version of the parent's."""
    world = parent.world
    for history in parent.history:
        ends = [time for time, _ in history[1:]] + [float("inf")]
        for (begin, at), end in zip(history, ends):
            since = min(end - 1, now)
            ttl = world.keeps(parent.versions[at]["ds"].ttl)
            if at == number and begin <= since and now < since + (ttl + 1) * SECOND:
                return True
    return False


ORDERS = random.Random(1).sample([*permutations(ROLLS)], ZONES)


@pytest.fixture(scope="module")
def guides():
    """The book, and the points that the guides don't say."""
    return read_book(), left_out(POINTS + PAIRS)


@pytest.fixture(scope="module")
def networks(counts, say):
    """Counts what networks have."""
    yield counts
    say(f"networks: {counts['zones']} zones with all six rolls, and {counts['two']} with two"
        f" signers, meet each premise at {counts['instants']} instants; {counts['choices']} choices"
        f" of sets have a chain; {counts['points']} points left out, of which each is found within"
        f" {counts['most']} zones")


@pytest.mark.parametrize("zone", range(ZONES))
def test_one_signer(zone, guides, networks):
    networks["zones"] += 1
    expect_premises(alone(zone, ORDERS[zone], *guides), networks)


@pytest.mark.parametrize("zone", range(TWO))
def test_two_signers(zone, guides, networks):
    networks["two"] += 1
    expect_premises(two(zone, *guides), networks)


@pytest.mark.parametrize("point", GUIDE, ids=lambda point: point.name)
def test_without(point, guides, networks):
    """Within the guide's rules as they are defined no zone is without this point."""
    book, unsaid = guides
    networks["points"] += 1
    number = until_unmet(point, book, frozenset(unsaid))
    assert number is not None
    networks["most"] = max(networks["most"], number)


def expect_premises(findings, networks):
    instants, choices, faults = findings
    networks["instants"] += instants
    networks["choices"] += choices
    assert faults[:3] == []
