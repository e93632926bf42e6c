"""Operators who follow the guides, as runbooks.py plays them: whatever caches may hold has a chain.
Without one point of the guides some zone breaks, in the way that belongs to it."""

import random
from collections import Counter
from itertools import permutations

import pytest

from judge import chain_line
from keyset.rolls import ALGORITHM_ROLL, KSK_DOUBLE_DS_ROLL, ROLLS
from tests.oracle.book import EARLY_END, FIRST_KEYS, left_out, read_book
from tests.oracle.course import BESIDE, SLIPS
from tests.oracle.pair import JOINED, LEFT
from tests.oracle.points import BREAKS, NO_CHAIN, ORDERS, PAIRS, POINTS
from tests.oracle.runbooks import play
from tests.oracle.signer import GONE

# How many zones break without a point, of how many at most.
BROKEN, ZONES = 3, 60


@pytest.fixture(scope="module")
def guides():
    return read_book()


def test_guides_have_each_point():
    assert left_out(POINTS + PAIRS) == frozenset()


def test_one_signer(guides, say):
    orders = random.Random(0).sample([*permutations(ROLLS)], 60)
    orders += [[roll] * 8 for roll in (KSK_DOUBLE_DS_ROLL, ALGORITHM_ROLL) for _ in range(5)]
    follow("one signer", orders, guides, say)


def test_two_signers(guides, say):
    follow("two signers", [None] * 40, guides, say)


@pytest.mark.parametrize("point", POINTS + PAIRS, ids=lambda point: point.name)
def test_without(point, guides, broken):
    """Zones break in the way that belongs to this point."""
    broken[point in PAIRS, "points"] += 1
    ways = Counter()
    for zone in range(ZONES):
        broken[point in PAIRS, "zones"] += 1
        if fault := play(zone, order_of(point, zone), guides, frozenset([point]))[2]:
            ways[fault.how] += 1
        if ways.total() == BROKEN:
            break
    assert ways[BREAKS.get(point, NO_CHAIN)], f"of {zone + 1} zones: {dict(ways)}"


@pytest.fixture(scope="module")
def broken(counts, say):
    """Counts points that are left out, and zones without them."""
    yield counts
    for is_pair, signers in enumerate(("one signer", "two")):
        say(f"runbooks: each of {counts[is_pair, 'points']} points of {signers} left out breaks"
            f" {BROKEN} zones at most, of {counts[is_pair, 'zones']}")


def order_of(point, zone):
    """The rolls of a zone without a point; none, if it has two signers."""
    drawn = None if point in PAIRS else random.Random(zone).sample([*ROLLS], len(ROLLS))
    return ORDERS.get(point, drawn)


def follow(signers, orders, guides, say):
    """Plays operators who follow the guides, each with a zone."""
    leaves = left_out(POINTS + PAIRS)
    done, instants, choices, wrong = Counter(), 0, 0, []
    for seed, order in enumerate(orders):
        world, operators, fault = play(seed, order, guides, leaves)
        # (The verdict takes longer than the game.)
        lasts = {chain_line(one.keyset.record) for one in operators if seed % 40 == 0}
        if fault or lasts - {"chain safe"}:
            rolls = " beside ".join(roll for one in operators for roll in one.keyset.phases)
            zone = f"zone {seed}, {' '.join(order or ['two signers'])}"
            wrong.append(f"{zone}: in {rolls or 'no roll'}: {fault or lasts}")
        for one in operators:
            done.update(one.done)
        instants, choices = instants + world.instants, choices + world.choices
    say(f"runbooks: {signers}: {summary(orders, done)}: at {instants} instants {choices} choices of"
        " sets are as promised")
    assert wrong == []


def summary(orders, done):
    counted = {"beside another": BESIDE, "early ends": EARLY_END, "false lines": SLIPS,
               "times first keys": FIRST_KEYS, "times unsigned": GONE, "joined": JOINED,
               "left": LEFT}
    rolls = sum(done[roll] for roll in ROLLS)
    parts = [f"{done[what]} {words}" for words, what in counted.items()]
    return ", ".join([f"{len(orders)} zones", f"{rolls} rolls", *parts])
