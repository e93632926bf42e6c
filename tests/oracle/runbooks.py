"""Plays operators who follow `docs/courses.json` to the letter, from which the lists of
`docs/RUNBOOKS.md` are made, and looks at whatever caches may hold. There is no network, and the
only clock is the game's. The key set is that of `replay/tables.py`.

The game has a zone and its parent, whose servers get each version one by one. The parent's DS set
is changed by hand, or the parent reads CDS as in RFC 7344, section 4.1. TTLs rise and fall at any
time, and signatures expire. The operator has some machines, whose clocks differ. Each zone gets its
first keys, then the six rolls in some order. Some of them are ended early and begun again, and some
go beside another one. Then the zone goes unsigned and comes back. Now and then a wait is accepted
too early because of a false moment, acted upon and mended. After that all has to be as promised.

Other zones have two signers, each with a key set, servers and clocks of its own. They begin
together, or one joins. Each makes rolls, and both change the algorithm. Then one leaves, or both go
unsigned and come back.

Whenever a server gets another version, the game looks at every choice of sets that some cache may
hold then. A cache may hold a set for its TTL after the last server ceased to give it, in seconds
that begin at any instant. A validator also keeps a DNSKEY set that it has checked by a DS set for
the TTL of the DNSKEY set, whatever becomes of the DS set. So the game looks at a DS set, a DNSKEY
set checked by it, and signatures of the zone together. They have to form a chain of trust, with a
signature by each algorithm of the DS set. The same goes for CDS. And no cache may hold a set longer
than its signatures are valid.

Then come operators who don't follow the guides in one point. Each point has to break some zone, in
the way that belongs to it. If the guides don't say a point, all operators leave it out
(test_runbooks.py).
"""

import random

from tests.oracle.course import Follower
from tests.oracle.pair import Pair
from tests.oracle.signer import Standstill
from tests.oracle.zone import CacheFault, World


def play(seed, order, book, leaves, make_notes=None):
    """Plays a zone with one signer, or with two if there is no order. Gives its world, its signers,
    and what broke, if anything did. `make_notes` makes the notes of one signer."""
    world = World(random.Random(seed), leaves)
    if order is None:
        pair = Pair(world, book, leaves)
        course, signers = pair.course(), pair.signers
    else:
        one = Follower(world, book, leaves)
        one.notes = make_notes and make_notes(one)
        course, signers = one.course(order), lambda: [one]
    ever = {}
    try:
        for _ in course:
            ever |= dict.fromkeys(signers())
            for signer in signers():
                signer.lives()
            world.tick()
    except (CacheFault, Standstill) as fault:
        return world, ever, fault
    return world, ever, None
