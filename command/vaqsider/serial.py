"""Serial numbers of zones (RFC 1982). A secondary takes a version only if its serial is above its
own."""

from __future__ import annotations

from typing import cast

from . import words
from .errors import Failure

NUMBERS, HALF = 2**32, 2**31
POLICIES = ("unixtime", "increment", "date", "keep")


def is_above(one: int, other: int) -> bool:
    """Whether a secondary with the other serial takes a version with this one (section 3.2)."""
    return 0 < (one - other) % NUMBERS < HALF


def after(serial: int) -> int:
    """The next serial. 0 is left out: some servers take it for none."""
    return (serial + 1) % NUMBERS or 1


def following(policy: str, unsigned: int, signed: int | None, now: float) -> int:
    """The serial of the next version, above those of the last one and of the unsigned zone."""
    is_newer = signed is None or is_above(unsigned, signed)
    if policy == "keep":
        if not is_newer:
            raise Failure(f"the unsigned zone's serial {unsigned} isn't above {signed}, which "
                          "secondaries have by now: raise it, or leave out --serial keep")
        return unsigned
    # (Without a signed version the unsigned one is newer.)
    last = unsigned if is_newer else cast(int, signed)
    wishes = {"unixtime": int(now), "date": int(words.utc(now, "%Y%m%d00")), "increment": last}
    wish = wishes[policy] % NUMBERS
    return wish if is_above(wish, last) else after(last)
