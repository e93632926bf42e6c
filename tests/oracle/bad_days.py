"""Bad days of a zone, and what `next` says then: a roll that was ended early, keys that a person
set, another signer, lost keys, a clock that was set back, a TTL that no report can have."""

from __future__ import annotations

from collections.abc import Iterator
from dataclasses import dataclass, field, replace

from tests.oracle.what_next import said

POLICY = ("policy 13 ksk-roll zsk-roll", "ksk-lifetime 100000", "zsk-lifetime 10000")
TTL, BEGIN, RENEWED = 60, 1000, 11000


@dataclass
class Day:
    """A zone with its policy, its script and its notes, on a day. All servers give at once what is
    published."""

    policy: list[str] = field(default_factory=lambda: list(POLICY))
    script: list[str] = field(default_factory=lambda: ["zone example.com"])
    notes: list[str] = field(default_factory=lambda: [f"before {TTL} {TTL} {TTL}"])
    now: int = BEGIN

    def said(self) -> str:
        return said(self.policy, self.script, self.notes, self.now)

    def follows(self, last: str) -> Day:
        """Does what is said, until that begins with these words."""
        for _ in range(100):
            if (line := self.said()).startswith(last):
                return self
            word, *fields = line.split()
            if word == "publish":
                self.notes.append(f"published {fields[0]} {len(self.script) - 1} {TTL} {self.now}")
            elif word == "watch":
                self.notes.append(f"everywhere {fields[0]} {self.now}")
            elif word == "until":
                self.now = int(fields[0])
            else:
                self.script.append(self.key(fields[0]) if word == "key" else line)
        raise AssertionError(f"it never says {last}")

    def key(self, role: str, available: str = "yes") -> str:
        number = len(self.script)
        return f"add-{role} {role[0].upper()}{number} - 13 {number} {self.now} {available}"

    def calls(self, *lines: str) -> Day:
        """With calls that a person makes."""
        return replace(self, script=[*self.script, *lines])

    def at(self, now: int) -> Day:
        return replace(self, now=now)

    def but(self, *policy: str) -> Day:
        """With another policy."""
        return replace(self, policy=list(policy))


def at_rest() -> Day:
    """A zone with the keys K1 and Z2, which is as its policy wants it."""
    return Day().follows(f"until {RENEWED}")


def in_a_roll(last: str) -> Day:
    """In a roll of its ZSK, in which Z9 comes, until what is said begins with these words."""
    return at_rest().at(RENEWED).follows(last)


def by_hand(day: Day, call: str) -> str:
    """What is said after this call, the first by hand."""
    return f"nothing: call {day.script.index(call)} was made by hand"


def with_another_signer() -> Day:
    return at_rest().calls("add-public P1 13 90 1200 yes", "set-present P1 yes 1200").at(1200)


# What has happened, the day, and what is said on it.
Row = tuple[str, Day, str]


def touched() -> Iterator[Row]:
    """Rolls that a person ended early, and keys whose flags or times he set."""
    on_demand = POLICY[0]
    early = in_a_roll("publish").calls("abort zsk-roll")
    yield "a roll ended early, and is due", early, by_hand(early, "abort zsk-roll")
    yield "a roll ended early", early.but(on_demand), by_hand(early, "abort zsk-roll")
    for call in ("set-at-parent K1 no", "set-stale Z2", "set-signer Z2 no", "set-visible Z2 1",
                 "set-ds-visible K1 1", "set-rrsig-visible Z2 1", "set-present Z2 no 1200"):
        day = at_rest().calls(call)
        yield f"{call}, by hand", day, by_hand(day, call)
    yield "a key apart from the storage", at_rest().calls("set-decoupled Z2 yes"), (
        f"until {RENEWED}")
    yield "a refused call by hand", at_rest().calls("set-stale none", "abort ksk-roll"), (
        f"until {RENEWED}")
    calls = ("set-stale Z9", "add-zsk Z50 - 13 50 11001 yes", "set-present Z50 yes 11001")
    day = in_a_roll("until").calls(*calls)
    yield "a new key set by hand", day, by_hand(day, calls[0])


def shared() -> Iterator[Row]:
    """Keys of another signer."""
    other = with_another_signer()
    yield "another signer's key", other, f"until {RENEWED}"
    yield "another signer's key beside a roll", other.but(*POLICY).at(RENEWED), "key zsk 13"
    yield "another signer's key that left", other.calls("set-present P1 no 1300"), (
        f"until {RENEWED}")
    stale = other.calls("set-stale P1")
    yield "another signer's key set stale", stale, by_hand(stale, "set-stale P1")


def lost() -> Iterator[Row]:
    """Private halves that are gone."""
    lost = at_rest().but(POLICY[0], "zsk-once 2000").at(2000)
    yield "a lost ZSK", lost, "key zsk 13"
    yield "a lost ZSK, with another", lost.calls("add-zsk Z9 - 13 9 2000 yes"), (
        "start zsk-roll Z2 Z9 2000")
    unusable = lost.calls("add-zsk Z9 - 13 9 2000 no")
    yield "a lost ZSK, with another that is lost too", unusable, "key zsk 13"


def timed() -> Iterator[Row]:
    """Clocks that were set back, and TTLs that no report can have, or no wait."""
    yield "a clock set back at rest", at_rest().at(500), f"until {RENEWED}"
    yield "a clock set back before a report", in_a_roll("report1").at(500), "watch dnskey"
    yield "a clock set back in a wait", in_a_roll("until").at(500), "until 11061"
    yield "a clock set back before the end", in_a_roll("done").at(500), "watch dnskey"
    endless = Day([POLICY[0]], notes=[f"before {TTL} {2**32 - 1} {TTL}"]).follows("until")
    yield "a TTL past 32 bits", endless, f"until {BEGIN + 1}"
    late = Day([POLICY[0], "ksk-lifetime 995", "zsk-lifetime 930"], now=2**64 - 1000)
    yield "a wait without end, beside a lifetime", late.follows("nothing"), (
        "nothing: the wait of zsk-roll ends after all time")


def days() -> Iterator[Row]:
    """All of them."""
    for rows in (touched, shared, lost, timed):
        yield from rows()
