"""A roll, call by call, as in docs/RUNBOOKS.md."""

import asyncio
import sys
import time
from pathlib import Path

from script import EARLY, CallRefusal, rounded_down, rounded_up

sys.path.append(str(Path(__file__).resolve().parent.parent / "library" / "python"))

from keyset.rolls import ROLLS, WATCHED  # noqa: E402 (it isn't installed)

KSK, DOUBLE_DS, ZSK, DOUBLE_SIGNATURE, CSK, ALGORITHM = ROLLS


def spoken_of(actions):
    """The kinds of the sets that actions as `ReportDsPropagated` speak of."""
    spoken = {WATCHED.get(action) for action in actions}
    return [kind for kind in ("dnskey", "zone", "ds") if kind in spoken]


async def at_moment(moment):
    """Waits until the clock has reached a moment."""
    await asyncio.sleep(max(0, moment - time.time()) + 0.01)


class Roll:
    """One roll of a provider. Before a call that changes the parent's DS set it takes the turn of
    the zone. It gives the turn back when the parent has acted and CDS is out again (rule 3)."""

    def __init__(self, provider, name):
        self.provider, self.zone, self.name = provider, provider.zone, name
        self.actions, self.has_turn, self.may_break = [], False, False
        self.old, self.moment, self.reported = (), None, None

    # The calls

    async def whole(self, old, new):
        """The roll from its start to its end; then the old keys are deleted."""
        await self.start(old, new)
        await self.finish()
        for ref in old:
            self.provider.call(f"delete {self.provider.named(ref)}", self.may_break)

    async def finish(self):
        """The calls after the start."""
        await self.report(1)
        await self.wait(1)
        await self.report(2)
        await self.wait(2)
        await self.done()

    async def start(self, old, new):
        await self.started(old, new)
        await self.perform()

    async def started(self, old, new):
        named, self.old = self.provider.named, old
        await self.make(lambda: f"start {self.name} {named(*old)} {named(*new)} {rounded_down()}")

    async def report(self, number, ttl=None):
        """Reports once the clock has reached the moment (rule 2), with the TTL of rule 1."""
        if not spoken_of(self.actions):
            return
        self.moment = moment = rounded_up()
        await at_moment(moment)
        self.provider.is_steady = self.is_last_of_algorithm(number)
        self.reported = self.ttl(number, moment) if ttl is None else ttl
        self.provider.call(
            f"report{number} {self.name} {self.reported} {moment}", self.may_break
        )

    async def wait(self, number):
        """Makes the wait, does what its answer asks, and watches."""
        await self.accepted(number)
        await self.perform()

    async def accepted(self, number):
        """Asks again until the wait is over."""
        while True:
            try:
                await self.make(lambda: f"wait{number} {self.name} {rounded_down()}")
                self.provider.is_steady = False
                return
            except CallRefusal as refused:
                await self.sleep(str(refused))

    async def sleep(self, refused):
        """Sleeps for as long as a refused wait says."""
        _, early, seconds = refused.partition(EARLY)
        if not early:
            raise CallRefusal(refused)
        moment = rounded_down() + int(seconds.rstrip("s"))
        await at_moment(moment)

    async def done(self):
        self.provider.call(f"done {self.name}", self.may_break)

    async def abort(self):
        """Ends the roll early, and watches until that is seen everywhere."""
        await self.make(lambda: f"abort {self.name}")
        await self.perform()

    # What they do

    async def make(self, line):
        """Makes a call. If that asks for a change at the parent, takes the turn of the zone
        before."""
        asked = self.provider.script.tried(line()).actions
        if "UpdateDsRrset" in asked and not self.has_turn:
            await self.zone.turn.acquire()
            self.has_turn = True
        self.actions = self.provider.call(line(), self.may_break)

    async def perform(self):
        """Does what the last answer asks, and watches."""
        await self.provider.act(self.actions)
        await self.watch()

    async def watch(self):
        """Watches what the answer asks to report or to wait for."""
        if "UpdateDsRrset" in self.actions:
            await self.zone.watch_ds()
            await self.provider.take_cds_out()
            self.give_turn_back()
        if set(self.actions) - {"UpdateDsRrset", "ReportDsPropagated", "WaitDsPropagated"}:
            await self.provider.watch()
        if "dnskey" in spoken_of(self.actions):
            await self.provider.watch_other()

    def give_turn_back(self):
        if self.has_turn:
            self.zone.turn.release()
            self.has_turn = False

    def counted(self):
        """The kinds of the sets whose TTL counts in a report. CDS counts too: it is a set of the
        zone, and has come and gone in this step."""
        more = ["zone"] if "UpdateDsRrset" in self.actions else []
        return [*spoken_of(self.actions), *more]

    def is_last_of_algorithm(self, number):
        """Whether a report is the second one of a roll by which old algorithms may leave."""
        return self.name == ALGORITHM and number == 2 and bool(self.old)

    def ttl(self, number, moment):
        """The highest TTL of what the report speaks of. If old algorithms leave, the sum of the DS
        TTL and the DNSKEY TTL, for which the present DNSKEY set counts too."""
        provider = self.provider
        if self.is_last_of_algorithm(number):
            return max(provider.sum_of_ds_and_dnskey(moment), provider.highest("zone", moment))
        return max(provider.highest(kind, moment) for kind in self.counted())
