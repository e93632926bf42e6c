"""A tick of one zone: does whatever is due by its policy, one deed after another, each on disk
before the next. It may be killed anywhere, and run again at any time.

What is to be done next the proved key set says (`advice`). What it doesn't speak of is done here:
CDS goes out before a report of the DS set, signatures are renewed before they run low, and the
files of keys that have left are moved away."""

from __future__ import annotations

import functools
from argparse import Namespace
from dataclasses import dataclass, field
from pathlib import Path
from typing import TYPE_CHECKING

from keyset import Action, Notes, WrongArgument
from keyset.notes import Seen

from . import act, advice, calling, expecting, hooks, parents, parsing, policies, resting
from . import shortnames, signers, status, watching, words
from .advice import Advice
from .ending import PARENT_LACKS, REFUSED, RUN_LOW, STUCK, Clock, Deed, End, EndOfTick, Log
from .errors import BROKEN, DUE, OK, WARNING, Failure
from .journal import Journal, UnsignedFile
from .keymaking import Maker
from .keysets import KeySets
from .policies import Policy
from .standing import Standing, ZonePaths
from .zonefile import KeyId

if TYPE_CHECKING:
    from .zone_status import ZoneStatus

# A tick makes at most so many deeds, and tries so many keys for one whose tag is free.
DEEDS, TRIES = 50, 8
WEEK = 7 * policies.DAY
# These signers keep the signed zone in a file.
OF_FILES = ("bind", "ldns")
TAKEN = "Key tag already present"


@dataclass
class Tick:
    """A tick of a script by its policy. `acts` are those of this tick, by the number of lines,
    their options, and the unsigned zone; `last_standing` is what it has read of the signed file;
    `is_cds_out` says that no server gives CDS any more; and `deeds` is how many it has done."""

    script: Path
    policy: Policy
    clock: Clock
    log: Log
    journal: Journal
    most: int = DEEDS
    lines: list[str] = field(default_factory=list)
    # (It is there with the lines, once they are read.)
    zone_status: ZoneStatus = field(init=False)
    acts: set[tuple[int, tuple[str, ...], UnsignedFile]] = field(default_factory=set)
    is_cds_out: bool = False
    deeds: int = 0
    last_standing: tuple[list[int] | None, Standing | None] | None = None

    # ---- the loop

    def run(self) -> End:
        """Does what is due, until nothing is left or somebody else is waited for."""
        try:
            for _ in range(self.most):
                self.read()
                self.step()
            return End(DUE, "more is due: run it again")
        except EndOfTick as done:
            if done.end.status < WARNING:
                self.clear_away()
            return done.end

    def read(self) -> None:
        """Reads the script, and expects that a tick can go on from it."""
        self.lines, self.zone_status = status.read(self.script, self.clock())
        self.notes = Notes(self.script)
        expecting.expect_chain(self.zone_status)
        expecting.expect_notes(self.notes)
        expecting.expect_clock(self.lines, self.notes, self.clock, self.policy)

    def step(self) -> None:
        """One deed, by what is most urgent."""
        self.say("key in place", self.maker.place(self.lines))
        if why := self.act_is_due():
            self.publish(why)
        else:
            self.do(self.of_early_ends() or self.next())

    def of_early_ends(self) -> Advice | None:
        """What brings the sets to all servers that early ends have asked for. No roll begins before
        that is so."""
        seen = Seen(self.notes.lines, self.clock())
        for ended in self.zone_status.ended:
            abort = f"abort {ended.roll.value}"
            call = max(number for number, line in enumerate(self.lines) if line == abort)
            for kind in words.kinds_of(ended.asked):
                if seen.calls.get(kind, 0) < call:
                    return Advice(advice.PUBLISH, f"publish {kind}")
                if not seen.is_everywhere.get(kind):
                    return Advice(advice.WATCH, f"watch {kind}")
            if Action.CREATE_CDS_RRSET in ended.asked and not self.is_cds_out:
                self.take_cds_out()
        return None

    def do(self, next_deed: Advice) -> None:
        """What is said."""
        {
            advice.CALL: self.call, advice.PUBLISH: self.publish_next, advice.WATCH: self.watch,
            advice.KEY: self.make_key, advice.UNTIL: self.rest, advice.NOTHING: self.rest,
        }[next_deed.word](next_deed)

    def next(self) -> Advice:
        now = int(self.clock())
        policy = self.policy.for_program(self.journal.once, now)
        return advice.said(policy, self.lines, self.notes.lines, now)

    def say(self, deed: str, texts: list[str]) -> None:
        for text in texts:
            self.deeds += 1
            self.log(Deed(int(self.clock()), self.zone, deed, text))

    # ---- what stands in place

    @property
    def zone(self) -> str:
        return self.zone_status.zone if self.lines else self.script.stem

    @functools.cached_property
    def maker(self) -> Maker:
        folder = Path(self.policy.keys or self.script.parent)
        return Maker(self.zone, self.policy, folder, self.script.stem)

    @functools.cached_property
    def places(self) -> ZonePaths:
        return ZonePaths.of(self.script, self.zone, self.policy)

    def standing(self) -> Standing | None:
        """What stands in place. It is read again only if it has changed."""
        stamp = resting.stamp(self.places.signed) if self.is_of_file else [len(self.acts)]
        if self.last_standing is None or self.last_standing[0] != stamp:
            self.last_standing = stamp, self._standing()
        return self.last_standing[1]

    def _standing(self) -> Standing | None:
        if self.is_of_file:
            return Standing.of(self.places.signed, self.zone)
        return Standing.of_sets(self.signer().now())

    def act_is_due(self) -> str | None:
        """Why something has to be published now, whatever is said next."""
        if not self.zone_status.has_sets:
            return None
        if self.journal.is_begun:
            return "an act was not ended"
        stands = self.standing()
        if stands is None:
            return None if self.places.signed.exists() else "the signed zone is missing"
        if not stands.is_due(self.zone_status):
            return "other keys are due"
        if self.journal.unsigned != UnsignedFile.of(self.places.unsigned):
            return "the unsigned zone has changed"
        renew = self.renew_from(stands)
        return "signatures run low" if renew is not None and renew <= self.clock() else None

    @property
    def is_of_file(self) -> bool:
        """Whether the signer keeps the signed zone in a file."""
        return self.policy.signer in OF_FILES

    def signer(self) -> signers.Signer:
        args = parsed(self.policy.for_act(self.script))
        return signers.of(args, act.Act(args, self.clock(), []))

    def renew_from(self, stands: Standing) -> int | None:
        """When signatures are to be renewed. A signer that runs does so by itself: it is asked each
        week for a new serial, so that secondaries get them."""
        if not self.is_of_file:
            return None if self.journal.ended is None else self.journal.ended + WEEK
        ends = stands.expires(self.away())
        return None if ends is None else ends - self.policy.renews_before

    def low_from(self, stands: Standing) -> int | None:
        """When a person has to see that signatures run low: if they aren't renewed in the first
        half of the time for it. Those by keys that are away nobody renews here."""
        ends = stands.expires(set())
        return None if ends is None else ends - self.policy.renews_before // 2

    def signed_until(self) -> int | None:
        """When the first signature expires, as far as the last look at the signed file knows."""
        stands = self.last_standing[1] if self.last_standing is not None else None
        return None if stands is None else stands.expires(set())

    def of_signatures(self, end: End) -> End:
        """The end of a tick, which needs a person if signatures run low."""
        is_read = end.status < BROKEN and self.lines
        stands = self.standing() if is_read and self.is_of_file else None
        low = None if stands is None else self.low_from(stands)
        if low is None or low > self.clock():
            return end
        ends = words.moment(low + self.policy.renews_before // 2)
        return End(WARNING, f"signatures expire at {ends}; {end.text}", end.until, RUN_LOW)

    def away(self) -> set[KeyId]:
        """The keys whose private half isn't here."""
        keys = KeySets(self.zone_status, [self.maker.folder])
        return set(keys.by(name for name in keys.files if keys.is_away(name)))

    # ---- deeds

    def publish_next(self, next_deed: Advice) -> None:
        """Publishes what is said. Of a DS set an act notes that it is due, and publishes CDS."""
        self.publish(next_deed.line)

    def publish(self, why: str, *options: str) -> None:
        """An act, with these options. If it was made in this tick and is still due, a person has to
        see why."""
        made = len(self.lines), options, UnsignedFile.of(self.places.unsigned)
        if made in self.acts:
            raise EndOfTick(WARNING, f"it was published, and still {why}: what does the signer do?")
        self.acts.add(made)
        self.journal.begin(self.clock(), made[2])
        did, _ = act.perform(parsed([*self.policy.for_act(self.script), *options]), self.clock)
        if self.policy.reload:
            hooks.run(hooks.filled(self.policy.reload, self.zone))
        self.journal.end(self.clock())
        cds = ", with CDS" if did.has_cds else ""
        dnskey = words.listed(self.zone_status.published.dnskey)
        self.say("published", [f"{why}: {dnskey}{cds}"])

    def call(self, next_deed: Advice) -> None:
        """Makes the call that is said. Before a report of the DS set, or the end of a roll that
        waits for it, CDS is out; then the call is asked for once more, with its moment."""
        word, roll = next_deed.line.split(" ")[:2]
        if word == "start":
            expecting.expect_able(next_deed.line, self.lines, self.script, self.zone, self.policy)
        kinds = self.kinds().get(roll, []) if word in ("report1", "report2", "done") else []
        if "ds" in kinds and not self.is_cds_out:
            self.take_cds_out()
            self.is_cds_out = True
            self.read()
            self.do(self.next())
            return
        line = self.reported(next_deed.line) if word.startswith("report") else next_deed.line
        made = calling.call(self.script, line, self.clock, known=self.lines)
        if not made.kept:
            raise EndOfTick(WARNING, "; ".join(made.text()), event=REFUSED)
        self.is_cds_out = False
        self.say("called", [f"{made.line}: {made.reply}"])

    def reported(self, line: str) -> str:
        """A report with the TTL that is said, and what clocks may differ by: one may be behind at
        the report, and ahead at the wait."""
        word, roll, ttl, moment = line.split(" ")
        return f"{word} {roll} {int(ttl) + 2 * self.policy.clock} {moment}"

    def kinds(self) -> dict[str, list[str]]:
        """The kinds of sets that each roll in progress asks to watch."""
        asked = self.zone_status.asked()
        return {roll: words.kinds_of(actions) for roll, actions in asked.items()}

    def make_key(self, next_deed: Advice) -> None:
        """A key of the role that is said, with a tag that no other has."""
        role, algorithm = next_deed.fields[0], int(next_deed.fields[1])
        for _ in range(TRIES):
            file = self.maker.make(role, algorithm)
            # (The clock of its maker may be ahead of this one.)
            file.creation = min(file.creation, int(self.clock()))
            line = file.line(role == "csk")
            made = calling.call(self.script, line, self.clock, known=self.lines)
            if made.kept:
                short = shortnames.names([*self.lines, made.line]).get(file.path.name, role)
                self.say("key made", [f"{short} {file.path.name}"])
                return
            if made.refused != TAKEN:
                raise EndOfTick(WARNING, "; ".join(made.text()), event=REFUSED)
            self.maker.clear()
        raise EndOfTick(WARNING, f"{TRIES} keys of {self.policy.keygen[0]} had tags that are taken")

    # ---- looks

    def eyes(self, kinds: list[str]) -> watching.Watcher:
        """What all servers give of these kinds. What all give is noted."""
        eyes = watching.Watcher(parsed(self.policy.for_watch(self.script)), self.clock, str)
        eyes.notes, eyes.lines = Notes(self.script), self.lines
        known = len(eyes.notes.lines)
        try:
            look = eyes.ask(self.zone_status, kinds)
            parents.note(eyes.notes, self.lines, self.zone_status, look)
            eyes.judge(look, kinds)
        except WrongArgument:
            raise
        except Failure as failure:
            raise EndOfTick(DUE, f"servers can't be asked: {failure}") from None
        self.say("noted", Notes(self.script).lines[known:])
        return eyes

    def watch(self, next_deed: Advice) -> None:
        """Looks whether all servers have it, and CDS is out after a DS set. If nothing is new, the
        zone waits for them."""
        kind, known = next_deed.fields[0], len(self.notes.lines)
        kinds = {kind, *(it for of in self.kinds().values() for it in of)}
        lacking = self.eyes(sorted(kinds)).lacking
        if kind == "ds" and {it.kind for it in lacking} & {"ds", "cds"} == {"cds"}:
            self.take_cds_out()
        if len(Notes(self.script).lines) == known:
            self.wait_for(kind, [str(it) for it in sorted(lacking) if it.kind != "cds"])

    def wait_for(self, kind: str, lacking: list[str]) -> None:
        """Servers lack it still. What the parent has to publish is handed to it by the policy."""
        hint = self.hand_to_parent() if kind == "ds" else ""
        text = "; ".join(dict.fromkeys(lacking)) or f"servers have to give {kind} once more"
        raise EndOfTick(DUE, f"{text}{hint}", event=PARENT_LACKS if kind == "ds" else STUCK)

    def hand_to_parent(self) -> str:
        """Hands the DS set that is due to the registrar once, or to the operator. The first one a
        parent may not take from CDS, as no DS set is there yet to check it by: so that is said."""
        keys = KeySets(self.zone_status, [self.maker.folder])
        records = [f"{keys.origin} IN DS {text}" for text in keys.ds([2])]
        text = f"give the parent the DS set: {'; '.join(records) or 'none'}"
        if self.policy.parent == "ask":
            raise EndOfTick(WARNING, text)
        call = Seen(self.notes.lines, self.clock()).calls["ds"]
        if self.policy.parent == "hook" and not self.journal.is_handed_over(call):
            hooks.run(self.policy.on_ds, {"zone": self.zone, "ds": records, "call": call})
            self.journal.hand_over(call, self.clock())
            self.say("DS handed over", [words.listed(self.zone_status.published.ds)])
        is_first = self.policy.parent == "cds" and not keys.has_ds
        return f". If it takes no CDS yet, {text}" if is_first else ""

    def take_cds_out(self) -> None:
        """Returns once no server gives CDS any more. If it is in still, it goes out first: by what
        stands in place, or else by what servers give."""
        stands = self.standing()
        if stands is not None and stands.has_cds:
            self.publish("CDS goes out", "--no-cds")
        lacking = self.eyes(["ds"]).lacking
        if stands is None and any(it.kind == "cds" for it in lacking):
            self.publish("CDS goes out", "--no-cds")
            lacking = self.eyes(["ds"]).lacking
        if lacking:
            raise EndOfTick(DUE, "; ".join(map(str, sorted(lacking))))

    # ---- rest

    def rest(self, next_deed: Advice) -> None:
        """Nothing is due before a moment: that which is said, or that of signatures."""
        if next_deed.is_stuck:
            raise EndOfTick(WARNING, next_deed.line.partition(": ")[2])
        until = min(self.moments(next_deed), default=None)
        rolls = [roll.roll.value for roll in self.zone_status.rolls]
        what = f"{words.listed(rolls)} waits for caches" if rolls else "nothing is due"
        when = "" if until is None else f" before {words.moment(until)}"
        raise EndOfTick(OK, f"{what}{when}", until)

    def moments(self, next_deed: Advice) -> list[int]:
        """From when on something may be due."""
        stands = self.standing()
        of_zone = [] if stands is None else [self.renew_from(stands), self.low_from(stands)]
        found = [*of_zone, *self.purges().values()]
        found += [int(next_deed.fields[0])] if next_deed.word == advice.UNTIL else []
        now = self.clock()
        return [moment for moment in found if moment is not None and moment > now]

    def purges(self) -> dict[str, int]:
        """When the files of each key that has left are to be deleted."""
        purge = self.policy.purge
        return {} if purge is None else {
            name: left + purge for name, left in self.journal.left.items()}

    def clear_away(self) -> None:
        """Moves away the files of keys that have left, and in time deletes them."""
        for name in self.maker.remove(self.lines):
            self.journal.leave(name, self.clock())
            self.say("moved away", [name])
        for name, moment in self.purges().items():
            if moment <= self.clock():
                self.say("deleted", self.maker.purge(name))

    def files(self) -> list[Path]:
        """The files outside of the journal that say whether something is due."""
        own = self.script.with_suffix(policies.SUFFIX)
        of_policy = [own, own.with_name(policies.OF_FOLDER)]
        return [*of_policy, self.places.unsigned, self.places.signed]


def parsed(given: list[str]) -> Namespace:
    """The arguments of another word of this command. Standard error says what is wrong with one."""
    try:
        return parsing.parsed(given)
    except SystemExit:
        text = f"the policy has what '{given[0]}' doesn't take"
        raise Failure(f"{text}: 'vaqsider policy check SCRIPT' says what") from None
