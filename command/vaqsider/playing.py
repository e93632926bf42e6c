"""The course of a zone under its policy, played in memory: what would be said next, done at once,
and seen on all servers after the usual time."""

from __future__ import annotations

from dataclasses import dataclass, field
from typing import Iterable, Iterator

from keyset import RollType
from keyset.notes import KINDS, Seen, to_report

from . import advice, plan, words
from .advice import Advice
from .errors import UNAVAILABLE, Failure
from .plan import Step
from .policies import Policy
from .signers import PlanSigner

# A course of so many deeds at one moment goes round in circles.
MOST_AT_ONCE = 1000


@dataclass
class Play:
    """A zone that is played from a moment on, with these lines and notes. TTLs, and delays until
    all servers have a version, are by kind of set. `once` has the moments at which rolls of a role
    were asked for. What the signer can't do ends the course, if there is one."""

    policy: Policy
    lines: list[str]
    notes: list[str]
    moment: int
    ttls: dict[str, int]
    delays: dict[str, int]
    once: dict[str, int] = field(default_factory=dict)
    signer: PlanSigner | None = None
    there: dict[str, int] = field(default_factory=dict)
    key_count: int = 0

    def __post_init__(self) -> None:
        self.course = plan.Plan(
            self.lines, self.moment, self.ttls, self.delays, self.signer)
        self.lines = list(self.course.keys.lines)
        self.notes = self.notes or [f"before {' '.join(str(self.ttls[kind]) for kind in KINDS)}"]

    @property
    def steps(self) -> list[Step]:
        return self.course.steps

    def until(self, end: int) -> list[Step]:
        """Plays to this moment. Gives each call with its moment and what it asks."""
        deeds, last = 0, self.moment
        while self.moment < end:
            policy = self.policy.for_program(self.once, self.moment)
            said = advice.said(policy, self.lines, self.notes, self.moment)
            if said.word == advice.NOTHING:
                break
            self._do(said)
            deeds, last = (deeds + 1, last) if self.moment == last else (0, self.moment)
            if deeds > MOST_AT_ONCE:
                raise Failure(f"it stands still: {said.line}", UNAVAILABLE)
        return [step for step in self.steps if step.moment < end]

    def _do(self, next_deed: Advice) -> None:
        if next_deed.word == advice.CALL:
            self._call(next_deed.line)
        elif next_deed.word == advice.KEY:
            self._call(self._key(*next_deed.fields))
        elif next_deed.word == advice.UNTIL:
            self.moment = max(self.moment + 1, int(next_deed.fields[0]))
        elif next_deed.word == advice.PUBLISH:
            self._publish()
        else:
            self._see(next_deed.fields[0])

    def _call(self, line: str) -> None:
        self.course.moment = self.moment
        self.course.call(self._reported(line))
        self.lines.append(self.steps[-1].line)

    def _reported(self, line: str) -> str:
        """A report with its TTL, or that of CDS."""
        word, roll, *rest = line.split(" ")
        if not word.startswith("report"):
            return line
        kinds = words.kinds_of(self.course.keys.actions(RollType(roll)))
        ttl = to_report(int(rest[0]), kinds, roll, self.ttls)
        return f"{word} {roll} {ttl + 2 * self.policy.clock} {rest[1]}"

    def _key(self, role: str, algorithm: str) -> str:
        """The line of a key that is made now. Its tag is a number that no other has."""
        self.key_count += 1
        tags = {key.tag for key in self.course.keys.keys().values()}
        tag = next(it for it in range(self.key_count, 65536) if it not in tags)
        name = f"{role}-{words.utc(self.moment, '%Y-%m-%d')}-{self.key_count}"
        return f"add-{role} {name} - {algorithm} {tag} {self.moment} yes"

    def _publish(self) -> None:
        """Publishes all that is due, as an act does."""
        call, seen = len(self.lines) - 1, Seen(self.notes, self.moment)
        for kind in KINDS:
            if seen.calls.get(kind) != call:
                self.notes.append(f"published {kind} {call} {self.ttls[kind]} {self.moment}")
                self.there[kind] = self.moment + self.delays[kind]

    def _see(self, kind: str) -> None:
        """All servers have it. Before that is noted of a DS set CDS goes out everywhere."""
        self.moment = max(self.moment, self.there.get(kind, self.moment))
        if kind == "ds":
            self.moment += self.delays["zone"]
        self.notes.append(f"everywhere {kind} {self.moment}")


def invented(zone: str) -> list[str]:
    """The script of a zone that has no key yet."""
    return [f"zone {zone}"]


def texts(steps: Iterable[Step]) -> Iterator[str]:
    """A line for each call."""
    for step in steps:
        yield f"{words.moment(step.moment)}  {step.line}"
