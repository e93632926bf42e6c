"""What is wrong with a policy: for itself, and for a zone with its TTLs. Spans are those of the
plan of each roll."""

from __future__ import annotations

import contextlib
import io
import shutil
from argparse import Namespace
from collections.abc import Iterator
from dataclasses import dataclass
from pathlib import Path

from keyset.lines import NAMES
from keyset.rolls import ALGORITHM_ROLL, ROLLS

from . import plan, signers, words
from .check import Finding
from .errors import OK, WARNING, Failure
from .parsing import parsed
from .policies import Policy
from .signers import PlanSigner

# When a roll of the lint begins: long after the moments of its keys.
BEGIN, EXAMPLE = 1_000_000_000, "example.com"
# The tools that make keys, and the algorithms that each knows.
TOOLS = {"dnssec-keygen": set(NAMES), "ldns-keygen": set(NAMES)}


@dataclass(frozen=True)
class Spans:
    """How long things take in a zone: TTLs, and delays until all servers have a version, by kind of
    set."""

    ttls: dict[str, int]
    delays: dict[str, int]

    @classmethod
    def of(cls, script: str | Path | None, now: float) -> Spans:
        """Those of a zone's notes, or else the usual ones."""
        if script is not None:
            return cls(*plan.assumed(script, None, None, now))
        usual = (dict(zip(("ds", "dnskey", "zone"), it)) for it in (plan.TTLS, plan.DELAYS))
        return cls(*usual)

    @property
    def spread(self) -> int:
        """How long a signature has to be valid after a new one is published."""
        return max(self.ttls["dnskey"], self.ttls["zone"]) + max(
            self.delays["dnskey"], self.delays["zone"])


def findings(policy: Policy, spans: Spans) -> list[Finding]:
    """All that is wrong, with what is only to be known at the end."""
    return [*_of_rolls(policy, spans), *_of_ttls(policy, spans), *_of_signatures(policy, spans),
            *_of_parent(policy), *_of_tools(policy),
            *(_of_words(policy) or _of_signer(policy, spans))]


def _wrong(text: str) -> Finding:
    return Finding(WARNING, text)


def _of_rolls(policy: Policy, spans: Spans) -> Iterator[Finding]:
    """A key that is to be rolled before its roll is over."""
    for roll, lifetime in policy.lifetimes().items():
        takes, name = takes_of(policy, roll, spans), _lifetime(roll)
        if lifetime is not None and lifetime <= takes:
            yield _wrong(f"{name} {words.duration(lifetime)} is shorter than a {roll}, which takes "
                         f"{words.duration(takes)}")
        else:
            yield Finding(OK, f"a {roll} takes {words.duration(takes)}")


def _lifetime(roll: str) -> str:
    return f"{ROLLS[roll].renews}-lifetime"


def takes_of(policy: Policy, roll: str, spans: Spans, signer: PlanSigner | None = None) -> int:
    """How long a roll takes, from its start to its end. Each of its waits is longer by what a clock
    may be wrong."""
    kinds = policy.roles
    adds = [f"add-{kind} {kind}{age} - {policy.algorithm} {tag} 0 yes"
            for tag, (kind, age) in enumerate((kind, age) for kind in kinds for age in (1, 2))]
    olds, role = ",".join(f"{kind}1" for kind in kinds), ROLLS[roll].renews
    course = plan.Plan([f"zone {EXAMPLE}", *adds], BEGIN, spans.ttls, spans.delays, signer)
    course.roll(ALGORITHM_ROLL, "-", olds)
    begun = course.moment
    course.roll(roll, f"{role}1", f"{role}2")
    return course.moment - begun + 4 * policy.clock


def _of_ttls(policy: Policy, spans: Spans) -> Iterator[Finding]:
    """A TTL that is longer than what it has to end in."""
    for kind, ttl in spans.ttls.items():
        for roll, lifetime in policy.lifetimes().items():
            if lifetime is not None and ttl >= lifetime:
                yield _wrong(f"the TTL of {kind}, {words.duration(ttl)}, isn't below "
                             f"{_lifetime(roll)} {words.duration(lifetime)}")
        if kind != "ds" and ttl >= policy.signatures:
            yield _wrong(f"the TTL of {kind}, {words.duration(ttl)}, isn't below signatures "
                         f"{words.duration(policy.signatures)}: caches would hold expired ones")


def _of_signatures(policy: Policy, spans: Spans) -> Iterator[Finding]:
    """Renewals that come too late, or all the time."""
    before, jitter = policy.renews_before, policy.jitter or 0
    if before < spans.spread:
        yield _wrong(f"renew-before {words.duration(before)} is too late: new signatures take "
                     f"{words.duration(spans.spread)} to be in all caches, after the old ones' end")
    if before >= policy.signatures - jitter:
        left = words.duration(max(0, policy.signatures - jitter))
        yield _wrong(f"renew-before {words.duration(before)} isn't below the time of signatures, "
                     f"{left}: each tick would renew them")


def _of_parent(policy: Policy) -> Iterator[Finding]:
    if policy.parent == "hook" and not policy.on_ds:
        yield _wrong("parent hook needs on-ds COMMAND, which hands the DS set to the registrar")
    if policy.parent != "hook" and policy.on_ds:
        yield _wrong(f"on-ds is never run with parent {policy.parent}: say parent hook")


def _of_tools(policy: Policy) -> Iterator[Finding]:
    for name, command in (("keygen", policy.keygen), ("reload", policy.reload),
                          ("on-ds", policy.on_ds), ("on-event", policy.on_event)):
        if command and shutil.which(command[0]) is None:
            yield _wrong(f"{name}: {command[0]} isn't a program here")
    if policy.algorithm not in TOOLS.get(policy.keygen[0], {policy.algorithm}):
        tool = policy.keygen[0]
        yield _wrong(f"algorithm {policy.algorithm} isn't one that {tool} makes keys of")


def _of_signer(policy: Policy, spans: Spans) -> list[Finding]:
    """The rolls that its signer can't do."""
    faults = []
    for roll in policy.rolls:
        try:
            signer = planned(policy, f"{EXAMPLE}.script", EXAMPLE)
            takes_of(policy, roll, spans, signer and PlanSigner(signer.lacks, signer.folders))
        except Failure as failure:
            faults.append(_wrong(f"signer {policy.signer}: {failure}"))
    faults += (_wrong(f"{name}: {policy.signer} has that in its own settings")
               for name in signers.not_taken(_args_of_act(policy, f"{EXAMPLE}.script")))
    return faults


def planned(policy: Policy, script: str | Path, zone: str) -> PlanSigner | None:
    """The policy's signer, for a plan."""
    return signers.planned(_args_of_act(policy, script), zone)


def _args_of_act(policy: Policy, script: str | Path) -> Namespace:
    return parsed(policy.for_act(script))


def _of_words(policy: Policy) -> list[Finding]:
    """What the words that publish and look don't take."""
    faults = []
    for line in (policy.for_act("example.com.script"), policy.for_watch("example.com.script")):
        said = io.StringIO()
        try:
            with contextlib.redirect_stderr(said):
                parsed(line)
        except SystemExit:
            faults.append(_wrong(said.getvalue().partition("; ")[0].strip()))
    return faults
