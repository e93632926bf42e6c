"""The words of `roll` and `next`: a roll that is asked for, and one deed by hand."""

from __future__ import annotations

import sys
import time
from argparse import Namespace
from collections.abc import Iterator
from pathlib import Path

from keyset import Lines, Notes

from . import (
    advice,
    calling,
    journal,
    playing,
    policies,
    shortnames,
    status,
    ticks,
    words,
)
from .ending import Clock, Log
from .errors import OK, USAGE, Failure
from .linting import Spans, planned
from .plan import Step, as_json
from .playing import Play
from .policies import Policy

Outcome = tuple[int, Iterator[str], object]
# How a question is answered with yes.
YES = ("y", "yes")
# A roll is shown to its end, if that comes within this time.
SHOWN = 90 * policies.DAY


def roll(args: Namespace, clock: Clock) -> Outcome:
    """Shows a roll, asks, and notes that it is wanted. The next tick begins it."""
    policy = policies.read(args.SCRIPT)
    of = _roll_of(policy, args.ROLE)
    now = int(clock())
    args.to = _reference(args)
    add = _added(args)
    steps = list(_steps(_play(args.SCRIPT, policy, now, {args.ROLE: now}, add), of))
    if not steps:
        raise Failure(f"no {of} would begin within {words.duration(SHOWN)}: "
                      f"'vaqsider next {args.SCRIPT} --dry-run' says what comes before it")
    _expect(args.to, steps[0].line)
    if args.dry_run or not (args.yes or _agreed(steps)):
        return OK, playing.texts(steps if args.dry_run else ()), as_json(steps)
    for line in add:
        calling.call(args.SCRIPT, line, clock)
    with journal.alone(args.SCRIPT) as lines:
        lines.ask(args.ROLE, now)
    end = ticks.tick(args.SCRIPT, clock, _log(args))
    return end.status, iter([f"{args.SCRIPT}: {end.text}"]), vars(end)


def _roll_of(policy: Policy, role: str) -> str:
    """The roll that renews keys of a role by the policy."""
    found = [it for it in policy.rolls if it.startswith(role)]
    if not found:
        raise Failure(f"{policy.source} has no {role.upper()}s: its rolls are "
                      f"{', '.join(policy.rolls)}", USAGE)
    return found[0]


def _reference(args: Namespace) -> str | None:
    """The key to roll to. It may have been called by its short name."""
    if args.to is None:
        return None
    return shortnames.full(f"delete {args.to}", Lines(args.SCRIPT).lines).split(" ", 1)[1]


def _added(args: Namespace) -> list[str]:
    """The line that adds the key to roll to, unless the script has it."""
    known = {line.split(" ")[1] for line in Lines(args.SCRIPT).lines if line.startswith("add-")}
    if args.to is None or args.to in known:
        return []
    word = "add-csk" if args.ROLE == "csk" else "add"
    return [calling.completed(f"{word} {args.to}", time.time)]


def _expect(key: str | None, start: str) -> None:
    """The roll is to this key. The first fresh key comes in, by the bytes of its reference."""
    new = start.split(" ")[3]
    if key is not None and new != Path(key).name:
        raise Failure(f"{new} would come in: it is fresh too, and the first by its reference")


def _play(
    script: str, policy: Policy, now: int, once: dict[str, int], add: list[str]
) -> Play:
    lines, zone_status = status.read(script, now)
    spans, notes = Spans.of(script, now), Notes(script).lines
    asked = {**journal.once_of(script), **once}
    signer = planned(policy, script, zone_status.zone)
    return Play(policy, [*lines, *add], notes, now, spans.ttls, spans.delays, asked, signer)


def _steps(play: Play, of: str) -> Iterator[Step]:
    """The calls from a roll's start to its end, with those beside it."""
    has_begun = False
    for step in play.until(play.moment + SHOWN):
        line = step.line
        has_begun |= line.startswith(f"start {of} ")
        if has_begun:
            yield step
        if has_begun and line == f"done {of}":
            return


def _log(args: Namespace) -> Log:
    return ticks.logger("text", sys.stderr if args.json else sys.stdout)


def _agreed(steps: list[Step]) -> bool:
    """Whether a person at the terminal wants it."""
    print(*playing.texts(steps), sep="\n")
    print("begin? [y/N] ", end="", flush=True)
    return sys.stdin.readline().strip().lower() in YES


def next_(args: Namespace, clock: Clock) -> Outcome:
    """Makes the one thing that comes next, or only says it."""
    if not args.dry_run:
        end = ticks.tick(args.SCRIPT, clock, _log(args), most=1)
        return end.status, iter([end.text]), vars(end)
    policy = policies.read(args.SCRIPT)
    lines, _ = status.read(args.SCRIPT, clock())
    now = int(clock())
    asked = policy.for_program(journal.once_of(args.SCRIPT), now)
    next_deed = advice.said(asked, lines, Notes(Path(args.SCRIPT)).lines, now)
    return OK, iter([next_deed.line]), vars(next_deed)
