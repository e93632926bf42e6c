"""`act`: publishes what is due. It has the signer sign the zone by the keys that have to sign, and
gives the DS records for the parent.

An act asks for what has to be published now, whatever was published before. So it may be run again
after a crash."""

from __future__ import annotations

import os
import re
import signal
import subprocess
import tempfile
from argparse import Namespace
from pathlib import Path
from typing import Callable

from keyset import Action, Damaged, Lines, Notes
from keyset.file import Writer
from keyset.notes import Seen

from . import ceremony, place, signers, status, words
from .errors import UNAVAILABLE, Failure
from .history import Call, History
from .keysets import KeySets
from .signers import Version, Wish
from .zonefile import KeyId

# A line of an act's own file: CDS is out in the step of this call and moment, or in again.
CDS_LINE = re.compile(r"(?P<word>cds-out|cds-in) (?P<step>\d+ \d+)")


class Act:
    """An act on a script, for the options of the command line. `cds_lines` are those that earlier
    acts have left."""

    def __init__(self, args: Namespace, now: float, cds_lines: list[str]) -> None:
        self.args, self.now = args, now
        self.lines, self.zone_status = status.read(args.SCRIPT, now)
        asks, taken = self.zone_status.asks, ceremony.signatures(args.SCRIPT)
        self.keys = KeySets(self.zone_status, args.keys or [Path(args.SCRIPT).parent], taken)
        self.digests = args.digest or [2]
        self.changes_ds = asks(Action.UPDATE_DS_RRSET)
        # The call that asks for CDS, if it is due.
        self.step = step_of(self.lines) if asks(Action.CREATE_CDS_RRSET) else None
        self.has_cds = self.step is not None and not self._is_out(self.step, cds_lines)

    def _is_out(self, step: Call, cds_lines: list[str]) -> bool:
        """Whether CDS stays out in this step. It was taken out in it, or by the notes all servers
        of the parent have the DS set."""
        if self.args.no_cds or self.args.cds:
            return bool(self.args.no_cds)
        found = filter(None, map(CDS_LINE.fullmatch, cds_lines))
        words_of_step = [it["word"] for it in found if it["step"] == _name(step)]
        if words_of_step:
            return words_of_step[-1] == "cds-out"
        return has_spread(step, Notes(self.args.SCRIPT).lines, self.now)

    def says(self, cds_lines: list[str]) -> list[str]:
        """The line that this act leaves for later ones, if it says something new."""
        if self.step is None or self.has_cds and not self.args.cds:
            return []
        line = f"cds-{'in' if self.has_cds else 'out'} {_name(self.step)}"
        return [] if cds_lines[-1:] == [line] else [line]

    def expect_own(self, keys: set[KeyId], where: str) -> None:
        """What is published has a key that is due, or one that this script took out. Else the
        script doesn't know that the zone is signed."""
        has_begun = any(it.startswith(("start ", "set-")) for it in self.lines)
        is_due = keys & self.keys.by(self.keys.published.dnskey)
        if not keys or is_due or has_begun and keys & self.keys.known or self.args.although:
            return
        tags = ",".join(str(by.tag) for by in sorted(keys))
        text = f"{where} has keys that this script has not published: {tags}"
        how = "'vaqsider init --signed' brings them in, --although publishes without them"
        raise Failure(f"{text}. {how}", UNAVAILABLE)

    def wish(self, folder: Path) -> Wish:
        """What a signer is asked for."""
        return Wish(self.keys.sets(self.has_cds), self.now, folder)

    def ds(self) -> list[str]:
        """The DS records for the parent, if they have to change."""
        data = self.keys.ds(self.digests) if self.changes_ds else []
        return [f"{self.keys.origin} IN DS {text}" for text in data]


def step_of(lines: list[str]) -> Call:
    """The last call that asks for CDS."""
    calls = History(lines).calls
    return next(call for call in reversed(calls) if Action.CREATE_CDS_RRSET in call.actions)


def has_spread(step: Call, notes: list[str], now: float) -> bool:
    """Whether all servers of the parent have the DS set of a step, by the notes."""
    seen = Seen(notes, now)
    return seen.calls.get("ds", 0) >= step.number - 1 and seen.is_everywhere.get("ds") is True


def _name(step: Call) -> str:
    """A step by its number among the calls, and its moment: another script has another one."""
    return f"{step.number - 1} {step.moment}"


def cds_lines_of(kept: Lines) -> list[str]:
    """The lines that earlier acts have left."""
    for number, line in enumerate(kept.lines, start=1):
        if not CDS_LINE.fullmatch(line):
            raise Damaged(kept.path, number, "it has not the form of a line of an act")
    return kept.lines


def dry_run(args: Namespace, now: float) -> tuple[Act, Version]:
    """What an act would do."""
    path = place.beside(args.SCRIPT)
    act = Act(args, now, cds_lines_of(Lines(path)) if path.is_file() else [])
    with tempfile.TemporaryDirectory() as folder:
        return act, signers.of(args, act).plan(act.wish(Path(folder).resolve()))


def perform(args: Namespace, clock: Callable[[], float]) -> tuple[Act, Version]:
    """Acts, while no other act runs on this script."""
    with place.alone(args.SCRIPT) as kept:
        act = Act(args, clock(), cds_lines_of(kept))
        if act.changes_ds:
            from . import parents

            parents.before_step(args, act.lines, act.zone_status, clock)
        with signers.of(args, act).publish(act.wish(Path(args.SCRIPT).parent)) as version:
            publish(act, version, kept, clock)
        if args.reload:
            reload(args.reload, args.reload_within)
        return act, version


def publish(act: Act, version: Version, kept: Writer, clock: Callable[[], float]) -> None:
    """Notes what is published, with its TTLs, before servers can give it: before the signed file is
    in its place. Then puts it there. A watch may have noted something since the act began."""
    ttls = {**dict.fromkeys(["ds"] * act.changes_ds), **version.ttls()}
    call, notes = len(act.lines) - 1, Notes(act.args.SCRIPT)
    place.patiently(lambda: notes.publish(call, ttls, clock()))
    for line in act.says(kept.lines):
        kept.append(line)
    version.put()


def reload(command: str, seconds: float) -> None:
    """Runs the operator's command. It gets no longer than these seconds."""
    done = subprocess.Popen(["sh", "-c", command], stdout=2, start_new_session=True)
    try:
        ended = done.wait(seconds)
        why = f"status {ended}" if ended else ""
    except subprocess.TimeoutExpired:
        os.killpg(done.pid, signal.SIGKILL)
        done.wait()
        why = f"it has not ended within {words.duration(int(seconds))}"
    if why:
        text = f"the signed zone is in place, and isn't loaded: {why}: {command}"
        raise Failure(text, UNAVAILABLE)
