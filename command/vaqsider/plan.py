"""A roll before anything is done: each call with its date, what it asks, and the verdict after it.

The key set answers the calls. How long servers and the parent take is assumed here."""

from __future__ import annotations

import base64
from dataclasses import asdict, dataclass, replace
from pathlib import Path
from typing import TYPE_CHECKING, Collection, Iterable, Iterator, Mapping, Sequence

from keyset import Action, KeySet, Malformed, Notes, Published, Refused, RollType
from keyset.lines import Line
from keyset.notes import KINDS, Seen, lasts, to_report

from . import calling, keyfiles, words
from .errors import DUE, USAGE, Failure
from .keyfiles import SEP, ZONE_KEY
from .signers import Key, Sets

if TYPE_CHECKING:
    import keyset

    from .signers import PlanSigner

# Seconds, of DS sets, DNSKEY sets and the rest of the zone, if neither notes nor options say them.
TTLS, DELAYS = (86400, 3600, 3600), (86400, 600, 600)


class SignerLimit(Failure):
    """A signer can't do what a line asks for."""

    def __init__(self, line: str, lacks: list[str]) -> None:
        self.lacks = "; ".join(lacks)
        super().__init__(f"{line}: {self.lacks}", DUE)


@dataclass(frozen=True)
class Step:
    """A call of a plan, with its moment, what it asks, and what is so after it."""

    moment: int
    line: str
    actions: list[Action]
    asks: list[str]
    published: Published
    verdict: str

    def as_json(self) -> dict[str, object]:
        return {**asdict(self), "actions": [action.value for action in self.actions]}


class Plan:
    """The calls of a roll on a copy of a script, each at the moment that the plan has reached, with
    its answer. TTLs, and delays until all servers have a version, are by kind of set."""

    steps: list[Step]

    def __init__(self, lines: Iterable[str], moment: int, ttls: Mapping[str, int],
                 delays: Mapping[str, int], signer: PlanSigner | None = None) -> None:
        # (A line that was refused has no part in what comes.)
        script = "".join(f"{line}\n" for line in lines)
        self.keys = KeySet.resume(script, allow_refused=True)
        self.moment, self.ttls, self.delays, self.steps = moment, ttls, delays, []
        self.signer = signer
        # The DNSKEY set before the plan: servers have it, with its signatures.
        self.present = set(self.keys.published.dnskey)

    def call(self, text: str) -> list[str]:
        """Makes a call, and gives the kinds of sets that it asks to watch."""
        line = calling.completed(text, lambda: self.moment)
        try:
            actions = list(self.keys.call(line))
        except Refused as error:
            reason = f"refused: {error}; {words.refusal(str(error))}"
            raise Failure(f"{line}: {reason}", DUE) from None
        except Malformed as error:
            raise Failure(f"{line}: {error.reason}", USAGE) from None
        published = self.keys.published
        if self.signer is not None:
            self._expect(self.signer, line, actions, published)
        asks, verdict = list(words.asks(actions, published)), f"chain {self.keys.chain}"
        self.steps.append(Step(self.moment, line, actions, asks, published, verdict))
        return words.kinds_of(actions)

    def _expect(self, signer: PlanSigner, line: str, actions: Collection[Action],
                published: Published) -> None:
        """The signer can do what a call asks for."""
        keys = {name: _key(key, signer.folders) for name, key in self.keys.keys().items()}
        wanted = Sets.of(published, keys, Action.CREATE_CDS_RRSET in actions)
        lacks = list(signer.lacks(wanted))
        if set(published.dnskey) != self.present:
            lacks += signer.away(wanted, self.moment)
        if lacks:
            raise SignerLimit(line, lacks)

    def spread(self, kinds: Collection[str]) -> None:
        """Goes on until all servers have what was asked, and CDS is out after a DS set."""
        self.moment += max((self.delays[kind] for kind in kinds), default=0)
        self.moment += self.delays["zone"] if "ds" in kinds else 0

    def roll(self, roll: str, old: str, new: str) -> None:
        """All calls of a roll, with the deletion of the old keys."""
        kinds = self.call(f"start {roll} {old} {new} {self.moment}")
        for half in (1, 2):
            self.spread(kinds)
            due = max((lasts(self.ttls[kind]) for kind in kinds), default=0)
            self.call(f"report{half} {roll} {to_report(due, kinds, roll, self.ttls)} {self.moment}")
            end = self.keys.wait_end(RollType(roll))
            self.moment = max(self.moment, end if isinstance(end, int) else 0)
            kinds = self.call(f"wait{half} {roll} {self.moment}")
        self.spread(kinds)
        self.call(f"done {roll}")
        for reference in () if old == "-" else old.split(","):
            self.call(f"delete {reference}")


def _key(known: keyset.Key, folders: Sequence[str | Path]) -> Key:
    """A key for a signer: by its file, or else by what the script says of it."""
    try:
        file = keyfiles.find(replace(known, private=None), folders)
        return Key.of(file.data, known.reference, file)
    except Failure:
        flags = ZONE_KEY | (SEP if known.kind in ("ksk", "csk") else 0)
        key = base64.b64encode(known.reference.encode()).decode()
        return Key(f"{flags} 3 {known.algorithm} {key}", known.reference)


def assumed(script: str | Path, ttls: Sequence[int] | None, delays: Sequence[int] | None,
            now: float) -> tuple[dict[str, int], dict[str, int]]:
    """TTLs and delays by kind: the given ones, else the noted ones, else the usual ones."""
    seen = Seen(Notes(script).lines, now)
    of_notes = {kind: held[-1] for kind, held in seen.ttls.items()}
    return _by_kind(ttls, TTLS, of_notes), _by_kind(delays, DELAYS, seen.delays)


def _by_kind(given: Sequence[int] | None, usual: Sequence[int],
             of_notes: Mapping[str, int]) -> dict[str, int]:
    return dict(zip(KINDS, given)) if given else {**dict(zip(KINDS, usual)), **of_notes}


def as_json(steps: Iterable[Step]) -> list[dict[str, object]]:
    """The same for --json."""
    return [step.as_json() for step in steps]


def as_text(steps: Iterable[Step]) -> Iterator[str]:
    """A line for each call, with what it asks, what is published after it, and the verdict."""
    for step in steps:
        yield f"{words.moment(step.moment)}  {step.line}"
        yield from (f"    {text}" for text in step.asks)
        yield f"    {step.published}, {step.verdict}"


def as_calendar(zone: str, steps: Iterable[Step]) -> Iterator[str]:
    """The lines of an iCalendar file (RFC 5545): an event for each call."""
    yield from ("BEGIN:VCALENDAR\r", "VERSION:2.0\r", "PRODID:-//vaqsider//plan//EN\r")
    for number, step in enumerate(steps):
        moment = words.utc(step.moment, "%Y%m%dT%H%M%SZ")
        says = "\n".join([step.line, *step.asks, step.verdict])
        yield "BEGIN:VEVENT\r"
        yield f"UID:{number}-{step.moment}@{zone.rstrip('.') or 'root'}\r"
        yield from (f"DTSTAMP:{moment}\r", f"DTSTART:{moment}\r")
        yield from _folded("SUMMARY", f"{zone}: {Line(step.line).word}")
        yield from _folded("DESCRIPTION", says)
        yield "END:VEVENT\r"
    yield "END:VCALENDAR\r"


def _folded(name: str, text: str) -> Iterator[str]:
    """A content line, with marks escaped, folded after 75 bytes (section 3.1)."""
    for mark in "\\;,":
        text = text.replace(mark, f"\\{mark}")
    line = f"{name}:{text}".replace("\n", "\\n")
    yield f"{line[:75]}\r"
    yield from (f" {line[start : start + 74]}\r" for start in range(75, len(line), 74))
