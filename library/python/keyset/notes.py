"""The notes of a zone, a file beside its script: the TTL of each version, since when servers gave
it, and when all did. By them a report is true."""

from __future__ import annotations

import contextlib
import errno
import math
import os
import re
from pathlib import Path
from typing import Callable, Dict, Iterator, List, Mapping, Sequence

from . import engine, file
from .bounds import Bounds, Reported
from .errors import Damaged, Locked, Malformed, Misnamed, Torn, WrongArgument
from .lines import OF_CLOCK, Line
from .rolls import ROLLS

KINDS = ("ds", "dnskey", "zone")
FORM = re.compile(
    r"before( \d{1,20}){3}|published (ds|dnskey|zone)( \d{1,20}){3}"
    r"|everywhere (ds|dnskey|zone) \d{1,20}"
)


class Notes:
    """The notes as they were when they were read; without a file there are no lines. Those of
    `ZONE.script` are in `ZONE.notes`. `Misnamed`: the name of the script ends otherwise. `Torn`:
    the last line has no line feed; `cut_torn` leaves it out. Without a script they are kept only in
    memory."""

    def __init__(self, script: file.Place | None, *, cut_torn: bool = False) -> None:
        self.path, self._cut_torn = None if script is None else path_of(script), cut_torn
        self.lines = self._read()

    @classmethod
    def create(cls, script: file.Place, before: Sequence[int]) -> Notes:
        """Begins the notes of a new script with the highest TTLs before the first call: of DS sets,
        of DNSKEY sets and of the rest of the zone. An answer that there is none counts too. After a
        crash the same call goes on. FileExistsError: the script is there, or notes with others."""
        if Path(script).exists():
            raise FileExistsError(errno.EEXIST, os.strerror(errno.EEXIST), str(script))
        notes, lines = cls(script), [f"before {' '.join(map(str, before))}"]
        if notes.lines != lines:
            file.create(path_of(script), lines)
        return cls(script)

    def _read(self) -> list[str]:
        if self.path is None or not self.path.is_file():
            return []
        notes = file.Lines(self.path)
        if notes.torn and not self._cut_torn:
            raise Torn(self.path, len(notes.lines) + 1)
        return _checked(notes)

    def more(self) -> list[str]:
        """The lines that were noted since these were read. `Damaged`: one of these is gone."""
        if self.path is None:
            return []
        lines, known = self._read(), len(self.lines)
        if lines[:known] != self.lines:
            raise Damaged(self.path, known + 1, "lines that were read before it are gone")
        return lines[known:]

    def append(self, line: str) -> None:
        """Adds a line. Returns once it is on disk. `WrongArgument`: its moment is before that of
        another one, or of its call, so the clock was set back."""
        self._expect_later(self.lines, line)
        if self.path is not None and not self.path.is_file():
            file.create(self.path, [line])
        elif self.path is not None:
            with file.locked(self.path) as notes:
                if notes.lines != self.lines:
                    raise Locked(f"{self.path}: another program has noted something")
                notes.append(line)
        self.lines.append(line)

    @property
    def first(self) -> int | None:
        """The first call whose sets were noted. What was reported before is of before the notes:
        they can't say that it is false."""
        return min((_call(it) for it in self.lines if it.startswith("published")), default=None)

    def check(self, lines: Sequence[str]) -> None:
        """`Damaged`: these can't be the notes of a script with these lines."""
        with self._refusals():
            engine.due(lines, self.lines, 0)

    def due(self, lines: Sequence[str], roll: str, moment: int) -> int | None:
        """The TTL of a roll's report at a moment, by what was noted until then. None if a set isn't
        everywhere yet, or there are no notes."""
        until = [it for it in self.lines if it.startswith("before") or _moment(it) <= moment]
        with self._refusals():
            return engine.due(lines, until, moment).get(roll) if until else None

    def false(
        self, lines: Sequence[str], reports: Sequence[Reported]
    ) -> Iterator[tuple[Reported, int | None]]:
        """Of reports of a script those that the notes of then don't bear out, each with the TTL
        that was due. What was noted in the same second of a later call is of after the report."""
        notes = [*self.lines[:1], *sorted(self.lines[1:], key=_moment)]
        bounds, doubtful, end = Bounds(notes[0]), [], 1
        for report in reports:
            while end < len(notes) and _is_then(notes[end], report.number - 2, report.moment):
                bounds.note(notes[end])
                end += 1
            if not bounds.are_met(report):
                doubtful.append((report, (report.number - 1, end, report.moment)))
        self.check(lines)
        with self._refusals():
            dues = engine.dues(lines, notes, [place for _, place in doubtful])
            for (report, _), due in zip(doubtful, dues):
                ttl = due.get(report.roll)
                if ttl is None or report.ttl < ttl:
                    yield report, ttl

    @contextlib.contextmanager
    def _refusals(self) -> Iterator[None]:
        """Says of which line of the notes a refusal is."""
        try:
            yield
        except Malformed as error:
            raise Damaged(self.path, error.line, error.reason) from None

    def publish(self, call: int, ttls: Mapping[str, int | None], now: float) -> None:
        """Notes versions of these kinds, with the sets after this call, before servers give them.
        Without a TTL they have the present one. New signatures need no line. `WrongArgument`: `now`
        is before the last moment of a kind or of the calls, so the clock was set back."""

        def lines(seen: Seen) -> Iterator[str]:
            for kind, ttl in ttls.items():
                present = seen.ttls[kind][-1]
                if seen.calls.get(kind) != call or (ttl or 0) > present:
                    yield f"published {kind} {call} {present if ttl is None else ttl} {int(now)}"

        self._append(lines, now)

    def everywhere(self, ttls: Mapping[str, int], now: float) -> None:
        """Notes, once for each kind, that all servers gave its newest version. Notes nothing if
        something was noted since these notes were read. If a TTL is above the noted one, as of
        another signer's DS set, that TTL is noted first."""

        def lines(seen: Seen) -> Iterator[str]:
            for kind, ttl in ttls.items() if seen.lines == self.lines else ():
                is_higher = kind in seen.calls and ttl > seen.ttls[kind][-1]
                if is_higher:
                    yield f"published {kind} {seen.calls[kind]} {ttl} {int(now)}"
                if is_higher or seen.is_everywhere.get(kind) is False:
                    yield f"everywhere {kind} {math.ceil(now)}"

        self._append(lines, now)

    def _append(self, lines: Callable[[Seen], Iterator[str]], now: float) -> None:
        if self.path is not None and self.path.is_file():
            with file.locked(self.path) as notes:
                for line in list(lines(Seen(_checked(notes), now))):
                    self._expect_later(notes.lines, line)
                    notes.append(line)

    def _expect_later(self, lines: Sequence[str], line: str) -> None:
        """A line that can't follow these, or the calls of the script, would damage the notes."""
        word, kind, *_ = line.split(" ")
        if word == "before":
            return
        last = max((_moment(it) for it in lines if it.split(" ")[1] == kind), default=0)
        call = self._call_moment(_call(line)) if word == "published" else 0
        for least, says in ((last, f"the notes of {kind} say"), (call, "the script says")):
            if _moment(line) < least:
                raise WrongArgument("now", _moment(line), f"{least} or later: {says} so")

    def _call_moment(self, call: int) -> int:
        """The greatest moment of the calls up to this one, as far as the script is there."""
        script = self.path and self.path.with_suffix(".script")
        if script is None or not script.is_file():
            return 0
        calls = map(Line, file.Lines(script).lines[1 : call + 1])
        return max((it.moment or 0 for it in calls if it.word in OF_CLOCK), default=0)


class Seen:
    """What notes say of each kind of sets: the TTLs that caches may hold or get at a moment, the
    present one last; the call whose sets are published; whether they are everywhere; and how long
    that took the last time."""

    def __init__(self, lines: Sequence[str], moment: float) -> None:
        self.lines, since = list(lines), {}
        self.ttls: Dict[str, List[int]] = {}
        self.calls: Dict[str, int] = {}
        self.delays: Dict[str, int] = {}
        self.is_everywhere: Dict[str, bool] = {}
        for word, *rest in map(str.split, lines):
            if word == "before":
                self.ttls = {kind: [int(ttl)] for kind, ttl in zip(KINDS, rest)}
                continue
            kind, (*numbers, time) = rest[0], map(int, rest[1:])
            held, self.is_everywhere[kind] = self.ttls[kind], word == "everywhere"
            if word == "published":
                since[kind], self.calls[kind] = time, numbers[0]
                held.append(numbers[1])
            else:
                self.delays[kind] = time - since.get(kind, time)
                held[:-1] = [ttl for ttl in held[:-1] if time + lasts(ttl) > moment]


def lasts(ttl: int) -> int:
    """For how many seconds a cache may hold a set with a TTL: its seconds may begin at any time."""
    return ttl + 1


def to_report(due: int, kinds: Sequence[str], roll: str, ttls: Mapping[str, int]) -> int:
    """The TTL to report for sets of these kinds, for which notes give `due`. CDS and CDNSKEY are no
    kind of the notes: they have the zone's TTL. If an old algorithm may leave, a validator can
    check a DNSKEY set by the old DS set once more, so both TTLs are added."""
    if "ds" not in kinds:
        return due
    again = 0 if ROLLS[roll].same_algorithms else lasts(ttls["dnskey"])
    return max(due + again, lasts(ttls["zone"]))


def path_of(script: file.Place) -> Path:
    """The notes of a script stand beside it."""
    if Path(script).suffix != ".script":
        raise Misnamed(f"{script}: the name of a script has to end in .script")
    return Path(script).with_suffix(".notes")


def _moment(line: str) -> int:
    return int(line.rpartition(" ")[2])


def _call(published: str) -> int:
    """The call whose sets are published."""
    return int(published.split(" ")[2])


def _is_then(line: str, calls: int, moment: int) -> bool:
    """Whether a line can have been noted after so many calls, until this moment."""
    is_later = line.startswith("published") and _call(line) > calls
    return _moment(line) <= moment and not is_later


def _checked(notes: file.Lines) -> list[str]:
    for number, line in enumerate(notes.lines, start=1):
        if not FORM.fullmatch(line) or (number == 1) != line.startswith("before"):
            raise Damaged(notes.path, number, "it has not the form of a line of notes")
    return notes.lines
