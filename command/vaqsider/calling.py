"""One call: it takes the clock for `now`, looks for what can't be true, and has the line on disk
before it prints anything to act on. Also the first lines of a script."""

from __future__ import annotations

import math
import time
from dataclasses import asdict, dataclass, field
from pathlib import Path
from typing import TYPE_CHECKING, Iterator, Sequence, cast

import keyset
from keyset import Action, Damaged, Locked, Malformed, Notes, lines as forms, locked
from keyset.errors import OUT_OF_MEMORY

from . import check, keyfiles, shortnames, status, words
from .errors import BROKEN, DUE, OK, USAGE, WARNING, Failure
from .history import REFUSED, History

if TYPE_CHECKING:
    from keyset import Published

    from .ending import Clock
    from .keyfiles import KeyFile


@dataclass
class CallResult:
    """The outcome of a call: its answer, what can't be true of it, and whether it was kept."""

    line: str
    reply: str
    published: Published
    refused: str | None
    actions: list[Action]
    doubts: list[str] = field(default_factory=list)
    kept: bool = False

    @classmethod
    def of(cls, line: str, reply: str, published: Published) -> CallResult:
        """Reads the reply to a line."""
        if reply.startswith(REFUSED):
            return cls(line, reply, published, reply[len(REFUSED) :], [])
        return cls(line, reply, published, None, [*map(Action, reply.split(" ")[1:])])

    def as_json(self) -> dict[str, object]:
        return {**asdict(self), "actions": [action.value for action in self.actions]}

    @property
    def status(self) -> int:
        return DUE if self.refused else WARNING if self.doubts and not self.kept else OK

    def text(self) -> Iterator[str]:
        """For people: the line with its answer, and what to do."""
        yield f"{self.line}: {self.reply}"
        yield from (f"  {doubt}" for doubt in self.doubts)
        if self.refused:
            yield f"  nothing has changed; {words.refusal(self.refused)}"
        elif self.kept:
            yield from (f"  {text}" for text in words.asks(self.actions, self.published))
        else:
            although = ": --although makes the call all the same" if self.doubts else ""
            yield f"  the line was not kept{although}"


def call(path: str | Path, text: str, clock: Clock, although: bool = False,
         dry_run: bool = False, known: list[str] | None = None) -> CallResult:
    """Makes a call on the script, and keeps its line if it is accepted. Who made the line by what
    the script had, says which lines it knows: with others it may be false."""
    with locked(path) as file:
        if known not in (None, file.lines):
            raise Locked(f"{path}: another program has written a line")
        line = shortnames.full(completed(text, clock), status.whole(path, file))
        lines = [*file.lines, line]
        history = _history(path, lines)
        result = CallResult.of(line, history.replies[-1], history.published)
        if result.refused == OUT_OF_MEMORY:
            raise MemoryError
        if not result.refused:
            # A report's moment was rounded up to the next second, which has come by now.
            found = check.false_claims(history, path, math.ceil(clock()), len(lines))
            result.doubts = [finding.text for finding in found if finding.line == len(lines)]
            if not dry_run and (although or not result.doubts):
                file.append(line)
                result.kept = True
        return result


def _history(path: str | Path, lines: list[str]) -> History:
    """The history of a script and of the line of a call, which is the last one."""
    try:
        history = History(lines)
    except Malformed as error:
        is_own = error.line == len(lines)
        raise Failure(f"{path}: {error}", USAGE if is_own else BROKEN) from None
    found = status.lost(it for it in history.refused if it[0] < len(lines))
    if found:
        raise Damaged(path, *found)
    return history


def completed(text: str, clock: Clock) -> str:
    """The line of a call, with the key of the file that `add FILE` or `add-csk FILE` names, and a
    reference of its private half if that comes too; and with the moment for `now`. A report is made
    once the clock has reached its moment."""
    if "\n" in text:
        raise Failure("a line of a script has no line feed in it")
    word, *fields = text.split(" ")
    if word in ("add", "add-csk") and len(fields) in (1, 2):
        return keyfiles.read(fields[0]).line(word == "add-csk", *fields[1:])
    line = forms.at(text, clock())
    if line != text:
        # (It has a moment, as it has had a `now`.)
        reach(cast(int, forms.Line(line).moment), clock)
    return line


def reach(moment: int, clock: Clock) -> None:
    """Returns once the clock has reached a moment that was rounded up."""
    time.sleep(max(0, moment - clock()))


def first_lines(
    zone: str, added: Sequence[tuple[KeyFile, str]], moment: int | None
) -> list[str]:
    """The first lines of a zone's script, with the keys of files, each with the line that adds it.
    If the zone is signed already, the keys come in at this moment."""
    for file, _ in added:
        if file.owner.lower() != zone.lower():
            raise Failure(f"{file.path}: a key of {file.owner}, not of {zone}")
    lines = [f"zone {zone}", *(line for _, line in added)]
    if moment is not None:
        keys = ",".join(file.path.name for file, _ in added)
        lines += [line.format(keys=keys, moment=moment) for line in SIGNED_ALREADY]
    try:
        *replies, _, _ = keyset.run(lines)
    except Malformed as error:
        raise Failure(f"{lines[error.line - 1]}: {error.reason}") from None
    for line, reply in zip(lines[1:], replies):
        if reply.startswith(REFUSED):
            raise Failure(f"{line}: {reply}", DUE)
    return lines


def begin(path: str | Path, lines: Sequence[str], before: Sequence[int] | None) -> None:
    """Makes a script with these lines, and its notes with the TTLs before."""
    if before:
        Notes.create(path, before)
    keyset.create(path, lines)


# The lines by which the keys of a signed zone come in: nothing older is in any cache.
SIGNED_ALREADY = (
    "start algorithm-roll - {keys} {moment}",
    "report1 algorithm-roll 0 {moment}",
    "wait1 algorithm-roll {moment}",
    "report2 algorithm-roll 0 {moment}",
    "wait2 algorithm-roll {moment}",
    "done algorithm-roll",
)
