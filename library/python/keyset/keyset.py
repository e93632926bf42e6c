"""A key set with the calls of `domain`'s `KeySet`, and the file of its accepted lines."""

from __future__ import annotations

import contextlib
import os
from pathlib import Path
from typing import Iterator, Sequence

from . import engine, file
from .calls import Calls, down, up
from .errors import Damaged, Locked, Lost, Malformed, OutOfMemory, Torn, WrongArgument, refusal_of
from .file import Place, Writer
from .rolls import RollType
from .members import Status, WaitEnd
from .notes import Notes, path_of
from .session import Guard, Session
from .values import Accepted, Action, Broken, Due, Key, Published, Roll, Todo


class KeySet(Calls):
    """The keys of one zone. Each accepted call is a line of its file, on disk before the call
    returns; without a file the key set is kept only in memory.

        with KeySet.create("example.com.script", "example.com") as keys:
            keys.add_key_ksk("K1", algorithm=13, key_tag=1, creation=0)
            keys.add_key_zsk("Z1", algorithm=13, key_tag=2, creation=0)
            for action in keys.start_roll(RollType.ALGORITHM_ROLL, new=["K1", "Z1"]):
                print(action.value)

    A refused call raises `Refused`, and changes nothing. If memory runs out, `OutOfMemory` is
    raised, nothing has changed, and the call may be made again. Moments are whole seconds since
    1970. Without a moment a call takes that of the clock. A report rounds it up, and is made once
    the clock has reached it; any other call rounds it down.

    Threads may share a key set: each call and each question waits for the one before it. A child of
    the process that has opened it may not use it: `Forked`.
    """

    lines: list[str]
    """The lines of the script: a call's number is that of its line, counted from 0."""

    refused: list[tuple[int, str]]
    """Lines that were refused when the script was opened with `allow_refused`, with the reason.
    They are among the lines, and have their numbers."""

    notes: Notes
    """The notes of the zone: those of the file beside its script."""

    def __init__(self, zone: str) -> None:
        self._begin([_first(zone)], None)

    @classmethod
    def create(cls, path: Place, zone: str) -> KeySet:
        """A new key set with a new file."""
        cls(zone).close()
        file.create(path, [_first(zone)])
        return cls.open(path)

    @classmethod
    def open(
        cls, path: Place, *, allow_refused: bool = False, cut_torn: bool = False
    ) -> KeySet:
        """The key set of a file, with the notes beside it. It is locked until `close`.

        `Damaged`: a line is malformed, or is refused, though only accepted lines are kept. Then a
        line before it may be lost, and what is published isn't what the key set would show.
        `allow_refused` opens such a file all the same.

        `Torn`: its last line, or that of the notes, has no line feed. If only this package writes
        the file, a crash has torn it, and nobody acted on it: `cut_torn` leaves it out, and the
        next call cuts it off."""
        made = cls.__new__(cls)
        with contextlib.ExitStack() as opened:
            lines = opened.enter_context(file.locked(path))
            if lines.torn and not cut_torn:
                raise Torn(path, len(lines.lines) + 1)
            made._begin(lines.lines, path, allow_refused)
            made.notes = _notes_of(path, cut_torn)
            made._file = lines
            for line in made.notes.lines:
                made._take(line)
            made._open = opened.pop_all()
        return made

    @classmethod
    def resume(cls, script: str, *, allow_refused: bool = False) -> KeySet:
        """Goes on in memory with the lines of a script. Text after its last line feed was not
        written to its end, and is left out. `Malformed`, and `Damaged` as by `open`."""
        made = cls.__new__(cls)
        made._begin(script.split("\n")[:-1], None, allow_refused)
        return made

    def _begin(
        self, lines: Sequence[str], path: Place | None, allow_refused: bool = False
    ) -> None:
        self._guard, self._open = Guard(), contextlib.ExitStack()
        self._file: Writer | None = None
        # (A handler of a signal may come in between.)
        self._is_trying = False
        try:
            self._session, self.refused = _replayed(lines)
        except Malformed as error:
            if path is None:
                raise
            raise Damaged(path, error.line, error.reason) from None
        self.lines, self.notes = list(lines), Notes(None)
        if self.refused and not allow_refused:
            number, reason = self.refused[0]
            self._session.close()
            raise Damaged(path, number, f"refused: {reason}")

    def close(self) -> None:
        """Closes the session, and unlocks the file."""
        if self._guard.is_own:
            with self._guard.held():
                self._session.close()
        self._open.close()

    def __enter__(self) -> KeySet:
        return self

    def __exit__(self, *_: object) -> None:
        self.close()

    @property
    def script(self) -> str:
        """The lines of the script as one text."""
        return "".join(f"{line}\n" for line in self.lines)

    def call(self, line: str) -> Accepted:
        """Makes a call, a line of a script, and gives what it asks for, with its number."""
        with self._tried() as tried:
            made = _accepted(tried, line)
            if self._file:
                self._file.append(line)
            self.lines.append(line)
            self._replace(tried)
        return made

    def would(self, line: str) -> Accepted:
        """What a call would ask for, without making it."""
        with self._tried() as tried:
            return _accepted(tried, line)

    @contextlib.contextmanager
    def _tried(self) -> Iterator[Session]:
        """A copy of the session, to try something on. It is closed, unless it takes the session's
        place."""
        with self._guard.held():
            if self._is_trying:
                raise Locked("another call of this key set is being made")
            tried, self._is_trying = self._session.copy(), True
            try:
                yield tried
            finally:
                self._is_trying = False
                if tried is not self._session:
                    tried.close()

    def _replace(self, tried: Session) -> None:
        self._session.close()
        self._session = tried

    def note(self, line: str) -> None:
        """Takes the next line of the zone's notes. With a file it is on disk before this returns,
        in the notes beside the script. `Malformed`: it isn't one, or its fact can't follow those
        before it. `Misnamed`: the name of the script doesn't end in `.script`."""
        with self._guard.held():
            if self._file is not None:
                path_of(self._file.path)
            self._catch_up()
            with self._tried() as tried:
                tried.note(line)
                self.notes.append(line)
                self._replace(tried)

    def _catch_up(self) -> None:
        """Takes the notes that another program has written meanwhile."""
        for line in self.notes.more():
            self._take(line)
            self.notes.lines.append(line)

    def _take(self, line: str) -> None:
        """Takes a line of the file of notes."""
        try:
            self._session.note(line)
        except Malformed as error:
            raise Damaged(self.notes.path, error.line, error.reason) from None

    def due(self, now: float | None = None) -> list[Due]:
        """The reports that the rolls wait for, as they would be made at this moment, by the
        notes. `Malformed`: there are none."""
        moment = up(now)
        with self._guard.held():
            self._catch_up()
            return [Due.of(line) for line in self._session.due(moment).splitlines()]

    def next(self, policy: str, now: float | None = None) -> Todo:
        """What a policy says to do next at this moment, rounded down, by the notes. docs/POLICY.md
        has the form of a policy. `NotSaid`: the policy is refused, or a lifetime is shorter than
        its roll takes; or there are no notes."""
        moment = down(now)
        with self._guard.held():
            # (A closed key set says so.)
            self._session.closing()
            self._catch_up()
            lines = policy.removesuffix("\n").split("\n")
            return Todo.of(engine.next_line(lines, self.lines, self.notes.lines, moment))

    def status(self) -> Status:
        """The status of the zone, read from its JSON: `keys` and `rolls` are taken from it."""
        with self._guard.held():
            return self._session.status()

    def keys(self) -> dict[str, Key]:
        """The keys by reference."""
        return {key["reference"]: Key.of(key) for key in self.status()["keys"]}

    def rolls(self) -> dict[RollType, Roll]:
        """The rolls in progress."""
        return {RollType(roll["roll"]): Roll.of(roll) for roll in self.status()["rolls"]}

    def actions(self, roll: RollType) -> list[Action]:
        """What is due in a roll that is in progress; nothing for another."""
        known = self.rolls().get(roll)
        return known.due if known else []

    def wait_end(self, roll: RollType) -> WaitEnd | None:
        """The first second from which the roll's wait is accepted, if it is in one; `past-time` if
        no call can name it."""
        known = self.rolls().get(roll)
        return known.not_before if known else None

    def _closing(self) -> list[str]:
        with self._guard.held():
            return self._session.closing()

    @property
    def published(self) -> Published:
        """What has to be published now."""
        return Published.of(self._closing()[0])

    @property
    def chain(self) -> str:
        """Whether the chain of trust held all the time: `safe`, or `broken` and where."""
        return self._closing()[1].removeprefix("chain ")

    def verdict(self) -> Broken | None:
        """None if the chain of trust held all the time; else the first sets without one."""
        chain = self.chain
        if chain == "safe":
            return None
        parts = (part.split("=") for part in chain.split(" ")[1:])
        return Broken(**{name: int(number) for name, number in parts})


def _notes_of(path: Place, cut_torn: bool) -> Notes:
    """Notes have a place only beside a script with the name of one."""
    is_named = Path(path).suffix == ".script"
    return Notes(os.path.abspath(path) if is_named else None, cut_torn=cut_torn)


def _first(zone: str) -> str:
    """The first line of a script."""
    line = f"zone {zone}"
    try:
        if "\n" not in zone:
            engine.open_session(line).close()
            return line
    except Malformed:
        pass
    raise WrongArgument("zone", zone, "the name of a zone") from None


def _replayed(lines: Sequence[str]) -> tuple[Session, list[tuple[int, str]]]:
    """A session that has made the calls of these lines, and those that it has refused."""
    if not lines:
        raise Malformed(1, "the file is empty")
    session, refused = engine.open_session(lines[0]), []
    for number, line in enumerate(lines[1:], start=2):
        error = refusal_of(_reply_to(session, line))
        if isinstance(error, OutOfMemory):
            raise error
        if error:
            refused.append((number, str(error)))
    return session, refused


def _reply_to(session: Session, line: str) -> str:
    """The answer of a session that only this module has: so if it is lost, nothing else is."""
    try:
        return session.call(line)
    except Lost:
        raise OutOfMemory("out of memory") from None


def _accepted(session: Session, line: str) -> Accepted:
    """Has the session make the call, or raises why it is refused."""
    reply = _reply_to(session, line)
    if error := refusal_of(reply):
        raise error
    return Accepted.of(reply, session.calls)
