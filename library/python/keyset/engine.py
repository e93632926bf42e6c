"""What answers: sessions of the shared library, or the program if that isn't there. Both take a
script line by line and answer the same."""

from __future__ import annotations

import contextlib
import functools
import os
import warnings
from typing import Dict, Iterable, Iterator, List, Optional, Sequence, Tuple

from . import programs
from .errors import OutOfMemory, refusal_of
from .library import LibrarySession, answer, as_bytes, library
from .library import next_line as said_next
from .members import After, RoleMembers, Status, roles_of
from .programs import ProgramSession
from .session import Session

__all__ = ["answer", "due", "follow", "next_line", "open_session", "refused", "run", "status"]


class Slow(RuntimeWarning):
    """The library isn't there, and nobody has asked for the program."""


@functools.lru_cache(maxsize=None)
def _has_library() -> bool:
    """Whether the library answers. The program does if it isn't there, and never in silence, unless
    KEYSET_LIBRARY is empty or KEYSET_PROGRAMS names its folder."""
    if library() is not None:
        return True
    if not {"KEYSET_LIBRARY", "KEYSET_PROGRAMS"} & os.environ.keys():
        text = "libkeyset isn't there, so the program answers: each call runs all lines again"
        warnings.warn(text, Slow, stacklevel=4)
    return False


def open_session(line: str) -> Session:
    """A session for the zone that a script's first line names."""
    return LibrarySession(line) if _has_library() else ProgramSession(line)


def run(lines: Sequence[str]) -> List[str]:
    """The answers to a whole script: a line for each call, then the sets and the verdict."""
    if not _has_library():
        return programs.answers(lines)
    with contextlib.closing(open_session(*lines[:1] or [""])) as session:
        replies = [session.call(line) for line in lines[1:]]
        return [*replies, *session.closing()]


def refused(lines: Sequence[str]) -> List[Tuple[int, str]]:
    """The lines of a script that are refused, each with its number and the reason."""
    found = []
    for number, reply in enumerate(run(lines)[:-2], start=2):
        error = refusal_of(reply)
        if isinstance(error, OutOfMemory):
            raise error
        if error:
            found.append((number, str(error)))
    return found


def status(lines: Sequence[str]) -> Status:
    """The status of the zone after a script's last line."""
    if not _has_library():
        return programs.status(lines)
    with contextlib.closing(after(lines)) as session:
        return session.status()


def due(lines: Sequence[str], notes: Sequence[str], moment: int) -> Dict[str, Optional[int]]:
    """The reports that are due at a moment, by the notes: for each roll that waits for one its TTL,
    or None if a set isn't everywhere yet, or the moment lies before the roll's step."""
    return next(dues(lines, notes, [(len(lines), len(notes), moment)]))


def dues(
    lines: Sequence[str], notes: Sequence[str], places: Iterable[Tuple[int, int, int]]
) -> Iterator[Dict[str, Optional[int]]]:
    """What is due, as `due` gives it, at places of a script and its notes: after how many lines of
    each, and at which moment. No place may be before the one before it."""
    if not _has_library():
        for calls_end, notes_end, moment in places:
            yield _ttls(programs.due(lines[:calls_end], notes[:notes_end], moment))
        return
    with contextlib.closing(after(lines[:1])) as session:
        calls_begin, notes_begin = 1, 0
        for calls_end, notes_end, moment in places:
            for line in lines[calls_begin:calls_end]:
                session.call(line)
            for line in notes[notes_begin:notes_end]:
                session.note(line)
            calls_begin, notes_begin = calls_end, notes_end
            yield _ttls(session.due(moment))


def next_line(
    policy: Sequence[str], lines: Sequence[str], notes: Sequence[str], moment: int
) -> str:
    """What a policy says to do next at a second since 1970, by its lines, those of a script and
    those of its notes. `NotSaid`: one of these is refused, or a lifetime is too short."""
    if not _has_library():
        return programs.next_line(policy, lines, notes, moment)
    return said_next(_text(policy), _text(lines), _text(notes), moment)


def _text(lines: Sequence[str]) -> bytes:
    return as_bytes("".join(f"{line}\n" for line in lines))


def follow(lines: Sequence[str]) -> Iterator[After]:
    """What is so after each call of a script, all of whose lines are accepted. It is to be read
    before the next one is asked for."""
    if not _has_library():
        from . import pieces

        yield from pieces.follow(lines)
        return
    with contextlib.closing(open_session(lines[0])) as session:
        for line in lines[1:]:
            session.call(line)
            yield _After(session)


class _After:
    """What is so in a session."""

    def __init__(self, session: Session) -> None:
        self._session = session

    @property
    def published(self) -> Dict[str, List[str]]:
        from .values import Published

        return vars(Published.of(self._session.closing()[0]))

    @property
    def roles(self) -> List[Tuple[int, RoleMembers]]:
        return roles_of(self._session.status())


def _ttls(reports: str) -> Dict[str, Optional[int]]:
    from .values import Due

    return {one.roll.value: one.ttl for one in map(Due.of, reports.splitlines())}


def after(lines: Sequence[str]) -> Session:
    """A session that has made the calls of a script's lines."""
    session = open_session(*lines[:1] or [""])
    for line in lines[1:]:
        session.call(line)
    return session
