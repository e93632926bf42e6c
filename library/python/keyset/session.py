"""A session: a key set that takes a script line by line, of the library or of the program."""

from __future__ import annotations

import contextlib
import os
import threading
from abc import ABC, abstractmethod
from typing import Iterator, List

from .errors import Closed, Error, Forked, Lost, OutOfMemory, Unavailable
from .members import Status

ANSWERED, MALFORMED, OUT_OF_MEMORY, SHORT, CLOSED, REFUSED, LOST = 0, 1, 3, 4, 5, 10, 12
NOT_SAID, FORGONE = 13, 14
# Why a line of notes isn't taken.
NOT_TAKEN = {
    MALFORMED: "malformed",
    7: "no such call yet",
    8: "seen before it was published",
    9: "moment before the last one",
    11: "published before its call",
    FORGONE: "the session forgoes notes",
}
NO_NOTES = "there are no notes yet: the first line is 'before TTL TTL TTL'"


def fault(status: int) -> Error:
    """The error for a status without an answer."""
    if status == CLOSED:
        return Closed()
    if status == OUT_OF_MEMORY:
        return OutOfMemory("out of memory")
    if status == LOST:
        return Lost()
    return Unavailable(f"the library says status {status}, which this package doesn't know")


class Guard:
    """Lets one thread at a time in, and no child of the process that made it."""

    def __init__(self) -> None:
        self._threads, self._pid = threading.RLock(), os.getpid()

    @property
    def is_own(self) -> bool:
        """Whether this is the process that made it."""
        return os.getpid() == self._pid

    @contextlib.contextmanager
    def held(self) -> Iterator[None]:
        # (In a child another thread's lock may be held for ever, so this comes first.)
        if not self.is_own:
            raise Forked
        with self._threads:
            yield


class Session(ABC):
    """A key set that takes a script line by line, and is kept in memory. Threads may share it: each
    question and each call waits for the one before it. Once it is closed, they raise `Closed`."""

    @abstractmethod
    def call(self, line: str) -> str:
        """Makes the call of the next line of a script, and gives its answer. A refused call counts
        as one too. After `OutOfMemory` it is as it was, and after `Lost` it is closed."""

    @abstractmethod
    def accept(self, line: str) -> str:
        """Makes the call of a line if the key set accepts it, and gives its answer. A refused call
        isn't made, and has no number."""

    @property
    @abstractmethod
    def calls(self) -> int:
        """How many calls were made: the number of the last one."""

    @abstractmethod
    def closing(self) -> List[str]:
        """The lines of the published sets and of the verdict, after the calls so far."""

    @abstractmethod
    def status(self) -> Status:
        """The status of the zone, read from its JSON."""

    @abstractmethod
    def note(self, line: str) -> None:
        """Takes the next line of the zone's notes. Notes stay when more calls are made."""

    @abstractmethod
    def forgo_notes(self) -> None:
        """Gives up the notes, and what is kept for them: 16 bytes for each call. From then on each
        line of notes is `Malformed`, and so is each question for reports."""

    @abstractmethod
    def due(self, moment: int) -> str:
        """The reports that are due at a second since 1970, by the notes: a line for each."""

    @abstractmethod
    def copy(self) -> Session:
        """Another session in the same state, with the same notes."""

    @abstractmethod
    def close(self) -> None:
        """Closes it. A closed one stays closed."""
