"""The shared library, and sessions over it.

It is the one that KEYSET_LIBRARY names. Else it is the first of: the one that `make lib` has made;
one beside this package, or in the `lib` of the install that this package is part of; the one that
the system's loader finds."""

from __future__ import annotations

import contextlib
import ctypes
import functools
import json
import os
import weakref
from pathlib import Path
from typing import Callable, Iterator, List, Optional, cast

from .errors import Malformed, NotSaid, Unavailable, refusal_of
from .lines import why_malformed
from .members import Status
from .session import (
    ANSWERED,
    MALFORMED,
    NO_NOTES,
    NOT_SAID,
    NOT_TAKEN,
    REFUSED,
    SHORT,
    Guard,
    Session,
    fault,
)

# The version of the library's interface: KEYSET_VERSION of its header.
INTERFACE = 3
NAME = f"libkeyset.so.{INTERFACE}"
PACKAGE = Path(__file__).resolve().parent
# The top of the repository, or the folder in which `make install` has put this package.
TREE = PACKAGE.parents[2]
PLACES = (
    TREE / "library" / "out" / "lib" / "libkeyset.so",
    PACKAGE / NAME,
    TREE / "lib" / NAME,
)


class _Handle(ctypes.Structure):
    """What C keeps of a session."""

    _fields_ = [("place", ctypes.c_void_p), ("is_open", ctypes.c_bool)]


class _Answered(ctypes.Structure):
    _fields_ = [
        ("status", ctypes.c_uint32),
        ("length", ctypes.c_size_t),
        ("line", ctypes.c_size_t),
    ]


@functools.lru_cache(maxsize=None)
def library() -> Optional[ctypes.CDLL]:
    """The shared library. None: there is none, or KEYSET_LIBRARY is empty, which asks for the
    program. `Unavailable`: it can't be used."""
    named = os.environ.get("KEYSET_LIBRARY")
    if named is not None:
        return _checked(named, _loaded(named)) if named else None
    for path in filter(Path.is_file, PLACES):
        return _checked(str(path), _loaded(str(path)))
    for name in _of_loader():
        try:
            return _checked(name, ctypes.CDLL(name))
        except OSError:
            continue
    return None


def needed() -> ctypes.CDLL:
    """The shared library. `Unavailable`: it isn't there, or can't be used."""
    found = library()
    if found is None:
        raise Unavailable("the library isn't there: 'make lib' makes it, KEYSET_LIBRARY names it")
    return found


def _of_loader() -> Iterator[str]:
    """The names by which the system's loader may know it."""
    yield NAME
    # (It starts compilers, so it comes last, and only if it is needed.)
    import ctypes.util

    found = ctypes.util.find_library("keyset")
    if found is not None:
        yield found


def _loaded(path: str) -> ctypes.CDLL:
    try:
        return ctypes.CDLL(path)
    except OSError as error:
        raise Unavailable(f"the library can't be loaded: {error}") from None


def _checked(path: str, code: ctypes.CDLL) -> ctypes.CDLL:
    """The library with the types of its functions, if it is of this version."""
    try:
        code.keyset_version.restype = ctypes.c_uint32
        version = code.keyset_version()
        if version == INTERFACE:
            _declare(code)
            return code
    except AttributeError as error:
        raise Unavailable(f"{path}: it isn't this library, or is an older one: {error}") from None
    raise Unavailable(f"{path}: the library is of version {version}, and not of {INTERFACE}")


def _declare(code: ctypes.CDLL) -> None:
    text, handle = (ctypes.c_char_p, ctypes.c_size_t), ctypes.POINTER(_Handle)
    answers = {
        "answer": [*text, *text],
        "call": [handle, *text, *text],
        "told": [handle, *text],
        "closing": [handle, *text],
        "status": [handle, *text],
        "due": [handle, ctypes.c_uint64, *text],
    }
    statuses = {"open": [*text, handle], "note": [handle, *text], "copy": [handle, handle]}
    # (An older library of this version lacks these.)
    if hasattr(code, "keyset_accept"):
        statuses["accept"] = [handle, *text]
    if hasattr(code, "keyset_forgo_notes"):
        statuses["forgo_notes"] = [handle]
    if hasattr(code, "keyset_next"):
        answers["next"] = [*text, *text, *text, ctypes.c_uint64, *text]
    for names, restype in ((answers, _Answered), (statuses, ctypes.c_uint32)):
        for name, takes in names.items():
            function = getattr(code, f"keyset_{name}")
            function.restype, function.argtypes = restype, takes
    code.keyset_close.restype, code.keyset_close.argtypes = None, [handle]


# Asks the library for a text: with a buffer and its length.
Ask = Callable[["ctypes.Array[ctypes.c_char]", int], _Answered]


class LibrarySession(Session):
    """A session of the shared library."""

    def __init__(self, line: str) -> None:
        self._begin(0, 0)
        data = as_bytes(line)
        status = self._library.keyset_open(data, len(data), ctypes.byref(self._handle))
        if status == MALFORMED:
            raise Malformed(1, why_malformed(line, is_first=True))
        if status:
            raise fault(status)

    def _begin(self, calls: int, notes: int) -> None:
        """Begins with a closed handle, and the numbers of calls and of notes. If nobody closes the
        session, it is closed when it is no longer in use."""
        self._library, self._handle, self._guard = needed(), _Handle(), Guard()
        self._calls, self._notes = calls, notes
        close = self._library.keyset_close
        self._close = weakref.finalize(self, _close, close, self._handle, self._guard)
        self._close.atexit = False

    @property
    def calls(self) -> int:
        return self._calls

    def call(self, line: str) -> str:
        data = as_bytes(line)
        with self._guard.held():
            ask = functools.partial(self._library.keyset_call, self._by(), data, len(data))
            text = self._answer(ask, self._again("told"), line)
            self._calls += 1
        return text.rstrip("\n")

    def accept(self, line: str) -> str:
        with self._guard.held():
            if not hasattr(self._library, "keyset_accept"):
                return self._accept_on_copy(line)
            data = as_bytes(line)
            status = self._library.keyset_accept(self._by(), data, len(data))
            if status == MALFORMED:
                raise Malformed(self._calls + 2, why_malformed(line))
            if status not in (ANSWERED, REFUSED):
                raise fault(status)
            self._calls += status == ANSWERED
            return self._asked("told").rstrip("\n")

    def _accept_on_copy(self, line: str) -> str:
        with contextlib.closing(self.copy()) as tried:
            reply = tried.call(line)
            if refusal_of(reply) is None:
                self._take_over(tried)
        return reply

    def _take_over(self, tried: LibrarySession) -> None:
        """Exchanges the sessions of C, which may be moved."""
        one, other = self._handle, tried._handle
        one.place, other.place = other.place, one.place
        one.is_open, other.is_open = other.is_open, one.is_open
        self._calls = tried._calls

    def closing(self) -> List[str]:
        return self._asked("closing").splitlines()

    def status(self) -> Status:
        return cast(Status, json.loads(self._asked("status")))

    def note(self, line: str) -> None:
        data = as_bytes(line)
        with self._guard.held():
            status = self._library.keyset_note(self._by(), data, len(data))
            if status in NOT_TAKEN:
                raise Malformed(self._notes + 1, NOT_TAKEN[status])
            if status:
                raise fault(status)
            self._notes += 1

    def forgo_notes(self) -> None:
        with self._guard.held():
            if not hasattr(self._library, "keyset_forgo_notes"):
                raise Unavailable("the library is of a release before keyset_forgo_notes")
            status = self._library.keyset_forgo_notes(self._by())
            if status:
                raise fault(status)
            self._notes = 0

    def due(self, moment: int) -> str:
        with self._guard.held():
            if not self._notes and self._handle.is_open:
                raise Malformed(1, NO_NOTES)
            return self._asked("due", moment)

    def copy(self) -> LibrarySession:
        twin = LibrarySession.__new__(LibrarySession)
        with self._guard.held():
            twin._begin(self._calls, self._notes)
            status = self._library.keyset_copy(self._by(), twin._by())
        if status:
            raise fault(status)
        return twin

    def close(self) -> None:
        if self._guard.is_own:
            with self._guard.held():
                self._close()

    def _by(self) -> ctypes._Pointer[_Handle]:
        return cast("ctypes._Pointer[_Handle]", ctypes.byref(self._handle))

    def _asked(self, name: str, *more: int) -> str:
        """The answer to a question."""
        with self._guard.held():
            ask = self._again(name, *more)
            return self._answer(ask, ask)

    def _again(self, name: str, *more: int) -> Ask:
        return functools.partial(getattr(self._library, f"keyset_{name}"), self._by(), *more)

    def _answer(self, ask: Ask, again: Ask, line: str = "") -> str:
        """The answer. If the buffer is too short for it, asks again with one that isn't."""
        room = 4096
        while True:
            out = ctypes.create_string_buffer(room)
            outcome = ask(out, room)
            if outcome.status == ANSWERED:
                return out.raw[: outcome.length].decode()
            if outcome.status == MALFORMED:
                raise Malformed(self._calls + 2, why_malformed(line))
            if outcome.status != SHORT:
                raise fault(outcome.status)
            room, ask = outcome.length, again


def _close(close: Callable[[object], None], handle: _Handle, guard: Guard) -> None:
    """Closes a session of this process. Its memory in a child goes with that."""
    if guard.is_own:
        close(ctypes.byref(handle))


def as_bytes(line: str) -> bytes:
    """A line for the library, which takes only ASCII."""
    return line.encode("utf-8", "surrogatepass")


def answer(script: bytes) -> str:
    """The library's answers to a whole script, in bytes, in the form in which the program `keyset`
    writes them."""
    ask, room = needed().keyset_answer, 4096
    while True:
        out = ctypes.create_string_buffer(room)
        outcome = ask(script, len(script), out, room)
        if outcome.status == ANSWERED:
            return out.raw[: outcome.length].decode()
        if outcome.status == MALFORMED:
            raise Malformed(outcome.line)
        if outcome.status != SHORT:
            raise fault(outcome.status)
        room = outcome.length


def next_line(policy: bytes, script: bytes, notes: bytes, moment: int) -> str:
    """What a policy says to do next at a second since 1970, in the form in which the program
    `keyset next` writes it."""
    code, room = needed(), 4096
    if not hasattr(code, "keyset_next"):
        raise Unavailable("the library is of a release before keyset_next")
    while True:
        out = ctypes.create_string_buffer(room)
        texts = (part for text in (policy, script, notes) for part in (text, len(text)))
        outcome = code.keyset_next(*texts, moment, out, room)
        text = out.raw[: outcome.length].decode()
        if outcome.status == ANSWERED:
            return text
        if outcome.status == NOT_SAID:
            raise NotSaid(text)
        if outcome.status != SHORT:
            raise fault(outcome.status)
        room = outcome.length
