"""The errors of this package. `Error` is the base of all of them."""

from __future__ import annotations

import os
from enum import Enum

EARLY = "wait for duration "
OUT_OF_MEMORY = "out of memory"
REFUSED = "refused: "


class Error(Exception):
    """The base of all errors of this package. Faults of files are the `OSError` of Python, except
    `NotKept`, which is both."""


class Refusal(Enum):
    """Why a call is refused, as `domain` names it."""

    KEY_EXISTS = "key already exists"
    KEY_NOT_FOUND = "key not found"
    KEY_NOT_OLD = "key is still in use, not old"
    DUPLICATE_KEY_TAG = "Key tag already present"
    WRONG_KEY_TYPE = "key has the wrong type"
    WRONG_KEY_STATE = "key is in the wrong state"
    NO_SUITABLE_KEY_PRESENT = "no suitable key present after key roll"
    WRONG_STATE_FOR_ROLL_OPERATION = "wrong roll state for operation"
    CONFLICTING_ROLL_IN_PROGRESS = "conflicting roll is in progress"
    ALGORITHM_SETS_MISMATCH = "algorithm set mismatch for non-algorithm key roll"


class Refused(Error):
    """The call was refused, and changed nothing. `kind` says why; a wait that is too early has
    none."""

    kind: Refusal | None

    def __init__(self, text: str) -> None:
        super().__init__(text)
        self.kind = None if text.startswith(EARLY) else Refusal(text)


class Wait(Refused):
    """The wait isn't over: ask again after this many seconds."""

    def __init__(self, text: str) -> None:
        super().__init__(text)
        self.seconds = int(text[len(EARLY) : -len("s")])


class OutOfMemory(Error, MemoryError):
    """There was no memory, and nothing has changed: make the same call again."""


class Lost(Error, MemoryError):
    """Memory ran out after a part of a call was made by `Session.call`, so the session is closed:
    open it anew with its lines. A `KeySet` never raises it."""

    def __init__(self) -> None:
        super().__init__("out of memory in a call: the session is closed")


class Malformed(Error, ValueError):
    """This line of a script or of notes, counted from 1, doesn't have the form of a line, or its
    fact can't follow those before it."""

    def __init__(self, line: int, reason: str = "") -> None:
        super().__init__(f"line {line}: malformed" + (f": {reason}" if reason else ""))
        self.line, self.reason = line, reason


class NotSaid(Error, ValueError):
    """It isn't said what a policy wants to be done next, and why: the policy, the script or the
    notes are refused, or a lifetime is shorter than its roll takes."""


class WrongArgument(Error, ValueError):
    """An argument of a call can't stand in a line. No line was made of it."""

    def __init__(self, name: str, value: object, wanted: str) -> None:
        super().__init__(f"{name} is {value!r}, and has to be {wanted}")
        self.name, self.value, self.wanted = name, value, wanted


class Misnamed(Error, ValueError):
    """The name of a script doesn't end in `.script`: two zones could have the same notes."""


class Damaged(Error, ValueError):
    """The file, or the text of a script, isn't what was kept: not from this line on."""

    def __init__(self, path: str | os.PathLike[str] | None, line: int, reason: str) -> None:
        place = "" if path is None else f"{os.fspath(path)}: "
        super().__init__(f"{place}line {line}: {reason}")
        self.line, self.reason = line, reason


class Torn(Damaged):
    """The last line of the file has no line feed. A crash may have torn it, and then nobody acted
    on it; or it is whole, and comes from an editor."""

    def __init__(self, path: str | os.PathLike[str], line: int) -> None:
        text = "its line feed is missing: a crash may have torn it, or an editor left that out"
        super().__init__(path, line, text)


class Locked(Error):
    """Another program has the file open for writing, or has changed it meanwhile."""


class NotKept(Error, OSError):
    """The line of a call couldn't be kept, so the call isn't made. `remains` says whether the line
    may be in the file all the same: it couldn't be cut off again."""

    def __init__(self, cause: OSError, path: str | os.PathLike[str], remains: int | None) -> None:
        text = "the line was cut off again, and nothing has changed"
        if remains is not None:
            text = (
                f"the line may still stand after byte {remains}, and wasn't acted on: cut it off"
            )
        super().__init__(cause.errno, f"{cause.strerror}: {text}", os.fspath(path))
        self.remains = remains is not None


class Closed(Error, ValueError):
    """The key set is closed."""

    def __init__(self) -> None:
        super().__init__("the key set is closed")


class Forked(Error):
    """The process that opened this key set has forked, and this one is its child."""

    def __init__(self) -> None:
        super().__init__("the key set belongs to the process that this one was forked from")


class Unavailable(Error):
    """The library, or a program, isn't there or is of another version."""


def refusal_of(reply: str) -> Refused | OutOfMemory | None:
    """The error that a refused reply is, or None for one that was accepted."""
    if not reply.startswith(REFUSED):
        return None
    text = reply[len(REFUSED) :]
    if text == OUT_OF_MEMORY:
        return OutOfMemory(text)
    return Wait(text) if text.startswith(EARLY) else Refused(text)
