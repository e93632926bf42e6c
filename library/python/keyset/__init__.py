"""A proved DNSSEC key set for Python: sessions over its shared library, and a file of the lines
that were accepted. If the library isn't there, the program answers."""

import sys
from importlib import import_module
from typing import TYPE_CHECKING

if sys.version_info < (3, 9):
    raise ImportError("keyset wants Python 3.9 or later")

# The release that this package is part of.
__version__ = "1.1.0"

if TYPE_CHECKING:
    from .engine import (
        Slow,
        answer,
        due,
        follow,
        next_line,
        open_session,
        refused,
        run,
        status,
    )
    from .errors import (
        Closed,
        Damaged,
        Error,
        Forked,
        Locked,
        Lost,
        Malformed,
        Misnamed,
        NotKept,
        NotSaid,
        OutOfMemory,
        Refusal,
        Refused,
        Torn,
        Unavailable,
        Wait,
        WrongArgument,
    )
    from .file import Lines, create, locked
    from .keyset import KeySet
    from .members import Stamps, Status
    from .notes import Notes
    from .rolls import RollType
    from .session import Session
    from .values import Accepted, Action, Broken, Due, Key, Published, Role, Roll, Todo

__all__ = [
    "Accepted",
    "Action",
    "Broken",
    "Closed",
    "Damaged",
    "Due",
    "Error",
    "Forked",
    "Key",
    "KeySet",
    "Lines",
    "Locked",
    "Lost",
    "Malformed",
    "Misnamed",
    "NotKept",
    "NotSaid",
    "Notes",
    "OutOfMemory",
    "Published",
    "Refusal",
    "Refused",
    "Role",
    "Roll",
    "RollType",
    "Session",
    "Slow",
    "Stamps",
    "Status",
    "Todo",
    "Torn",
    "Unavailable",
    "Wait",
    "WrongArgument",
    "answer",
    "create",
    "due",
    "follow",
    "locked",
    "next_line",
    "open_session",
    "refused",
    "run",
    "status",
]

# Where a name is looked for. Each module is imported once it is needed: a command starts often.
MODULES = ("errors", "file", "engine", "notes", "session", "rolls", "values", "members", "keyset")


# (A checker of types would take any name for one of this package.)
if not TYPE_CHECKING:

    def __getattr__(name: str) -> object:
        for module in MODULES if name in __all__ else ():
            found = vars(import_module(f".{module}", __name__))
            if name in found:
                return found[name]
        raise AttributeError(f"module {__name__!r} has no attribute {name!r}")
