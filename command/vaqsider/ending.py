"""How a tick ends, and what it has done."""

from __future__ import annotations

from dataclasses import dataclass
from typing import Callable

from .errors import BROKEN, DUE, OK, WARNING

# What the status of a tick means.
MEANS = {OK: "rests", DUE: "waits", WARNING: "needs a person", BROKEN: "broken"}
# The events for an operator's command, beside what needs a person for another reason.
REFUSED, STUCK, PARENT_LACKS, RUN_LOW = "refused", "stuck", "parent lacks", "signatures run low"


@dataclass(frozen=True)
class Deed:
    """Something that a tick has done, for the log."""

    moment: int
    zone: str
    deed: str
    text: str


@dataclass(frozen=True)
class End:
    """How a tick ends: 0 nothing is needed, 1 it waits for servers or the parent, 2 it needs a
    person, 3 something is broken. From `until` on there may be something to do. `event` is what
    needs a person, or will if that lasts."""

    status: int
    text: str
    until: int | None = None
    event: str = ""


class EndOfTick(Exception):
    """Ends a tick."""

    def __init__(self, status: int, text: str, until: int | None = None, event: str = "") -> None:
        super().__init__(text)
        self.end = End(status, text, until, event)


Log = Callable[[Deed], None]
Clock = Callable[[], float]
