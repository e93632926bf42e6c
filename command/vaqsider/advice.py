"""What to do next with a zone, as the proved key set says it: the library, or the program if that
isn't there. Nothing else of this command knows how that is asked."""

from __future__ import annotations

import re
from dataclasses import dataclass
from typing import Sequence

import keyset
from keyset import Unavailable
from keyset.lines import FORMS

from .errors import UNAVAILABLE, Failure

CALL, PUBLISH, WATCH, KEY, UNTIL, NOTHING = "call", "publish", "watch", "key", "until", "nothing"
FORM = re.compile(
    r"(publish|watch) (ds|dnskey|zone)|key (ksk|zsk|csk) \d{1,3}|until \d{1,20}|nothing: .*"
)
# How a program ends that doesn't know the word yet.
NO_WORD = "status 64: no such word"
NOT_KNOWN = "keyset next: the program keyset doesn't know this word: it is older than the command"
RESTS = "nothing: the zone is as the policy wants it"


@dataclass(frozen=True)
class Advice:
    """What is to be done next: its word, and the line that says it. Of a call the line is that of a
    script."""

    word: str
    line: str

    @property
    def is_stuck(self) -> bool:
        """Whether a roll can't go on, and nothing is done for that reason."""
        return self.word == NOTHING and self.line != RESTS

    @property
    def fields(self) -> list[str]:
        return self.line.split(" ")[1:]


def parsed(line: str) -> Advice:
    """What an answer says."""
    word = line.partition(" ")[0].rstrip(":")
    if word in FORMS:
        return Advice(CALL, line)
    if not FORM.fullmatch(line):
        raise Failure(f"keyset next: it answers {line!r}, which this command doesn't know",
                      UNAVAILABLE)
    return Advice(word, line)


def ask(policy: Sequence[str], lines: Sequence[str], notes: Sequence[str], now: int) -> str:
    """What is answered, by the lines of a policy, of a script and of its notes, at a second since
    1970."""
    try:
        return keyset.next_line(policy, lines, notes, now).strip("\n")
    except (Unavailable, ValueError) as error:
        raise Failure(NOT_KNOWN if NO_WORD in str(error) else str(error), UNAVAILABLE) from None


def said(policy: Sequence[str], lines: Sequence[str], notes: Sequence[str], now: int) -> Advice:
    return parsed(ask(policy, lines, notes, now))
