"""The words that show rolls: those to come, and those that were made."""

from __future__ import annotations

from keyset.rolls import ROLLS

from ..arguments import moment
from .common import DELAYS, KEYS, OUT, SCRIPT, TTLS
from .word import Argument, Word, flag, several

PLAN = Word(
    "plan",
    "shows a roll before anything is done",
    """\
TTLs and delays are of DS sets, DNSKEY sets and the rest of the zone, in seconds. What isn't
given is what the notes say, or else 86400 3600 3600 and 86400 600 600.
""",
    (
        SCRIPT,
        Argument(
            "ROLL", metavar="ROLL", choices=(*ROLLS,),
            help=" or ".join((", ".join([*ROLLS][:-1]), [*ROLLS][-1])),
        ),
        Argument("OLD", help="old keys, with commas between them, or -"),
        Argument("NEW", help="new keys, with commas between them, or -"),
        several("--first", "LINE", "a line before it, as 'add KEYFILE'"),
        Argument("--start", metavar="SECONDS", type=moment, help="when it starts (now)"),
        TTLS,
        DELAYS,
        Argument(
            "--signer", metavar="SIGNER",
            help="refuse a roll that this signer of 'act' can't do, or that a key which is away "
            "has not signed",
        ),
        Argument("--signer-config", metavar="PATH", help="where its settings are, as of 'act'"),
        KEYS,
        flag("--script", "print the lines"),
        flag("--calendar", "print an iCalendar file"),
        flag("--picture", "print a picture as SVG"),
    ),
)

DRAW = Word(
    "draw",
    "draws the timeline as SVG",
    """\
A row for each roll with its phases, and one for each key in each set: solid while it is in,
hatched while caches may hold what was taken out, by the notes or else by the reports. The
file begins with the same in letters, for terminals.
""",
    (
        SCRIPT,
        Argument(
            "--since", metavar="SECONDS", type=moment,
            help="where the picture begins. By itself the last roll has at least half of its width",
        ),
        OUT,
    ),
)

WORDS = (PLAN, DRAW)
