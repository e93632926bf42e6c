"""The words that make a call, and that show what was accepted."""

from __future__ import annotations

from .common import DRY_RUN, SCRIPT, SCRIPTS, STORE_OF_ZONE
from .word import Argument, Word, flag

CALL = Word(
    "call",
    "makes one call",
    """\
In the line, 'now' stands for the moment: a report's is rounded up, any other down. 'add
KEYFILE' and 'add-csk KEYFILE' add the key of a file, 'add KEYFILE REFERENCE' one whose private
half is in a store, under this name. Refused, nothing is kept.
""",
    (
        SCRIPT,
        Argument("LINE", help="a line of a script, as 'wait1 zsk-roll now'"),
        flag("--although", "make it although it can't be true"),
        DRY_RUN,
        STORE_OF_ZONE,
    ),
)

STATUS = Word(
    "status",
    "shows where each key is and what comes next",
    """\
Each key: its kind, tag, algorithm and state, in which sets it is, old or new in which roll,
and whether it may be deleted. Each roll: its phase, whom it waits for, what is due, and the
next call. If the zone has a policy, and a tick was made, it says what that said; a roll that
ticks go on with waits for tick. Keys have short names: the role and the month in which one was
made, as zsk-2026-11, and zsk-2026-11-2 for the next. A line that is typed may have them for
references.
""",
    (SCRIPTS,),
)

CHECK = Word(
    "check",
    "says what was accepted and can't be true",
    """\
The exit status is that of the worst finding: 1 something is due, 2 a line can't be true, 3 the
chain of trust is broken, or a file is damaged or missing, or a program is missing. A look of
'watch --state' that is older than a day is no ground to say that all is well.
""",
    (SCRIPTS,),
)

WORDS = (CALL, STATUS, CHECK)
