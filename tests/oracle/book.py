"""The runbooks as steps that an operator of the game takes, from `docs/courses.json`; and which
rules the guides say."""

import json
import re
from typing import NamedTuple

from keyset.rolls import ROLLS
from tests import TOP

DOCS = TOP / "docs"
COURSES = DOCS / "courses.json"
FIRST_KEYS, EARLY_END = "The first keys", "Ending a roll early"

# The actions of the key set as courses name what is published.
ASKS = {
    "UpdateDnskeyRrset": "dnskey",
    "UpdateRrsig": "zone",
    "CreateCdsRrset": "cds",
    "UpdateDsRrset": "ds",
}
# A rule of the guides ends with its mark. Its words begin with the paragraph, the item, the cell,
# or after the mark before.
MARK = re.compile(r"<!--rule:([a-z0-9-]+)-->")
BEGIN = re.compile(r"\n\n|\n\s*(?:-|\d+\.) |\||-->")
WORD = re.compile(r"\w\w+")


class RunbookError(Exception):
    """The runbook says something that the game doesn't know, or the key set doesn't ask for."""


class Step(NamedTuple):
    """A row of a runbook: what to publish, what to watch, which TTL to report, if any, whether the
    DNSKEY TTL must not rise meanwhile, and whether CDS has to be taken out before."""

    does: set
    watches: set
    report: tuple
    is_steady: bool
    takes_cds_out: bool


def known(kinds):
    if unknown := set(kinds) - {*ASKS.values()}:
        raise RunbookError(f"{COURSES.name}: {sorted(unknown)} is not known here")
    return set(kinds)


def report_of(row):
    """Which TTLs make the TTL of a report, and how: as the row says, and no safer."""
    if "sum" in row:
        return sum, [*row["sum"]]
    return (max, sorted(known(row["report"]))) if "report" in row else None


def step_of(row):
    """The step of a row. Without more words what is published is watched, except CDS."""
    does = known(row["publish"])
    watches = known(row.get("watch", does - {"cds"}))
    return Step(does, watches, report_of(row), "sum" in row, "cds" in does)


def courses():
    return json.loads(COURSES.read_text())


def read_book():
    """The steps of each roll and of the first keys, those of early ends by rolls."""
    table = courses()
    book = {name: [step_of(row) for row in rows] for name, rows in table["rolls"].items()}
    book[EARLY_END] = {roll: step_of(row) for roll, row in table["ended early"].items()}
    missing = {FIRST_KEYS, *ROLLS} - {name for name, steps in book.items() if len(steps) == 3}
    if missing or set(book[EARLY_END]) != set(ROLLS):
        raise RunbookError(f"{COURSES.name}: rows are missing, of {sorted(missing) or EARLY_END}")
    return book


def rules():
    """The rules that the operators' pages say, by their marks."""
    marks = set()
    for page in ("OPERATORS", "RUNBOOKS", "EMERGENCY"):
        text = (DOCS / f"{page}.md").read_text()
        for match in MARK.finditer(text):
            *_, rule = BEGIN.split(text[: match.start()])
            if len(WORD.findall(rule)) < 3:
                raise RunbookError(f"{page}: no rule ends with {match[0]}")
            marks.add(match[1])
    return marks


def left_out(points):
    """The points that the guides don't say."""
    said = rules()
    return frozenset(point for point in points if point.rule not in said)


# What follows the two waits of going unsigned.
UNSIGNED = tuple(step_of(row) for row in courses()["going unsigned"])
