"""Words for people: actions, refusals, moments."""

from __future__ import annotations

from typing import TYPE_CHECKING, Iterable, Iterator

from keyset.rolls import WATCHED

from .errors import Failure

if TYPE_CHECKING:
    from typing_extensions import TypeGuard

    from keyset import Action, Published

# What each action asks, with the sets that have to be published.
ACTIONS = {
    "UpdateDnskeyRrset": "publish the DNSKEY set {dnskey}, signed by {signers}",
    "UpdateRrsig": "publish the zone signed by {zone} and by no other key",
    "CreateCdsRrset": "publish CDS and CDNSKEY for {ds}, until all servers of the parent have this "
    "DS set; then take them out",
    "RemoveCdsRrset": "CDS and CDNSKEY are out by now",
    "UpdateDsRrset": "have the parent's DS set changed to {ds}",
}
# What an action asks that has sets of a kind watched.
WATCHES = {
    "dnskey": "watch until all servers of the zone give this DNSKEY set",
    "zone": "watch until all servers of the zone give these signatures",
    "ds": "watch until all servers of the parent give this DS set",
}

# What to do about a refusal, by how its text begins.
REFUSALS = {
    "wait for duration": "too early: make the call again then",
    "key already exists": "choose another reference, or delete that key first",
    "key not found": "look for a misspelling, or a deletion before",
    "key is still in use, not old": "roll the key out first",
    "Key tag already present": "make another key: no two keys of a set have one tag",
    "key has the wrong type": "choose another roll, or another key",
    "key is in the wrong state": "of a start: list a fresh key, once. Of a wait: a key that it "
    "checks lacks its stamp, as after a flag was set by hand",
    "no suitable key present after key roll": "list a new key, or leave a working one out of "
    "the old keys",
    "wrong roll state for operation": "'vaqsider status' says which call comes next",
    "conflicting roll is in progress": "another roll has to end first",
    "algorithm set mismatch for non-algorithm key roll": "use algorithm-roll, or keys of the "
    "same algorithms",
}


def listed(names: Iterable[str]) -> str:
    return " ".join(names) or "no key"


def asks(actions: Iterable[Action], published: Published) -> Iterator[str]:
    """What actions ask, in plain words."""
    sets = {kind: listed(keys) for kind, keys in vars(published).items()}
    for name in (action.value for action in actions):
        yield WATCHES[WATCHED[name]] if name in WATCHED else ACTIONS[name].format(**sets)


def kinds_of(actions: Iterable[Action], of: str = "") -> list[str]:
    """The kinds of sets that these actions ask to watch: `dnskey`, `zone` or `ds`. The names of the
    actions may have to begin with a word."""
    names = (action.value for action in actions)
    return [WATCHED[name] for name in names if name in WATCHED and name.startswith(of)]


def refusal(reason: str) -> str:
    """What to do about a refusal."""
    return next((do for text, do in REFUSALS.items() if reason.startswith(text)), "")


def utc(seconds: float, form: str) -> str:
    import datetime

    try:
        return datetime.datetime.fromtimestamp(seconds, datetime.timezone.utc).strftime(form)
    except (ValueError, OverflowError):
        raise Failure(f"no calendar has the moment {seconds}") from None


def moment(seconds: float) -> str:
    """A moment for people, in UTC. Moments of examples, near the start of 1970, stay
    numbers."""
    return utc(seconds, "%Y-%m-%d %H:%M:%SZ") if is_date(seconds) else str(seconds)


def is_date(seconds: float | None) -> TypeGuard[float]:
    return seconds is not None and 10**8 < seconds < 10**11


def duration(seconds: int) -> str:
    """A time span in its two largest units."""
    parts = []
    for unit, size in (("d", 86400), ("h", 3600), ("min", 60), ("s", 1)):
        count, seconds = divmod(seconds, size)
        if count:
            parts.append(f"{count} {unit}")
    return " ".join(parts[:2]) or "0 s"


def table(rows: Iterable[Iterable[object]]) -> Iterator[str]:
    """Rows of texts in columns."""
    cells = [["-" if cell is None else str(cell) for cell in row] for row in rows]
    widths = [max(map(len, column)) for column in zip(*cells)]
    for row in cells:
        yield "  ".join(cell.ljust(width) for cell, width in zip(row, widths)).rstrip()
