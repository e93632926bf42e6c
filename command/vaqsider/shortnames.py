"""Short names for keys: the role and the month in which the key was made, as `zsk-2026-11`. They
stand for references wherever a line is typed."""

from __future__ import annotations

from collections import Counter
from typing import Sequence

from keyset.lines import Line

from . import words

ROLE = {"add-ksk": "ksk", "add-zsk": "zsk", "add-csk": "csk"}
# The fields of a line that name keys.
OF_KEYS = ("REF", "OLD", "NEW")


def names(lines: Sequence[str]) -> dict[str, str]:
    """The short name of each key that was added, by its reference. The second of a month ends in
    -2."""
    counts: Counter[str] = Counter()
    short = {}
    for line in map(Line, lines):
        if line.word in ROLE and words.is_date(line.moment):
            name = f"{ROLE[line.word]}-{words.utc(line.moment, '%Y-%m')}"
            counts[name] += 1
            short[line.fields["REF"]] = name if counts[name] == 1 else f"{name}-{counts[name]}"
    return short


def full(text: str, lines: Sequence[str]) -> str:
    """A line with the references of keys in the place of their short names."""
    line, found = Line(text), {name: reference for reference, name in names(lines).items()}
    known = {Line(it)["REF"] for it in lines}
    fields = text.split(" ")
    for place, name in enumerate(line.fields, start=1):
        if name in OF_KEYS and not line.word.startswith("add-"):
            keys = fields[place].split(",")
            fields[place] = ",".join(it if it in known else found.get(it, it) for it in keys)
    return " ".join(fields)
