"""The form of a script's lines: how a line is completed with the clock, and why one is malformed.

The key set reads lines by itself, and more strictly. This module has the words for people, and
finds the fields of a line that the key set has read."""

from __future__ import annotations

import re
from typing import Callable, Dict, Optional, Sequence, Tuple

from .rolls import ROLLS, TIMED

FORMS = {
    "add-ksk": "REF PRIV ALG TAG TIME YN",
    "add-zsk": "REF PRIV ALG TAG TIME YN",
    "add-csk": "REF PRIV ALG TAG TIME YN",
    "add-public": "REF ALG TAG TIME YN",
    "start": "ROLL OLD NEW TIME",
    "report1": "ROLL TTL TIME",
    "wait1": "ROLL TIME",
    "report2": "ROLL TTL TIME",
    "wait2": "ROLL TIME",
    "done": "ROLL",
    "abort": "ROLL",
    "delete": "REF",
    "set-decoupled": "REF YN",
    "set-present": "REF YN TIME",
    "set-signer": "REF YN",
    "set-at-parent": "REF YN",
    "set-stale": "REF",
    "set-visible": "REF TIME",
    "set-ds-visible": "REF TIME",
    "set-rrsig-visible": "REF TIME",
}
# The lines with the moment of the call. In others it is a stamp of a key.
OF_CLOCK = (*TIMED, "set-present")
ALGORITHMS = {
    "RSASHA256": 8,
    "RSASHA512": 10,
    "ECDSAP256SHA256": 13,
    "ECDSAP384SHA384": 14,
    "ED25519": 15,
    "ED448": 16,
}
NAMES = {number: name for name, number in ALGORITHMS.items()}
REFERENCE = re.compile(r"(?!-\Z)[!-+\--~]+")


def _is_number(text: str, most: int) -> bool:
    return re.fullmatch(r"[0-9]{1,20}", text) is not None and int(text) <= most


# What a field has to be: a test, and the words for people.
FIELDS: Dict[str, Tuple[Callable[[str], object], str]] = {
    "REF": (REFERENCE.fullmatch, "a reference: visible ASCII without a comma"),
    "PRIV": (re.compile(r"[!-+\--~]+").fullmatch, "a reference of the private key, or - for none"),
    "OLD": (re.compile(r"[!-~]+").fullmatch, "references with commas between them, or -"),
    "NEW": (re.compile(r"[!-~]+").fullmatch, "references with commas between them, or -"),
    "ALG": (lambda text: text in ALGORITHMS or _is_number(text, 255), "an algorithm, to 255"),
    "TAG": (lambda text: _is_number(text, 65535), "a key tag, to 65535"),
    "TTL": (lambda text: _is_number(text, 2**32 - 1), "a TTL in whole seconds"),
    "TIME": (lambda text: _is_number(text, 2**64 - 1), "a moment in whole seconds since 1970"),
    "YN": (("yes", "no").__contains__, "yes or no"),
    "ROLL": (ROLLS.__contains__, "one of " + ", ".join(ROLLS)),
}


class Line:
    """A well-formed line: its word, and its fields by name."""

    def __init__(self, text: str) -> None:
        self.text = text
        self.word, *fields = text.split(" ")
        self._names = FORMS.get(self.word, "").split()
        self.fields = dict(zip(self._names, fields))

    def __getitem__(self, name: str) -> Optional[str]:
        return self.fields.get(name)

    @property
    def moment(self) -> Optional[int]:
        """The moment in the line, in seconds, if it has one."""
        return int(self.fields["TIME"]) if "TIME" in self.fields else None

    @property
    def ttl(self) -> Optional[int]:
        return int(self.fields["TTL"]) if "TTL" in self.fields else None

    @property
    def roll(self) -> Optional[str]:
        return self["ROLL"]

    @property
    def is_report(self) -> bool:
        return self.word.startswith("report")


def at(text: str, clock: float) -> str:
    """The line with the clock's moment instead of `now`. That of a report is rounded up, any other
    down."""
    line = Line(text)
    if line["TIME"] != "now":
        return text
    seconds = -int(-clock // 1) if line.is_report else int(clock // 1)
    words = text.split(" ")
    words[1 + line._names.index("TIME")] = str(seconds)
    return " ".join(words)


def why_malformed(text: str, is_first: bool = False) -> str:
    """What is wrong with a malformed line, in words."""
    if text.endswith("\r"):
        return "it ends in a carriage return: save the file with line feeds only"
    if text.startswith(("#", ";", "//")):
        return "a script has no comments"
    if is_first:
        return "the first line has to be 'zone ' and the name of the zone"
    if not text:
        return "the line is empty"
    if "\n" in text:
        return "it has a line feed in it"
    if not text.isascii():
        return "it has a character that isn't ASCII"
    if "\t" in text:
        return "there is a tab: fields stand one space apart"
    if text != text.strip(" ") or "  " in text:
        return "there is a space too many"
    return _wrong_field(text.split(" "))


def _wrong_field(words: Sequence[str]) -> str:
    form = FORMS.get(words[0])
    if form is None:
        return f"'{words[0]}' is no call"
    names = form.split()
    if len(names) != len(words) - 1:
        return f"it has to be: {words[0]} {form}"
    for name, word in zip(names, words[1:]):
        fits, wanted = FIELDS[name]
        if not fits(word):
            return f"{name} is '{word}', and has to be {wanted}"
    return f"it has to be: {words[0]} {form}"
