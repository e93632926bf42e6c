"""Notes of operators in which a digit is lost, and questions about moments before a roll's step.

The causes of docs/REFERENCE.md are written here again: the program `keyset notes` has to refuse the
first line that has one, and to take all others. It hands out no report before its step."""

from typing import Iterator, NamedTuple, Optional

KINDS = ("ds", "dnskey", "zone")
FALLS = "moment before the last one"
# The words of a script with the moment of the call, which is their last field.
WITH_MOMENT = {"start", "report1", "wait1", "report2", "wait2", "set-present"}
STEPS = {"report1": "start", "report2": "wait1"}


class Mistake(NamedTuple):
    """Notes that lack a digit, and the text by which they are refused, if they are."""

    notes: str
    wanted: Optional[str]


def times(script: str) -> list[int]:
    """The greatest moment of the calls up to each one."""
    latest, found = 0, []
    for word, *fields in map(str.split, script.splitlines()[1:]):
        latest = max(latest, int(fields[-1])) if word in WITH_MOMENT else latest
        found.append(latest)
    return found


def step_time(script: str, call: str, roll: str) -> int:
    """The greatest moment of the calls up to the last step of a roll that waits for this report."""
    lines = script.splitlines()[1:]
    at = max(n for n, line in enumerate(lines) if line.startswith(f"{STEPS[call]} {roll} "))
    return times(script)[at]


def refusal(script: str, notes: list[str]) -> Optional[str]:
    """The first line of notes that is refused after this script, and why."""
    moments = times(script)
    published, seen = dict.fromkeys(KINDS, 0), dict.fromkeys(KINDS, 0)
    for number, (word, kind, *fields) in enumerate(map(str.split, notes[1:]), start=2):
        moment = int(fields[-1])
        if word == "published":
            cause = _of_version(moments, int(fields[0]), moment, published[kind])
            published[kind] = moment
        else:
            cause = _of_sight(moment, published[kind], seen[kind])
            seen[kind] = moment
        if cause:
            return f"notes: line {number}: {cause}"
    return None


def _of_version(moments: list[int], call: int, moment: int, last: int) -> Optional[str]:
    if not 0 < call <= len(moments):
        return "no such call yet"
    if moment < moments[call - 1]:
        return "published before its call"
    return FALLS if moment < last else None


def _of_sight(moment: int, published: int, last: int) -> Optional[str]:
    if moment < published:
        return "seen before it was published"
    return FALLS if moment < last else None


def mistakes(script: str, notes: str) -> Iterator[Mistake]:
    """The notes with each digit lost in turn that isn't the only one of its number."""
    lines = notes.splitlines()
    for n, line in enumerate(lines):
        for at, digit in enumerate(line):
            less = line[:at] + line[at + 1 :]
            if digit.isdigit() and "" not in less.split(" "):
                changed = [*lines[:n], less, *lines[n + 1 :]]
                yield Mistake("\n".join(changed), refusal(script, changed))
