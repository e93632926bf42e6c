"""Compares the table of the rolls (`keyset/rolls.py`) with the program. In the courses of
test_sets.py the keys have the same flags and stamps after each call of a roll, and after an early
end. The program answers the stored scripts as the table says, and starts of each roll with keys of
all kinds and beside each other roll. (What setters do to a roll test_sets.py tries on the same
crates.)"""

import json
from collections.abc import Iterator

import pytest

from keyset.rolls import ROLLS
from tables import KeySet, answers
from tests.gate.tools import STATUS, run, stored_scripts
from tests.scripts import test_sets as sets

FLAGS, STAMPS = sets.FLAG_NAMES, sets.STAMP_NAMES
Keys = dict[str, tuple[list[set[str]], list[int]]]


def asked(script: str, *program: object) -> str:
    return run(*program, input=script.encode())


def by_program(script: list[str]) -> Keys:
    """The flags and the stamps of each key after a script."""
    return {
        key["reference"]: ([{flag for flag in FLAGS if role[flag]} for role in key["roles"]],
                           [key[stamp] for stamp in STAMPS])
        for key in json.loads(asked("\n".join([*script, ""]), *STATUS))["keys"]
    }


def by_table(script: list[str]) -> Keys:
    keyset = KeySet()
    for line in script[1:]:
        keyset.call(line)
    return {name: (key.states, [key.stamps.get(stamp) for stamp in STAMPS])
            for name, key in keyset.keys.items()}


def steps(before: list[str], calls: list[str], roll: str) -> Iterator[list[str]]:
    """A course up to each call of its roll, and to an early end. (A public key has no role.)"""
    before = [line for line in before if " I " not in line]
    yield [*before, calls[0], f"abort {roll}"]
    yield from ([*before, *calls[:count]] for count in range(1, len(calls) + 1))


def starts() -> Iterator[tuple[str, list[str]]]:
    """Starts with each two keys, and beside each roll. Each is ended if it is accepted."""
    first = [*sets.FIRST_KEYS.split("\n"), "add-ksk K3 - 15 8 160 yes"]
    first += [line for kind in ("ksk", "zsk", "csk") for line in sets.COURSES[kind][0]]
    first = [line.replace(" 13 3 ", f" 13 {tag} ") for tag, line in enumerate(first, start=20)]
    names = ["-", *(line.split(" ")[1] for line in first if line.startswith("add-"))]
    for roll, row in ROLLS.items():
        tried = [f"start {roll} {old} {new} 200" for old in names for new in names]
        lists = sets.COURSES[row.renews or "csk"][1]
        beside = [f"start {other} - - 200" for other in ROLLS]
        yield roll, [*first, *(line for it in tried for line in (it, f"abort {roll}")),
                     f"start {roll} {lists} 200", *beside]


@pytest.fixture(scope="module")
def tried(counts, say):
    """Counts what was compared."""
    yield counts
    say(f"rolls: after {counts['calls']} calls of {counts['courses']} courses the keys, and of"
        f" {counts['stored']} stored scripts and {counts['starts']:,} starts the answers are those"
        " of the table")


@pytest.mark.parametrize("course", sets.courses(), ids=lambda course: course[0])
def test_course(course, program, tried):
    tried["courses"] += 1
    for script in steps(*course[1:]):
        tried["calls"] += 1
        assert by_program(script) == by_table(script)


@pytest.mark.parametrize("stored", stored_scripts(), ids=lambda stored: stored[0])
def test_stored_script(stored, program, tried):
    tried["stored"] += 1
    _, script, _ = stored
    assert asked(script, program).splitlines() == answers(script.splitlines())


@pytest.mark.parametrize("roll, lines", starts(), ids=ROLLS)
def test_starts(roll, lines, program, tried):
    tried["starts"] += sum(line.startswith("start ") for line in lines)
    assert asked("\n".join([*lines, ""]), program).splitlines() == answers(lines)
