"""What a policy says to do next, by the program `keyset next` and by its twin of the game
(what_next.py): they have to say the same, or refuse with the same words. The questions are drawn:
each stored script up to some line, notes of it, a policy and a moment. Bad days have an answer of
their own (bad_days.py)."""

from __future__ import annotations

import itertools
import random
import re
import subprocess
from collections import Counter
from collections.abc import Iterator, Sequence
from concurrent.futures import ThreadPoolExecutor
from dataclasses import dataclass

import pytest

from keyset import programs
from keyset.rolls import rolls_of
from tables import KeySet
from tests import TOP
from tests.oracle import bad_days, what_next
from tests.oracle.spread import KINDS

QUESTIONS, LAST, TTLS = 4000, 2**64 - 1, (0, 1, 60, 300, 3600, 2**31, 2**32 - 1)
MOMENT = re.compile(r"(?:start|report\d|wait\d) .* (\d+)")
DAYS = [*bad_days.days()]


@dataclass(frozen=True)
class NextQuestion:
    """What is asked: the lines of a policy, a script and its notes, and a second."""

    policy: list[str]
    lines: list[str]
    notes: list[str]
    second: int

    def by_twin(self) -> str:
        try:
            return what_next.said(self.policy, self.lines, self.notes, self.second)
        except what_next.PolicyFault as fault:
            return f"status 1: {fault}"

    def by_program(self) -> str:
        text = [*self.policy, "", *self.lines, "", *self.notes, f"next {self.second}", ""]
        ran = subprocess.run(programs.find("next"), input="\n".join(text), text=True,
                             capture_output=True)
        said = ran.stderr if ran.returncode else ran.stdout
        return (f"status {ran.returncode}: " if ran.returncode else "") + said.rstrip("\n")


def scripts() -> list[list[str]]:
    """The accepted lines of each stored script."""
    texts = [path.read_text() for path in TOP.glob("examples/**/*.script")]
    frozen = (TOP / "tests" / "frozen" / "1.1.0" / "scripts.txt").read_text()
    texts += re.findall(r"^== .*\n((?:.+\n)*?)-- answers", frozen, re.MULTILINE)
    return [list(accepted(text.splitlines())) for text in texts]


def accepted(lines: Sequence[str]) -> Iterator[str]:
    tables = KeySet()
    yield lines[0]
    yield from (line for line in lines[1:] if tables.call(line).startswith("ok"))


def policy(dice: random.Random, most: int) -> list[str]:
    kinds = ["csk"] if dice.random() < 0.3 else ["ksk", "zsk"]
    rolls = [dice.choice(rolls_of(kind)) for kind in kinds]
    lines = []
    for role in kinds:
        if dice.random() < 0.6:
            lifetime = dice.choice((100, 10**4, 10**5, 10**9, most, 2 * most))
            lines.append(f"{role}-lifetime {min(lifetime, LAST)}")
        if dice.random() < 0.3:
            lines.append(f"{role}-once {dice.randint(0, min(2 * most, LAST))}")
    if dice.random() < 0.5:
        lines.append(f"delete-after {dice.choice((0, 10, 10**6))}")
    dice.shuffle(lines)
    return [f"policy {dice.choice((13, 13, 13, 8, 15))} {' '.join(rolls)}", *lines]


def notes(dice: random.Random, reached: list[int], most: int) -> list[str]:
    """Notes of calls, by kind in the order of calls and of moments, which each call has
    `reached`."""
    ttl, calls = dice.choice(TTLS[:5]), len(reached)
    lines = [f"before {ttl} {ttl} {ttl}"]
    for kind in dice.sample(KINDS, 3):
        moment = 0
        for call in sorted(dice.randint(1, calls) for _ in range(dice.randint(0, 3)) if calls):
            moment = later(dice, max(moment, reached[call - 1]), most)
            ttl = dice.choice(TTLS if dice.random() < 0.1 else TTLS[:5])
            lines.append(f"published {kind} {call} {ttl} {moment}")
            if dice.random() < 0.8:
                moment = later(dice, moment, most)
                lines.append(f"everywhere {kind} {moment}")
    return lines


def later(dice: random.Random, moment: int, most: int) -> int:
    """A moment from this one on: soon, or at any time."""
    return min(LAST, moment + dice.choice((0, 1, 30, 100, dice.randint(0, most))))


def drawn(dice: random.Random, stored: list[list[str]]) -> NextQuestion:
    whole = dice.choice(stored)
    lines = whole[: dice.randint(1, len(whole))]
    moments = [int(found[1]) if found else 0 for found in map(MOMENT.fullmatch, lines[1:])]
    reached, most = list(itertools.accumulate(moments, max)), max([100, *moments])
    second = dice.choice((0, most, most + 1, 2 * most, dice.randint(0, 2 * most), LAST))
    return NextQuestion(policy(dice, most), lines, notes(dice, reached, most), min(second, LAST))


def test_questions(program, say):
    dice, stored = random.Random(62), scripts()
    questions = [drawn(dice, stored) for _ in range(QUESTIONS)]
    with ThreadPoolExecutor(4) as pool:
        answers = zip(questions, pool.map(NextQuestion.by_program, questions))
        judged = [judged_by_twin(*answer) for answer in answers]
    wrong = [fault for _, fault in judged if fault]
    words = Counter(word for word, _ in judged)
    by_word = ", ".join(f"{number} {word}" for word, number in sorted(words.items()))
    say(f"nexts: {QUESTIONS} questions ({by_word}), {len(DAYS)} bad days, {len(wrong)} differences")
    if wrong:
        pytest.fail("\n".join(wrong[:10]), pytrace=False)


def judged_by_twin(question: NextQuestion, by_program: str) -> tuple[str, str | None]:
    """What is done next by the twin, in a word, and how it differs from what the program says. (The
    twin takes notes that the program refuses.)"""
    if by_program.startswith("status 1: notes: "):
        return "notes refused", None
    by_twin = question.by_twin()
    differ = f"{question}: the program says {by_program!r}, and the twin {by_twin!r}"
    return by_twin.partition(" ")[0].rstrip(":"), None if by_program == by_twin else differ


@pytest.mark.parametrize("bad_day", DAYS, ids=lambda bad_day: bad_day[0])
def test_bad_day(bad_day, program):
    _, day, wanted = bad_day
    question = NextQuestion(day.policy, day.script, day.notes, day.now)
    assert question.by_program() == wanted
    assert question.by_twin() == wanted
