"""Operators of `tests/oracle/runbooks.py` who keep notes, as docs/REFERENCE.md has them.

The program `keyset notes` is asked for each report. Its answer has to be what the rule of
docs/REFERENCE.md says, for which `tests/oracle/notes.py` has code of its own. It may be no more
than rule 1 of docs/OPERATORS.md, as it is played, except for the difference of clocks. Half of them
report what their notes say, and no zone breaks by it. With one second less zones break. At some
reports each digit of the notes is lost in turn, and at all of them a moment before the report's
step is asked about (`tests/scripts/mistyped.py`)."""

import random
import resource
import subprocess

import pytest

from tests.gate import tools
from tests.oracle import runbooks
from tests.oracle.book import left_out, read_book
from tests.oracle.notes import GameNotes
from tests.oracle.points import PAIRS, POINTS
from tests.scripts import mistyped, notes

# At how many reports each digit of the notes is lost.
MISTYPED = 3
# A thousand calls beside a reference of 1 MB, and the memory in which they are answered: less than
# the sets after each call take.
CALLS, LONG, ROOM = 1000, "L" * 1_000_000, 64 << 20


@pytest.fixture(scope="module")
def orders():
    return notes.some_orders()


@pytest.fixture(scope="module")
def game(orders):
    """The questions of all operators, how often a version went back to an earlier call, and what
    went wrong."""
    wrong = []
    return *notes.played(orders, wrong), wrong


@pytest.fixture(scope="module")
def questions(game):
    return game[0]


def broken_by_less(orders):
    """Operators who report one second less than their notes say, until three of their zones are
    broken. Gives how many zones that took."""
    broken, book, unsaid = 0, read_book(), left_out(POINTS + PAIRS)
    for seed, order in enumerate(orders):
        less = runbooks.play(seed, order, book, unsaid, lambda one: GameNotes(one, True, less=1))
        broken += less[2] is not None
        if broken == 3:
            return seed + 1
    pytest.fail(f"with one second less {broken} zones of {len(orders)} break")


def fault_of(text, wanted):
    """What is wrong unless an input has this answer, or is refused with this text, and nothing is
    answered."""
    done = notes.asked(text)
    is_fault = wanted.startswith(("script: ", "notes: "))
    end = (done.returncode, (done.stderr if is_fault else done.stdout).rstrip())
    if end != (is_fault, wanted) or (is_fault and done.stdout):
        return f"{wanted!r} is to be said of {text!r}, and {end} was"


def expect_none(faults):
    """No fault was found."""
    if found := [fault for fault in faults if fault]:
        pytest.fail("\n".join(found[:20]), pytrace=False)


def test_zones(orders, game, say):
    """No zone breaks by reports that notes say."""
    questions, back, wrong = game
    expect_none(wrong)
    say(f"notes: {len(orders)} zones, {len(questions)} answers; {back} times a parent went back,"
        " over no step")


def test_one_second_less(orders, say):
    say(f"notes: with one second less 3 of {broken_by_less(orders)} zones break")


def test_notes_with_faults(program, say):
    """Malformed notes are refused at their first line with a fault."""
    expect_none(fault_of(f"{notes.SCRIPT}\n\n{lines}\ndue 9\n", wanted)
                for lines, wanted in notes.ANSWERS.items())
    say(f"notes: {len(notes.ANSWERS)} notes with and without faults")


def test_inputs_with_faults(program, say):
    """Each question is answered, or malformed."""
    expect_none(fault_of(*row) for row in notes.INPUTS.items())
    say(f"notes: {len(notes.INPUTS)} inputs with and without faults")


def test_little_room(program, say):
    """An answer takes memory for its input, and not for what was published after each call."""
    keys = [f"add-zsk {LONG} - 13 3 9 yes", f"set-present {LONG} yes 9"]
    script = "\n".join([notes.SCRIPT, *keys, *["wait1 zsk-roll 9"] * CALLS])
    done = subprocess.run(
        tools.NOTES, input=f"{script}\n\nbefore 1 1 1\ndue 9\n", capture_output=True, text=True,
        preexec_fn=lambda: resource.setrlimit(resource.RLIMIT_AS, (ROOM, ROOM)),
    )
    assert (done.returncode, done.stderr, done.stdout) == (0, "", f"{notes.NOT_YET}\n")
    say(f"notes: {CALLS} calls beside a reference of {len(LONG):,} bytes in {ROOM >> 20} MB")


def answers_to(questions, asks):
    """What is answered to each of the questions, asked so."""
    texts = (f"{each.script}\n\n{each.notes}\n{ask}" for each, ask in zip(questions, asks))
    done = notes.asked("\n\n".join(texts))
    assert (done.returncode, done.stderr) == (0, "")
    return [answer.splitlines() for answer in done.stdout.split("\n\n")]


def test_answers(questions, program, say):
    """The answers to all questions are those of both rules."""
    answers = answers_to(questions, (f"due {each.moment}" for each in questions))
    assert len(answers) == len(questions)
    expect_none(map(against_rules, questions, answers))
    waits = sum(question.due is None for question in questions)
    sharp = sum(question.most is not None for question in questions)
    say(f"notes: {len(questions)} answers, of which {waits} say not yet, are those of the rule, and"
        f" {sharp} of them no more than rule 1")


def against_rules(question, lines):
    """What of an answer is against the rules."""
    call, roll, *_, due, most = question
    of_roll = [line for line in lines if roll in line.split()]
    if due is None:
        is_right = len(of_roll) == 1 and of_roll[0].startswith(f"not yet: {call} {roll} waits for ")
    else:
        is_right = of_roll == [f"{call} {roll} {due} {question.moment}"]
    if not is_right:
        return f"{call} {roll} is due with {due}, and answered {of_roll}"
    if most is not None and due > most:
        return f"{of_roll[0]}, and rule 1 says {most}"


def test_mistyped(questions, program, say):
    """At some reports each digit of the notes is lost in turn. Often a version was then published
    before its call."""
    tried, early, wrong = 0, 0, []
    for question in random.Random(0).sample(questions, MISTYPED):
        for lines, refused in mistyped.mistakes(question.script, question.notes):
            done = notes.asked(f"{question.script}\n\n{lines}\ndue {question.moment}\n")
            if (done.returncode, done.stderr.rstrip()) != (int(refused is not None), refused or ""):
                wrong.append(f"{refused} is to be said of {lines!r}, and {done.stderr} was")
            tried += 1
            early += str(refused).endswith("its call")
    expect_none(wrong)
    say(f"notes: {tried} notes lack a digit, {early} publish before a call")


def test_early(questions, program):
    """At each report a second before its step is asked about, and the step's."""
    times = [mistyped.step_time(each.script, each.call, each.roll) for each in questions]
    answers = answers_to(questions, (f"due {at - 1}\ndue {at}" for at in times))
    assert len(answers) == 2 * len(questions)
    expect_none(map(around_step, questions, times, answers[::2], answers[1::2]))


def around_step(question, at, *answers):
    """What is wrong of the answers a second before a report's step, and at it."""
    before, then = ([line for line in lines if question.roll in line.split()] for lines in answers)
    wanted = f"not yet: {question.call} {question.roll} waits until {at}"
    if before != [wanted] or len(then) != 1 or "waits until" in then[0]:
        return f"{before} and {then} are answered around {wanted!r}"
