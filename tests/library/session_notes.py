"""Tests notes beside sessions of the library: in C at the border, in Python over what operators of
`tests/oracle/runbooks.py` note, and the callers that say which reports are due. Each answer has to
be that of the program `keyset notes` for the same lines."""

import os
import sys
from pathlib import Path

from tests.gate.tools import (
    C99, CC, EVERY, NOTES_EXAMPLE, STRICT, TOP, WRAPPED, Fault, c_flags, run,
)
from tests.library import rust
from tests.scripts import notes

LIBRARY = TOP / "library"
ZONES = 12


def build(folder, program, *flags):
    """Builds the tests in C as a program."""
    source = Path(__file__).with_name("session_notes.c")
    run(CC, *STRICT, *WRAPPED, *flags, "-o", program, source, *c_flags(folder))
    return program


def answered(text):
    """What keyset notes answers."""
    done = notes.asked(text)
    if done.returncode:
        raise Fault(f"keyset notes ends with {done.returncode}: {done.stderr}")
    return done.stdout


def questions_of_operators():
    """What operators who keep notes ask at their reports."""
    wrong = []
    questions, _ = notes.played(notes.some_orders()[: -(-ZONES // EVERY)], wrong)
    if wrong:
        raise Fault(wrong[0])
    return questions


def test_in_python(keyset, questions):
    """The session of a zone goes on from question to question: it takes the new calls, and then the
    new notes. A copy of it gives the same answer."""
    answers = answered(notes.text_of(questions)).split("\n\n")
    if len(answers) != len(questions):
        raise Fault(f"{len(questions)} questions have {len(answers)} answers")
    zones = go_on(keyset, questions, answers)
    for text, fault in notes.ANSWERS.items():
        expect_fault(keyset, text.splitlines(), fault)
    return (
        f"{zones} sessions in Python go on with their notes, and answer {len(questions)} questions"
        f" and {len(notes.ANSWERS)} notes as keyset notes"
    )


def go_on(keyset, questions, answers):
    """Sessions go on from question to question, with these answers. Gives how many there were."""
    old_script, old_notes, zones = [], [], 0
    for question, wanted in zip(questions, answers):
        script, lines = question.script.splitlines(), question.notes.splitlines()
        goes_on = (script[: len(old_script)], lines[: len(old_notes)]) == (old_script, old_notes)
        if not old_script or not goes_on:
            session, old_script, old_notes = keyset.open_session(script[0]), script[:1], []
            zones += 1
        for line in script[len(old_script) :]:
            session.call(line)
        for line in lines[len(old_notes) :]:
            session.note(line)
        old_script, old_notes = script, lines
        for one in (session, session.copy()):
            if one.due(question.moment).rstrip("\n") != wanted.rstrip("\n"):
                raise Fault(f"a session in Python doesn't answer {wanted}")
    return zones


def expect_fault(keyset, lines, fault):
    """A session takes these notes, or refuses one of them as keyset notes does."""
    zone, *calls = notes.SCRIPT.splitlines()
    session = keyset.open_session(zone)
    for line in calls:
        session.call(line)
    try:
        for line in lines:
            session.note(line)
        answer = session.due(9).rstrip("\n")
    except keyset.Malformed as malformed:
        answer = f"notes: line {malformed.line}: {malformed.reason}"
    if answer != fault:
        raise Fault(f"a session in Python answers {answer!r} to {lines}, and not {fault!r}")


def test_callers(folder, room, questions):
    """The three callers that say which reports are due."""
    rust.build_examples(folder, room)
    run(CC, *STRICT, *C99, "-o", room / "due", LIBRARY / "c" / "due.c", *c_flags(folder))
    variables = {**os.environ, "KEYSET_LIBRARY": str(folder / "lib" / "libkeyset.so")}
    callers = {
        "C": [room / "due"],
        "Rust": [room / "rust" / "debug" / "examples" / "due"],
        "Python": [sys.executable, "-B", LIBRARY / "python" / "due.py"],
    }
    for text in (NOTES_EXAMPLE[0].read_text(), notes.text_of(questions)):
        for caller, command in callers.items():
            if run(*command, input=text.encode(), env=variables) != answered(text):
                raise Fault(f"the caller in {caller} doesn't answer as keyset notes")
    return f"the callers in {', '.join(callers)} say which reports are due as keyset notes does"
