"""Lets each request for memory fail in turn: those of names, of a stored script's record, of copies
of its keys and its key set, and of a judge. It also checks that the audit by the definition makes
none. (In `tests/library/library.c` the requests for a script's answers fail, and in
`tests/library/sessions.c` those of each call.)

It runs the program `callers`, which `rt ci` has made by then, once for each request of each of
these works, with `tests/scripts/memory.c` in place of the C library's allocator. The requests of
the program `keyset` fail in the same way, with each of its words. Of `keyset notes` it checks by
the number of requests that a further question doesn't run the script again. If nothing is read,
there is no request.
"""

import os
import re
import subprocess
from dataclasses import dataclass
from pathlib import Path

import pytest

from tests.gate.tools import NOTES, PROGRAM, STATUS, STRICT, Fault, run, stored_scripts


# The scripts that the works begin with.
SCRIPTS = ("rolls-beside-many-keys", "public-keys-published-one-by-one")

# What the letters of the program's input stand for.
INPUT, RECORD, DEFINITION, WINDOW = "i", "v", "d", "w"
NAMES = "n"
WORKS = {
    NAMES: "names",
    RECORD: "a record",
    "k": "copies of its keys",
    "s": "a copy of its key set",
    DEFINITION: "its audit by the definition",
    WINDOW: "its audit by a judge",
}
# Each work begins with one whose requests don't fail: a record, or only its input.
BEGINNINGS = {NAMES: INPUT, RECORD: INPUT}

END = re.compile(r"(?P<errors>.*)requests: (?P<requests>\d+)\n", re.DOTALL)

# A script with a roll that waits for its first reports, and notes.
ROLL_SCRIPT = """\
zone example.com
add-ksk K1 - 13 1 0 yes
add-zsk Z1 - 13 2 0 yes
start algorithm-roll - K1,Z1 0
"""
ROLL_NOTES = """
before 1 1 1
published dnskey 3 5 9
everywhere dnskey 10
due 90
"""
ADDS = "".join(f"add-zsk A{tag} - 13 {tag} 0 yes\n" for tag in range(3, 99))
# The program with its words, and what it is asked.
INPUTS = {(PROGRAM,): ROLL_SCRIPT, STATUS: ROLL_SCRIPT, NOTES: ROLL_SCRIPT + ROLL_NOTES}
# Words with which it reads nothing.
UNREAD = ("--version", "--help", "none")
# How it refuses a call for lack of memory.
OUT_OF_MEMORY = "refused: out of memory"
# What it says of a request that fails.
LACKED = re.compile(r"((script|notes): )?out of memory\n")


@dataclass
class Outcome:
    """What the program wrote and said, how it ended, and how many requests it made."""

    output: str
    errors: str
    status: int
    requests: int


@pytest.fixture(scope="module")
def allocator(tmp_path_factory):
    library = tmp_path_factory.mktemp("memory") / "memory.so"
    run("cc", *STRICT, "-shared", "-fPIC", "-o", library, Path(__file__).with_name("memory.c"))
    return library


@pytest.fixture(scope="module")
def failed(counts, say):
    """Counts requests that have failed."""
    yield counts
    say(f"memory: {counts['calls']} requests of calls and {counts['program']} requests of the"
        " program failed in turn")


def outcome_of(allocator, command, text, failing):
    """The outcome of a program on this input if its request of this number fails. None does if it
    is 0."""
    variables = {**os.environ, "LD_PRELOAD": str(allocator), "FAILING_REQUEST": str(failing)}
    ran = subprocess.run(command, input=text, capture_output=True, text=True, env=variables)
    found = END.fullmatch(ran.stderr)
    if not found:
        raise Fault(f"{command}: request {failing}: status {ran.returncode}\n{ran.stderr}")
    return Outcome(ran.stdout, found["errors"], ran.returncode, int(found["requests"]))


def in_turn(allocator, callers, letter, script):
    """Lets each request of a work fail. Gives how many failed."""
    work = WORKS[letter]
    first = with_ample(allocator, callers, BEGINNINGS.get(letter, RECORD), script)
    made = range(first + 1, with_ample(allocator, callers, letter, script) + 1)
    refused = 0
    for failing in made:
        outcome = outcome_of(allocator, [callers], letter + script, failing)
        if outcome.requests < failing:
            raise Fault(f"{work}: request {failing} was not made: {outcome}")
        refused += is_refused(f"{work}: request {failing}", outcome)
    if letter == DEFINITION and made:
        raise Fault(f"{work} asks for memory")
    if letter == WINDOW and refused < len(made):
        raise Fault(f"{work} has a verdict though a request was refused")
    if letter != DEFINITION and refused == 0:
        raise Fault(f"{work}: no call was refused for lack of memory")
    return len(made)


def with_ample(allocator, callers, letter, script):
    """How many requests a work makes if none fails."""
    outcome = outcome_of(allocator, [callers], letter + script, 0)
    if outcome.status or outcome.errors or outcome.output != "ample\n":
        raise Fault(f"{letter}: it doesn't go well with ample memory: {outcome}")
    return outcome.requests


def is_refused(where, outcome):
    """Whether the program says that a call was refused. It checks by itself that the call is
    accepted when it is made again."""
    if outcome.status or outcome.errors or outcome.output not in ("ample\n", "refused\n"):
        raise Fault(f"{where}: {outcome}")
    return outcome.output == "refused\n"


def in_turn_of_program(allocator, command, text):
    """Lets each request of the program fail. It then says so and answers nothing, or asks for less
    and answers as with ample memory. Without a word it may also refuse one call. Gives how many
    failed."""
    name = " ".join([PROGRAM.name, *command[1:]])
    ample = outcome_of(allocator, command, text, 0)
    if ample.status or ample.errors or not ample.output or not ample.requests:
        raise Fault(f"{name}: it doesn't go well with ample memory: {ample}")
    for failing in range(1, ample.requests + 1):
        outcome = outcome_of(allocator, command, text, failing)
        is_refused = outcome.status == 3 and not outcome.output and LACKED.fullmatch(outcome.errors)
        is_ample = (outcome.status, outcome.output, outcome.errors) == (0, ample.output, "")
        is_of_call = len(command) == 1 and refuses_call(outcome, ample)
        if not (is_refused or is_ample or is_of_call):
            raise Fault(f"{name}: request {failing}: {outcome}")
    return ample.requests


def refuses_call(outcome, ample):
    """Whether the program answers each call, and refuses one for lack of memory."""
    lines, wanted = outcome.output.splitlines(), ample.output.splitlines()
    is_answered = (outcome.status, outcome.errors, len(lines)) == (0, "", len(wanted))
    return is_answered and lines.count(OUT_OF_MEMORY) == 1


def stored_script(sought):
    """The lines of a stored script."""
    return next(script for name, script, _ in stored_scripts() if name == sought)


def test_names(allocator, callers, failed):
    failed["calls"] += in_turn(allocator, callers, NAMES, "")


@pytest.mark.parametrize("letter", [*WORKS][1:], ids=WORKS.get)
@pytest.mark.parametrize("name", SCRIPTS)
def test_work(name, letter, allocator, callers, failed):
    failed["calls"] += in_turn(allocator, callers, letter, stored_script(name))


@pytest.mark.parametrize("question", INPUTS.items(), ids=["answers", "status", "notes"])
def test_program(question, allocator, program, failed):
    failed["program"] += in_turn_of_program(allocator, *question)


@pytest.mark.parametrize("word", UNREAD)
def test_nothing_read(word, allocator, program):
    """The program makes no request if it reads nothing."""
    assert outcome_of(allocator, [program, word], "", 0).requests == 0


def test_further_question(allocator, program):
    """A further question makes as many requests for memory after a long script as after a short
    one."""
    made = [
        [outcome_of(allocator, NOTES, script + ROLL_NOTES + more, 0).requests
         for more in ("", "due 91\n")]
        for script in (ROLL_SCRIPT, ROLL_SCRIPT + ADDS)
    ]
    (short, short_more), (long, long_more) = made
    if short_more - short != long_more - long:
        raise Fault(f"keyset notes: a further question runs the script again: {made} requests")
