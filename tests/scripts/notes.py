"""Notes as docs/REFERENCE.md has them, those with and without faults, and those of operators of
`tests/oracle/runbooks.py` who keep them: questions about what is due, which the program
`keyset notes` is asked."""

import random
import subprocess
from itertools import permutations

from keyset.rolls import ROLLS
from tests.gate.tools import NOTES
from tests.oracle import runbooks
from tests.oracle.book import left_out, read_book
from tests.oracle.notes import GameNotes
from tests.oracle.points import PAIRS, POINTS

# A script of three calls, and what is answered to notes beside it and a question.
SCRIPT = """zone example.com
add-ksk K1 - 13 1 9 yes
add-zsk Z1 - 13 2 9 yes
start algorithm-roll - K1,Z1 7"""
NOT_YET = "not yet: report1 algorithm-roll waits for dnskey"
ANSWERS = {
    "before 1 1": "notes: line 1: malformed",
    "before 1 1 4294967296": "notes: line 1: malformed",
    "published ds 1 5 9": "notes: line 1: malformed",
    "before 1 1 1\npublished ds 1  5 9": "notes: line 2: malformed",
    "before 1 1 1\npublished cds 1 5 9": "notes: line 2: malformed",
    "before 1 1 1\npublished ds 1 5 9 ": "notes: line 2: malformed",
    "before 1 1 1\neverywhere ds": "notes: line 2: malformed",
    "before 1 1 1\neverywhere ds 9\nbefore 1 1 1": "notes: line 3: malformed",
    "before 1 1 1\npublished ds 4 5 9": "notes: line 2: no such call yet",
    "before 1 1 1\npublished ds 0 5 9": "notes: line 2: no such call yet",
    "before 1 1 1\npublished ds 3 5 6": "notes: line 2: published before its call",
    "before 1 1 1\npublished ds 3 5 7\npublished ds 3 5 6":
        "notes: line 3: published before its call",
    # A call without a moment has that of the last one that has one.
    "before 1 1 1\npublished ds 2 5 0\npublished ds 3 5 7": NOT_YET,
    "before 1 1 1\npublished ds 1 5 9\neverywhere ds 8":
        "notes: line 3: seen before it was published",
    "before 1 1 1\npublished ds 1 5 9\npublished ds 1 5 8":
        "notes: line 3: moment before the last one",
    "before 1 1 1\neverywhere ds 9\neverywhere ds 8": "notes: line 3: moment before the last one",
    # Each kind goes by itself. In one second a publication comes after a sight. A version may have
    # the sets of an earlier call.
    "before 1 1 1\neverywhere ds 9\neverywhere zone 8\npublished ds 3 5 8\npublished ds 1 5 8":
        NOT_YET,
}
UNTIL = "not yet: report1 algorithm-roll waits until {}"
# The beginning of an input, and notes of a version that all servers give.
BEGINNING = f"{SCRIPT}\n\nbefore 1 1 1"
SIGHTS = "\n".join(f"published {kind} 3 5 7\neverywhere {kind} 8" for kind in ("dnskey", "zone"))
LATE = SCRIPT.removesuffix("7") + "18446744073709551615"
# What is answered to whole inputs that aren't a script, an empty line, notes and a question.
INPUTS = {
    "": "script: line 1: malformed",
    "zone\n\nbefore 1 1 1\ndue 9": "script: line 1: malformed",
    f"\n{BEGINNING}\ndue 9": "script: line 1: malformed",
    "\n" * 9: "script: line 1: malformed",
    f"{BEGINNING}\ndue 9\n\n\nbefore 1 1 1\ndue 9": "script: line 1: malformed",
    f"{SCRIPT}\nrubbish\n\nbefore 1 1 1\ndue 9": "script: line 5: malformed",
    f"{SCRIPT}\nrubbish": "script: line 5: malformed",
    SCRIPT: "notes: line 1: malformed",
    f"{SCRIPT}\n\ndue 9": "notes: line 1: malformed",
    BEGINNING: "notes: line 2: malformed",
    f"{BEGINNING}\n\n{BEGINNING}\ndue 9": "notes: line 2: malformed",
    f"{BEGINNING}\nrubbish": "notes: line 2: malformed",
    f"{BEGINNING}\ndue 5x": "notes: line 2: malformed",
    f"{BEGINNING}\ndue 5 ": "notes: line 2: malformed",
    f"{BEGINNING}\ndue": "notes: line 2: malformed",
    f"{BEGINNING}\ndue 18446744073709551616": "notes: line 2: malformed",
    # A line is counted with the questions above it, and read after the last question too.
    f"{BEGINNING}\ndue 9\ndue 9\nrubbish": "notes: line 4: malformed",
    f"{BEGINNING}\ndue 9\ndue 9\npublished ds 4 5 9\ndue 9": "notes: line 4: no such call yet",
    f"{BEGINNING}\ndue 9\neverywhere ds 9\neverywhere ds 8":
        "notes: line 4: moment before the last one",
    f"{BEGINNING}\ndue 9\neverywhere ds 9": NOT_YET,
    f"{BEGINNING}\ndue 9\n\n": NOT_YET,
    # An answer without a line stands before the next one too.
    f"zone example.com\n\nbefore 1 1 1\ndue 9\n\n{BEGINNING}\ndue 9": f"\n{NOT_YET}",
    # Each question is answered by the notes above it.
    f"{BEGINNING}\ndue 9\npublished ds 3 1 9\npublished dnskey 3 1 9\npublished zone 3 1 9"
    "\neverywhere ds 9\neverywhere dnskey 9\neverywhere zone 9\ndue 9":
        f"{NOT_YET}\n\nreport1 algorithm-roll 2 9",
    f"{BEGINNING}\ndue 18446744073709551615": NOT_YET,
    # No report is before its step, whatever the notes say.
    f"{BEGINNING}\ndue 7": NOT_YET,
    f"{BEGINNING}\ndue 6": UNTIL.format(7),
    f"{SCRIPT}\n\nbefore 1 1 1\n{SIGHTS}\ndue 0": UNTIL.format(7),
    f"{SCRIPT}\n\nbefore 1 1 1\n{SIGHTS}\ndue 8": "report1 algorithm-roll 2 8",
    # The greatest moment counts: that of a later call, also of a refused one, and not that of a
    # stamp; up to the last second of all.
    f"{SCRIPT}\nset-present K1 yes 9\n\nbefore 1 1 1\npublished ds 4 5 8\ndue 9":
        "notes: line 2: published before its call",
    f"{SCRIPT}\nset-visible K1 9\n\nbefore 1 1 1\npublished ds 4 5 8\ndue 9": NOT_YET,
    f"{SCRIPT}\nwait1 ksk-roll 9\n\nbefore 1 1 1\npublished ds 4 5 8\ndue 9":
        "notes: line 2: published before its call",
    f"{SCRIPT}\nset-present K1 yes 5\n\nbefore 1 1 1\npublished ds 4 5 6\ndue 9":
        "notes: line 2: published before its call",
    f"{LATE}\n\nbefore 1 1 1\npublished ds 3 5 18446744073709551614\ndue 9":
        "notes: line 2: published before its call",
    f"{LATE}\n\nbefore 1 1 1\npublished ds 3 5 18446744073709551615\ndue 9":
        UNTIL.format(18446744073709551615),
}


def some_orders():
    """The orders of the rolls that the zones make."""
    return random.Random(0).sample([*permutations(ROLLS)], 60)


def played(orders, wrong):
    """The questions of all operators, and how often a version went back to an earlier call. With a
    parent that reads CDS this happens: after an early end it may give the first set again."""
    questions, back, book, unsaid = [], 0, read_book(), left_out(POINTS + PAIRS)
    for seed, order in enumerate(orders):
        world, signers, fault = runbooks.play(
            seed, order, book, unsaid, lambda one: GameNotes(one, seed % 2 == 1)
        )
        if fault:
            wrong.append(f"notes: zone {seed}: {fault}")
        for one in signers:
            questions += one.notes.questions
            back += one.notes.goes_back()
            if one.notes.goes_back_over_a_report():
                wrong.append(f"notes: zone {seed}: a version goes back over a report")
    return questions, back


def asked(text):
    return subprocess.run(NOTES, input=text, capture_output=True, text=True)


def text_of(questions):
    """The questions, as the program reads them."""
    return "\n\n".join(f"{each.script}\n\n{each.notes}\ndue {each.moment}" for each in questions)
