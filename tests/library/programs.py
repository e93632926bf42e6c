"""The program in C over the library answers as the proved one: stored scripts, malformed ones, and
notes with their questions, with each word. It is for machines that the toolchain makes no programs
for."""

import subprocess

from tests.gate.tools import (
    C99, CC, NOTES_EXAMPLE, PROGRAM, RUNNER, STRICT, TOP, Fault, c_flags, run,
)
from tests.scripts import malformed, notes


def build(folder, room):
    """Builds the program in C, and gives its path."""
    program = room / "programs" / "keyset"
    program.parent.mkdir(exist_ok=True)
    sources = sorted((TOP / "library" / "programs").glob("*.c"))
    run(CC, *STRICT, *C99, "-o", program, *sources, *c_flags(folder))
    return program


def asked_of(stored):
    """What the program is asked: its words, and a text."""
    scripts = [script.encode() for _, script, _ in stored]
    scripts += [script for script, _ in malformed.scripts()]
    for script in scripts:
        yield [], script
        yield ["status"], script
    for text in notes.ANSWERS:
        yield ["notes"], f"{notes.SCRIPT}\n\n{text}\ndue 9".encode()
    for text in notes.INPUTS:
        yield ["notes"], text.encode()
    yield ["notes"], NOTES_EXAMPLE[0].read_bytes()


def answered(command, text):
    ran = subprocess.run(list(map(str, command)), input=text, capture_output=True)
    return ran.returncode, ran.stdout, ran.stderr


def test(program, stored, step=1):
    """Compares each answer of the program in C, or one of `step`. Gives a line."""
    count = 0
    for words, text in list(asked_of(stored))[::step]:
        wanted = answered([PROGRAM, *words], text)
        given = answered([*RUNNER, program, *words], text)
        if given != wanted:
            raise Fault(f"{words} in C answers {text[:300]!r} by {given}, and not by {wanted}")
        count += 1
    return f"the program in C answers {count} texts as the proved one"
