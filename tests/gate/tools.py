"""What the scripts of tests share. (The Makefile checks that the tools they run are there.)"""

import os
import subprocess
from pathlib import Path

from tests import TOP

CRATES = TOP / "crates"
# The proved program, alone and with its words.
PROGRAM = CRATES / "keyset" / "out" / "keyset"
STATUS, NOTES = (PROGRAM, "status"), (PROGRAM, "notes")
# A script with its notes and questions, and what is answered; a script and its status.
NOTES_EXAMPLE = [TOP / "examples" / f"lowered-ttl.{name}" for name in ("notes", "reports")]
STATUS_EXAMPLE = [TOP / "examples" / f"algorithm-roll.{name}" for name in ("script", "json")]

# The compiler of C, and what its programs run under: for another architecture than this one.
CC = os.environ.get("CC", "cc")
RUNNER = os.environ.get("RUNNER", "").split()
# The tests in Python take one of so many stored scripts: all of them, unless Python is slow.
EVERY = int(os.environ.get("EVERY", "1"))
STORED = TOP / "replay" / "scripts.txt"
# How C is compiled.
STRICT = ["-std=gnu11", "-O2", "-Wall", "-Wextra", "-Werror", "-pthread"]
# The callers are in plain C.
C99 = ["-std=c99", "-pedantic"]
WRAPPED = [f"-Wl,--wrap={name}" for name in ("malloc", "realloc", "free")]


def c_flags(folder):
    """The flags for the library that `make lib` has left in a folder."""
    return [f"-I{folder}/include", f"-L{folder}/lib", "-l:libkeyset.a"]


class Fault(Exception):
    """Something isn't as a test expects it."""


def status_of(name, test):
    """Prints what a test says, or what is wrong, and gives the status of its program."""
    try:
        print(f"{name}: {test()}")
    except Fault as fault:
        print(f"{name}: {fault}")
        return 1
    return 0


def stored_scripts():
    """The stored scripts, each with its name and its answers."""
    for part in STORED.read_text().split("\n== ")[1::EVERY]:
        name, _, rest = part.partition("\n")
        script, _, answers = rest.partition("-- answers\n")
        yield name, script, answers


def run(*command, **how):
    """What a command writes, if it ends with status 0."""
    words = [str(word) for word in command]
    try:
        ran = subprocess.run(words, capture_output=True, **how)
    except FileNotFoundError:
        raise Fault(f"{words[0]} is missing here, and is needed") from None
    if ran.returncode:
        said = (ran.stderr or ran.stdout).decode()
        raise Fault(f"{' '.join(words)}: status {ran.returncode}\n{said}")
    return ran.stdout.decode()


def kit():
    """The folder of the toolchain."""
    return Path(run("rt", "doc").strip()).parent
