"""What words of the command cost on a long script: seconds of a processor, with the start of
Python, the library, and the programs that the command runs.

    python3 bench/command.py [WORD..]

The script gives a zone its first keys, and then rolls its ZSK again and again, with all notes: one
a month for a hundred years is its longest. A word is run by the library, if `make lib` has made it,
and by the program that `make build` has made. Without words it measures check and draw.

The last line has the exponent by which each column grows, from the second length to the last, less
the start. It ends with status 1 if one grows faster than the lines.
"""

import math
import os
import resource
import subprocess
import sys
import tempfile
from pathlib import Path

TOP = Path(__file__).resolve().parent.parent
sys.path.append(str(TOP))

from programs import OF_SECONDS, Faults
from tests.command.time_taken import course

ROLLS = 0, 312, 625, 1250
LIBRARY = TOP / "library" / "out" / "lib" / "libkeyset.so"
RUNS = 3


def seconds(word, script, library):
    """The least seconds of a processor that a word took for a script."""
    paths = {"PYTHONPATH": str(TOP / "command"), "KEYSET_LIBRARY": library}
    taken = []
    for _ in range(RUNS):
        before = resource.getrusage(resource.RUSAGE_CHILDREN)
        command = [sys.executable, "-m", "vaqsider", word, str(script)]
        done = subprocess.run(command, env={**os.environ, **paths}, stdout=subprocess.DEVNULL)
        if done.returncode > 1:
            sys.exit(f"{word}: status {done.returncode}")
        after = resource.getrusage(resource.RUSAGE_CHILDREN)
        taken.append(after.ru_utime + after.ru_stime - before.ru_utime - before.ru_stime)
    return min(taken)


def main():
    words = sys.argv[1:] or ["check", "draw"]
    libraries = {"by the library": str(LIBRARY), "by the programs": ""}
    if not LIBRARY.is_file():
        del libraries["by the library"]
    columns = [f"`{word}` {by}" for by in libraries for word in words]
    print("| Lines | Notes |", " | ".join(columns), "|")
    print("|---" * (len(columns) + 2), end="|\n")
    rows, faults = [], Faults()
    with tempfile.TemporaryDirectory() as folder:
        script = Path(folder, "example.com.script")
        for rolls in ROLLS:
            lines, notes = course(rolls)
            for file, text in ((script, lines), (script.with_suffix(".notes"), notes)):
                file.write_text("".join(f"{line}\n" for line in text))
            found = [seconds(word, script, by) for by in libraries.values() for word in words]
            rows.append(found)
            cells = [f"{len(lines):,}", f"{len(notes):,}", *(f"{it:.2f}" for it in found)]
            print("|", " | ".join(cells), "|", flush=True)
    exponents = [growth(taken) for taken in zip(*rows)]
    print("| growth | |", " | ".join(f"{it:.2f}" for it in exponents), "|")
    for name, exponent in zip(columns, exponents):
        faults.expect(exponent <= 1 + OF_SECONDS, name, f"it grows by {exponent:.2f}")
    return faults.status()


def growth(taken):
    """The exponent of the seconds from the second length to the last, without the start."""
    return math.log((taken[-1] - taken[0]) / (taken[1] - taken[0]), ROLLS[-1] / ROLLS[1])


if __name__ == "__main__":
    sys.exit(main())
