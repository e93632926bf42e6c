"""All that measures the program, the library and the command, one after the other.

    python3 bench/all.py [--original FOLDER] [PROGRAM]

PROGRAM is the one that `make build` has made, and FOLDER that of `bench/scripts.py`. A figure that
is out of its limit is said at the end of its table, and ends this with status 1 after all have run.
"""

import argparse
import subprocess
import sys
from pathlib import Path

BENCH = Path(__file__).resolve().parent
PROGRAM = BENCH.parent / "crates" / "keyset" / "out" / "keyset"
LIBRARY = BENCH.parent / "library" / "out" / "lib" / "libkeyset.a"


def main():
    parser = argparse.ArgumentParser()
    parser.add_argument("program", nargs="?", default=str(PROGRAM))
    parser.add_argument("--original")
    given = parser.parse_args()
    beside = ["--original", given.original] if given.original else []
    todo = [["successive_rolls.py", given.program], ["scripts.py", given.program, *beside],
            ["worst.py", given.program, "--long", *beside], ["answers.py", given.program],
            ["command.py"]]
    todo += [["library_calls.py"]] if LIBRARY.is_file() else []
    worst = 0
    for name, *words in todo:
        print(f"\n{name}\n", flush=True)
        worst |= subprocess.run([sys.executable, BENCH / name, *words]).returncode != 0
    return int(worst)


if __name__ == "__main__":
    sys.exit(main())
