"""What the library costs: `keyset_answer`, which replays a script, and a session of its lines.

    python3 bench/library_calls.py [--original ORIGINAL]

It takes the library that `make lib` has made. The scripts are two adds on a new zone, and those of
successive_rolls.py. It prints the number of lines; the least microseconds of `keyset_answer` for
them all; of a line in a session, with its share of the opening and of the closing; of the closing
lines and of the status after the last line; the bytes that malloc hands out for such a session, of
two keys, if it forgoes notes; and those more that it takes for notes. ORIGINAL is a program that
answers a script on its standard input by the original. Its least time of some runs is printed, less
the time that it takes for a script of the zone's line only.

It ends with status 1, and says which, if a line in a session takes more than 1.5 microseconds, or
if a session that forgoes notes takes more than 3 KB, or after a long script more than after a
hundred lines.
"""

import argparse
import subprocess
import sys
import tempfile
import time
from dataclasses import dataclass
from pathlib import Path

from programs import Faults
from successive_rolls import FIRST, script

TOP = Path(__file__).resolve().parent.parent
LIBRARY = TOP / "library" / "out"
TWO_ADDS = "".join(FIRST.splitlines(keepends=True)[:3])
CALLS = (8, 96, 1_000, 10_000, 100_000)
RUNS = 50
# The nanoseconds of a line, the bytes of a session of two keys, and the calls of a short history. A
# long one may take some more bytes, as malloc keeps some of what it got back.
LINE, TWO_KEYS, SHORT, SOME_MORE = 1500, 3072, 96, 1.05

COLUMNS = ("Lines", "`keyset_answer`", "A line in a session", "Closing lines", "Status", "Bytes",
           "Bytes for notes")


def run(command, text):
    ran = subprocess.run(command, input=text.encode(), capture_output=True)
    if ran.returncode:
        sys.exit(f"{command}: status {ran.returncode}")
    return ran.stdout


def least(command, text):
    """The least microseconds in which a program answers a script."""
    taken = []
    for _ in range(RUNS):
        began = time.perf_counter()
        run(command, text)
        taken.append(time.perf_counter() - began)
    return 1e6 * min(taken)


@dataclass
class Measured:
    """Nanoseconds and bytes, as library_call.c prints them."""

    answer: float
    line: float
    closing: float
    status: float
    bytes: float
    noted: float


def figures(text, it, original):
    yield f"{text.count(chr(10)):,}"
    yield f"{it.answer / 1000:.1f}"
    for nanoseconds in (it.line, it.closing, it.status):
        yield f"{nanoseconds / 1000:.2f}"
    yield f"{it.bytes:,.0f}"
    yield f"{it.noted - it.bytes:,.0f}"
    if original:
        zone = text[: text.index("\n") + 1]
        yield f"{least([original], text) - least([original], zone):,.0f}"


def expect(faults, rows):
    """The limits, of what was measured by calls."""
    for calls, it in rows.items():
        faults.expect(it.line <= LINE, f"{calls} calls", f"a line takes {it.line:.0f} nanoseconds")
        faults.expect(it.bytes <= TWO_KEYS, f"{calls} calls", f"{it.bytes:.0f} bytes")
        is_level = calls <= SHORT or it.bytes <= SOME_MORE * rows[SHORT].bytes
        faults.expect(is_level, f"{calls} calls", "more bytes than after a hundred lines")


def row(cells):
    print("| " + " | ".join(cells) + " |", flush=True)


def main():
    parser = argparse.ArgumentParser()
    parser.add_argument("--original", help="a program that answers a script by the original")
    original, faults, rows = parser.parse_args().original, Faults(), {}
    columns = [*COLUMNS, *["The original"] * bool(original)]
    row(columns)
    row(["---"] * len(columns))
    with tempfile.TemporaryDirectory() as room:
        program = f"{room}/library_call"
        source = TOP / "bench" / "library_call.c"
        flags = [f"-I{LIBRARY}/include", f"-L{LIBRARY}/lib", "-l:libkeyset.a"]
        subprocess.run(["cc", "-O2", "-o", program, source, *flags], check=True)
        for calls, text in {2: TWO_ADDS, **{n: script(n) for n in CALLS}}.items():
            rows[calls] = Measured(*map(float, run([program], text).split()))
            row(figures(text, rows[calls], original))
    expect(faults, rows)
    return faults.status()


if __name__ == "__main__":
    sys.exit(main())
