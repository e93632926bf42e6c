"""What the scripts of `scripts.py` cost without a judge, beside the original, which has none.

    python3 bench/no_judge.py [--original FOLDER] [--build FOLDER]

A small program (`no_judge.rt.in`) reads a script, makes its calls, records what they change, and
writes the answers. For each script it prints the instructions of this program and of the original's
as valgrind counts them, and their ratio. The answers are compared too.

The folders are those of `scripts.py` and of `calls.py`. It ends with status 1 if a script takes
more instructions than in the original.
"""

import argparse
import sys
import tempfile
from pathlib import Path

from crates import Program
from programs import Bench, Faults
from scripts import KINDS

OURS = Program(
    "no_judge", ["dnssec_record", "dnssec_script", "dnssec_run", "dnssec_keyset"],
    {"main.rt": "no_judge.rt.in"}, given=b"zone example.com\n",
)


def answers(bench, program, given):
    bench.run(program, given)
    return Path(bench.answers).read_text()


def measured(bench, kind, programs, faults):
    """The cells of a kind."""
    name, text = f"{kind.count:,} {kind.name}", kind.make(kind.count)
    given = bench.script("script", text)
    counts = [bench.instructions(program, given) / 1e6 for program in programs]
    yield from (name, f"{text.count(chr(10)):,}", *(f"{count:,.2f}" for count in counts))
    if len(programs) == 2:
        ours, theirs = (answers(bench, program, given) for program in programs)
        faults.expect(ours and theirs.startswith(ours), name, "the answers differ")
        ratio = counts[0] / counts[1]
        faults.expect(ratio <= 1, name, f"{ratio:.2f} of the original, not 1")
        yield f"{ratio:.2f}"


def main():
    parser = argparse.ArgumentParser()
    parser.add_argument("--original")
    parser.add_argument("--build", type=Path)
    given = parser.parse_args()
    heads = ["Script", "Lines", "Million instructions"]
    heads += ["Original", "Ratio"] if given.original else []
    faults = Faults()
    with Bench() as bench, tempfile.TemporaryDirectory() as folder:
        ours = (given.build or Path(folder)).resolve()
        ours.mkdir(parents=True, exist_ok=True)
        programs = bench.programs(OURS.build(ours), given.original)
        print(f"| {' | '.join(heads)} |\n|{'---|' * len(heads)}", flush=True)
        for kind in KINDS:
            print(f"| {' | '.join(measured(bench, kind, programs, faults))} |", flush=True)
    return faults.status()


if __name__ == "__main__":
    sys.exit(main())
