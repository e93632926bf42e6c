"""What the calls of a key set cost, beside those of the original.

    python3 bench/calls.py [--original FOLDER] [--build FOLDER]

Each row is a course of calls on key sets. A small program makes the calls on this tree's key set
(`calls.rt.in`, on the sets of `calls_sets.rt.in`), and another makes the same calls on the
original's (`calls.rs`). A program makes some rounds of the calls, and then as many idle rounds. An
idle round makes only what the calls need, as a reference or a copy of a set. The difference is what
the calls cost, without the start and the setup of the program. Both programs have to get the same
answers.

It prints the calls of a round. For one call it prints the instructions, if valgrind is there to
count them; the processor's nanoseconds, the least of some runs; and the ratios of ours to the
original's. Whatever else the machine does makes the nanoseconds rise.

Ours is built in a copy of the parts of the tree that it needs (`crates.py`). The copy is in a
temporary folder, or in the folder of `--build`, outside the tree, which is kept for the next time.

The folder of `--original` has a `build.sh OUT`, which makes a program of its `main.rs` and of the
original's text, and a `stubs.rs` for what that text imports. `calls.rs`, with `calls_sets.rs` in
it, takes the place of its `main.rs`. Without `--original` only our figures are printed.
"""

import argparse
import os
import re
import shutil
import subprocess
import sys
import tempfile
from pathlib import Path

from crates import BENCH, Program
from programs import COUNT

OURS = Program(
    "calls", ["dnssec_keyset", "dnssec_base"],
    {"main.rt": "calls.rt.in", "calls_sets.rt": "calls_sets.rt.in"}, ("adds", "1", "1", "calls"),
)

# A title, and the course with its number of keys.
ROWS = [
    *((f"adds to a new set, up to {n:,} keys", "adds", n) for n in (4, 16, 64)),
    *((f"adds to a new set, up to {n:,} keys", "adds", n) for n in (2**i for i in range(10, 17))),
    ("a KSK roll on four keys, start to end", "ksk-roll", 4),
    ("a KSK double-DS roll on four keys", "ksk-double-ds-roll", 4),
    ("a ZSK roll on four keys", "zsk-roll", 4),
    ("a ZSK double-signature roll on four keys", "zsk-double-signature-roll", 4),
    ("a CSK roll on four keys", "csk-roll", 4),
    ("an algorithm roll on four keys", "algorithm-roll", 4),
    ("deletions of all of 4 keys", "deletions", 4),
    ("deletions of all of 64 keys", "deletions", 64),
    ("deletions of all of 1,024 keys", "deletions", 1024),
    ("each setter on each of 4 keys", "setters", 4),
    ("both waits of each roll on four keys, over", "waits", 4),
    ("both waits of each roll on four keys, early", "early-waits", 4),
    ("a wait on 500 keys, all early", "crowded-waits", 500),
    ("a wait on 500 keys, 4 early, the others unused", "crowded-waits", 4),
    ("a wait on 500 keys, 1 early, the others unused", "crowded-waits", 1),
    ("a wait on 500 keys, all early, after a setter", "waits-behind-setters", 500),
    ("a wait on 500 keys, 4 early, after a setter", "waits-behind-setters", 4),
    ("a wait on 500 keys, 1 early, after a setter", "waits-behind-setters", 1),
    ("the start of a ZSK roll from 2,000 to 2,000 keys", "start-of-zsks", 2000),
    ("the start of a CSK roll from 2,000 to 2,000 keys", "start-of-csks", 2000),
    ("that of ZSKs, two algorithms, each last in the other list", "start-of-two-algorithms", 2000),
    ("that of ZSKs, the last new key listed twice", "start-listed-twice", 2000),
    ("that of ZSKs, one more of another algorithm", "start-other-algorithm", 2000),
]

# The least seconds of a timed run, and how many runs there are: fewer if a run takes long.
SECONDS = 0.1
RUNS = 9
RUNS_OF_LONG = 2

# How many times fewer rounds are counted than timed.
FEWER = 8


def build_original(original, folder):
    """Builds the original's program in this folder, from the files in another and beside it."""
    for path in original.parent.iterdir():
        if path != original:
            (folder / path.name).symlink_to(path)
    copy = folder / original.name
    shutil.copytree(original, copy, copy_function=shutil.copyfile)
    # (Its script knows of no other file of ours, so the sets stand in the same one.)
    text, sets = ((BENCH / name).read_text() for name in ("calls.rs", "calls_sets.rs"))
    text = text.replace("mod calls_sets;", f"mod calls_sets {{\n{sets}}}")
    (copy / "main.rs").write_text(text)
    program = folder / "calls-of-the-original"
    command = ["sh", copy / "build.sh", program]
    subprocess.run(command, stdout=sys.stderr, check=True)
    return program


def run(command, course, keys, rounds, mode):
    """The processor seconds of a run, how many calls were accepted and how many refused, and its
    text on standard error."""
    words = [*command, course, str(keys), str(rounds), mode]
    child = subprocess.Popen(words, stdout=subprocess.PIPE, stderr=subprocess.PIPE, text=True)
    written, said = child.stdout.read(), child.stderr.read()
    _, status, used = os.wait4(child.pid, 0)
    answers = re.fullmatch(r"(\d+) accepted, (\d+) refused\n", written)
    if status != 0 or not answers:
        sys.exit(f"{words}: status {status}, {written}{said}")
    return used.ru_utime + used.ru_stime, (int(answers[1]), int(answers[2])), said


def rounds_of(program, course, keys):
    """How many rounds make a run long enough, and how long it then takes."""
    rounds, setting_up = 1, run([program], course, keys, 0, "calls")[0]
    while True:
        seconds = run([program], course, keys, rounds, "calls")[0]
        if seconds - setting_up >= SECONDS:
            return rounds, seconds
        rounds *= 2


def count(program, course, keys, rounds):
    """The instructions that the calls of these rounds run."""
    found = []
    for mode in ("calls", "idle"):
        said = run([*COUNT, program], course, keys, rounds, mode)[2]
        found.append(int(re.search(r"I +refs: +([0-9,]+)", said)[1].replace(",", "")))
    return found[0] - found[1]


def measure(program, course, keys):
    """The accepted and the refused calls of a round; then for one call its instructions, or None
    without valgrind, and its nanoseconds."""
    rounds, seconds = rounds_of(program, course, keys)
    runs = RUNS if seconds < 1 else RUNS_OF_LONG
    least = {"calls": None, "idle": None}
    for _ in range(runs):
        for mode, before in least.items():
            taken, answers, _ = run([program], course, keys, rounds, mode)
            least[mode] = taken if before is None else min(taken, before)
            if mode == "calls":
                counts = answers
    counts = tuple(number // rounds for number in counts)
    calls = sum(counts)
    nanos = (least["calls"] - least["idle"]) * 1e9 / (rounds * calls)
    instructions = None
    if shutil.which(COUNT[0]):
        counted = max(1, rounds // FEWER)
        instructions = count(program, course, keys, counted) / (counted * calls)
    return counts, instructions, nanos


def words_of(counts):
    """How the calls of a round are answered."""
    named = zip(counts, ("accepted", "refused"))
    return ", ".join(f"{number:,} {answer}" for number, answer in named if number)


def cells(figures):
    """Our figure; and, if there is one of the original, that and the ratio."""
    if None in figures:
        return ["" for _ in range(2 * len(figures) - 1)]
    ratio = [f"{figures[0] / figures[1]:.2f}"] if len(figures) == 2 else []
    return [f"{figure:,.0f}" for figure in figures] + ratio


def compare(programs):
    """Prints the table of these programs: ours, and the original's if there is one."""
    heads = ["What", "Calls"]
    for unit in ("Instructions a call", "Nanoseconds a call"):
        heads += [unit, "Original", "Ratio"] if len(programs) == 2 else [unit]
    print(f"| {' | '.join(heads)} |\n|{'---|' * len(heads)}", flush=True)
    for title, course, keys in ROWS:
        measured = [measure(program, course, keys) for program in programs]
        counts = {one[0] for one in measured}
        if len(counts) != 1:
            sys.exit(f"{title}: the original answers something else: {counts}")
        row = [title, words_of(counts.pop())]
        row += cells([one[1] for one in measured]) + cells([one[2] for one in measured])
        print(f"| {' | '.join(row)} |", flush=True)


def main():
    parser = argparse.ArgumentParser()
    parser.add_argument("--original", type=Path)
    parser.add_argument("--build", type=Path)
    given = parser.parse_args()
    with tempfile.TemporaryDirectory() as folder:
        ours = given.build or Path(folder, "ours")
        ours.mkdir(parents=True, exist_ok=True)
        programs = [OURS.build(ours.resolve())]
        if given.original:
            theirs = Path(folder, "original")
            theirs.mkdir()
            programs.append(build_original(given.original.resolve(), theirs))
        compare(programs)


if __name__ == "__main__":
    main()
