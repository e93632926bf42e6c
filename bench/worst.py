"""What the worst scripts that we know cost, beside the original.

    python3 bench/worst.py crates/keyset/out/keyset [--original FOLDER] [--only PATTERN] [--long]

Each row has a script in which one length that a user controls is long. A row prints the script's
lines, how many of them are accepted, the verdict, and the least processor seconds of some runs; how
the cost grows from a quarter of the length to its half, and from that to the whole (1 if twice the
lines cost twice as much: by instructions, as valgrind counts them, or by seconds if a run takes
long); the greatest memory in MB, and its growth; and the row's bound, as results.txt says it.
`--original` adds the seconds and the memory of the original, and the ratio of both costs. The
original keeps no record and judges none. It has no cells for a script with `abort`, which it lacks.
`--long` adds the rows that take a minute or more. `FOLDER` is that of `bench/scripts.py`.

A run that takes more than twenty seconds is ended.

It ends with status 1, and says which, if a row is ended, has another number of accepted lines or
another verdict than it names, or takes a tenth of a second or more at 10,000 lines (the square of
that beyond); if its cost grows faster than the square, or its memory faster than the lines; or if
it costs more than ten times as much as the original.
"""

import argparse
import math
import re
import sys
from dataclasses import dataclass
from typing import Callable

from programs import MOST_SECONDS, Bench, Faults, growths, memory_growths, shown
from scripts import crowded_rolls, put_in_use, rolled_in
from worst_scripts import (
    adds, anchors, broken_first, broken_last, colliding, early_ends, equal_sums, first_ds_last,
    growing_sets, in_use, in_use_by_a_roll, line_feeds, long_lists, long_reference,
    long_reference_beside, never_over, published, retired, stale, subsets, toggles, two_rolls_waits,
    two_sets, waits_after_all_stamps, waits_after_stamps,
)

RUNS = 3
# The limits of each row: what time and memory grow by, how many times the original's cost it takes,
# and how many seconds so many lines take.
GROWTH, MEMORY, RATIO = 2, 1, 10
SECONDS, LINES = 0.1, 10_000


@dataclass(frozen=True)
class Row:
    """A script by its length, the bounds of its time and its memory, how many of its lines are
    refused, and its verdict."""

    name: str
    count: int
    make: Callable
    bound: str
    refused: int = 0
    chain: str = "safe"
    status: int = 0
    is_long: bool = False


ROWS = [
    Row("starts ended early", 8192, early_ends, "lines"),
    Row("three setters toggled", 8192, toggles, "lines"),
    Row("a key more in each set a round", 1024, growing_sets, "lines²; lines · keys"),
    Row("no two sets the same", 8192, subsets, "lines²; lines · keys in use"),
    Row("2,000 keys in use, one toggled", 2048, in_use,
        "lines², by the first 4,000; lines · keys"),
    Row("8,000 keys in use, one toggled", 40000, in_use_by_a_roll, "lines · keys"),
    Row("public keys published one by one", 4096, published, "lines²; lines · keys"),
    Row("a reference of 1 MB, others published", 512, long_reference, "lines², and the reference"),
    Row("a reference of 1 MB, another toggled", 1024, long_reference_beside,
        "lines, and the reference"),
    Row("reports that are never over", 40000, never_over, "lines · reports; lines"),
    Row("DS sets that hold by two keys in turn", 3516, anchors, "lines² · keys"),
    Row("DS sets that hold by three keys in turn", 3516, lambda count: anchors(count, 3),
        "lines² · keys"),
    Row("the same beside many signers", 3600, lambda count: anchors(count, 3, True),
        "lines² · keys"),
    Row("equal sums of positions", 16000, equal_sums, "lines² · keys"),
    Row("equal sums beside a reference of 1 MB", 4000,
        lambda count: equal_sums(count, 0, 1_000_000), "lines² · bytes of the reference"),
    Row("two sets of each kind in turn, then broken", 32768, two_sets, "lines²", chain="broken"),
    Row("sets that were retired, then rolls", 65536, retired, "lines · sets retired"),
    Row("sets before the first DS", 8192, first_ds_last, "lines³"),
    Row("waits of two rolls in turn", 24096, two_rolls_waits, "lines", refused=20080),
    Row("a stamp by hand, then a refused wait", 24096, waits_after_stamps, "lines",
        refused=10040),
    Row("stamps of two keys in turn, then a refused wait", 24096,
        lambda count: waits_after_stamps(count, 2), "lines · log keys", refused=10040),
    Row("stamps of all keys in turn, then a refused wait", 24096, waits_after_all_stamps,
        "lines · log keys", refused=10040),
    Row("broken at once, then keys published", 4096, broken_first, "lines²; lines",
        chain="broken"),
    Row("no two sets the same, broken at last", 8192, broken_last, "lines²", chain="broken"),
    Row("65,536 keys", 65534, adds, "lines"),
    Row("rolls from many keys to many", 65532, long_lists, "lines"),
    Row("set-stale of unpublished keys", 8192, stale, "lines"),
    Row("64 rolls beside published keys", 4096, lambda count: crowded_rolls(32, count), "lines²"),
    Row("64 rolls beside ZSKs in use", 4096, lambda count: crowded_rolls(32, count, put_in_use),
        "lines²"),
    Row("the same, in use by one start", 4096, lambda count: crowded_rolls(32, count, rolled_in),
        "keys"),
    Row("10,000 references of one hash", 10000, colliding, "lines²; lines"),
    Row("40,000 references of one hash", 40000, colliding, "lines²; lines", is_long=True),
    Row("100 MB of line feeds", 100_000_000, line_feeds, "bytes", chain="", status=1),
]


def expect(row, faults, lines, outcome, costs, original):
    """What has to be so of a row."""
    seconds, (accepted, chain) = costs[-1].seconds, outcome
    if seconds == math.inf:
        faults.expect(False, row.name, f"it was ended after {MOST_SECONDS} seconds")
        return
    wanted = 0 if row.status else lines - 1 - row.refused
    faults.expect(accepted == wanted, row.name, f"{accepted:,} lines accepted, not {wanted:,}")
    faults.expect(chain == row.chain, row.name, f"the chain is {chain}")
    most = SECONDS * max(1, lines / LINES) ** 2
    faults.expect(seconds < most, row.name, f"{seconds:.3f} seconds, not less than {most:.3f}")
    faults.expect_growth(costs, GROWTH, row.name)
    faults.expect_memory(costs, MEMORY, row.name)
    if original:
        ratio = costs[-1].to(original)
        faults.expect(ratio <= RATIO, row.name, f"{ratio:.1f} times the original's cost")


def measured(bench, row, programs, faults):
    """The cells of a row."""
    costs = []
    for part in (4, 2, 1):
        text = row.make(row.count // part)
        given = bench.script("script", text)
        costs.append(bench.cost(programs[0], given, RUNS, row.status))
    outcome = bench.outcome()
    count = text.count(b"\n" if isinstance(text, bytes) else "\n")
    of_original = [bench.cost(it, given, RUNS, row.status) for it in programs[1:]]
    expect(row, faults, count, outcome, costs, next(iter(of_original), None))
    is_ended = costs[-1].seconds == math.inf
    yield from (row.name, f"{count:,}")
    yield from ("", "") if is_ended else (f"{outcome[0]:,}", outcome[1])
    yield from (costs[-1].time, shown(growths(costs)))
    yield from (costs[-1].megabytes, shown(memory_growths(costs)))
    for cost in of_original:
        yield from (cost.time, cost.megabytes, costs[-1].ratio(cost)) if cost else [""] * 3
    yield row.bound


def main():
    parser = argparse.ArgumentParser()
    parser.add_argument("program")
    parser.add_argument("--original")
    parser.add_argument("--only", default="", help="the rows in whose names this pattern is")
    parser.add_argument("--long", action="store_true")
    given = parser.parse_args()
    heads = ["Script", "Lines", "Accepted", "Chain", "Seconds", "Growth", "MB", "Growth"]
    heads += ["Original: seconds", "MB", "Ratio"] if given.original else []
    heads += ["Bound: time; memory"]
    print(f"| {' | '.join(heads)} |\n|{'---|' * len(heads)}", flush=True)
    faults = Faults()
    with Bench() as bench:
        programs = bench.programs(given.program, given.original)
        for row in ROWS:
            if (given.long or not row.is_long) and re.search(given.only, row.name):
                print(f"| {' | '.join(measured(bench, row, programs, faults))} |", flush=True)
    return faults.status()


if __name__ == "__main__":
    sys.exit(main())
