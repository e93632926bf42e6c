"""What scripts of some kinds cost the program, beside the original.

    python3 bench/scripts.py crates/keyset/out/keyset [--original FOLDER] [--only PATTERN]

It prints the lines of a script, how many are accepted, and the verdict. For each program it prints
the instructions that it runs, as valgrind counts them, the least processor seconds of some runs,
and the memory in MB; then the ratios of ours to the original's. The growth is that of our
instructions from half the lines to all: 1 if twice the lines take twice as many. The original keeps
no record and judges none; both read the script and write all answers.

FOLDER has a `build.sh OUT`, which makes the original's program of a driver and of the original's
text: of `lean.rs`, which does as little work of its own as can be. FOLDER may also be a program.

It ends with status 1, and says which, if a kind of script has lines refused that it doesn't name or
a broken chain, grows faster than its lines, or takes more instructions than its limit allows: a
share of the original's.
"""

import argparse
import math
import re
import sys
from dataclasses import dataclass
from typing import Callable

from programs import SLACK, Bench, Faults
from successive_rolls import FIRST, script, whole

RUNS = 3


def rolls(pairs):
    return script(16 * pairs)


def setters(count, keys=4):
    """Stamps and the mark of a decoupled key are set in turn; what is published stays the same."""
    names = [f"A{i}" for i in range(keys - 2)]
    adds = [f"add-zsk {name} - 13 {i + 2} 150 yes" for i, name in enumerate(names)]
    lines = []
    for i in range(count):
        name, turn = names[i % len(names)], i // len(names)
        value = "no" if turn % 4 > 1 else "yes"
        set_decoupled, set_visible = f"set-decoupled {name} {value}", f"set-visible {name} {i}"
        lines.append(set_visible if turn % 2 else set_decoupled)
    return FIRST + "\n".join(adds + lines) + "\n"


def flags(count, keys=4):
    """A key of another signer comes into the DNSKEY set and leaves it, beside keys that don't."""
    adds = [f"add-zsk A{i} - 13 {i + 2} 150 yes" for i in range(keys - 3)]
    adds += ["add-public P 13 65000 150 yes"]
    lines = [f"set-present P {'no' if i % 2 else 'yes'} 160" for i in range(count)]
    return FIRST + "\n".join(adds + lines) + "\n"


def stale(count):
    """Keys that were never published are set stale."""
    adds = [f"add-zsk A{i} - 13 {i + 2} 150 yes" for i in range(count)]
    return FIRST + "\n".join(adds + [f"set-stale A{i}" for i in range(count)]) + "\n"


def waits(count):
    """A wait that is made too early again and again."""
    begun = "add-zsk Z1 - 13 2 150 yes\nstart zsk-roll Z0 Z1 200\nreport1 zsk-roll 3600 210\n"
    return FIRST + begun + "wait1 zsk-roll 300\n" * count


def adds(count):
    return FIRST + "".join(f"add-zsk A{i} - 13 {i + 2} 150 yes\n" for i in range(count))


def published(names):
    """Keys of another signer are published one by one."""
    adds = [f"add-public {name} 13 {i + 60002} 150 yes" for i, name in enumerate(names)]
    return adds + [f"set-present {name} yes 150" for name in names]


def add_zsks(names):
    return [f"add-zsk {name} - 13 {i + 60002} 150 yes" for i, name in enumerate(names)]


def put_in_use(names):
    """ZSKs that setters bring into use one by one."""
    shown = [f"set-present {name} yes 150" for name in names]
    return add_zsks(names) + shown + [f"set-signer {name} yes" for name in names]


def rolled_in(names):
    """ZSKs that one roll brings into use, to its end. Its old key was brought in for that."""
    return add_zsks(names) + [
        "add-zsk Q - 13 60001 150 yes", "set-present Q yes 150", "set-signer Q yes",
        *whole("zsk-roll", f"Q {','.join(names)}", 150), "delete Q",
    ]


def crowded_rolls(pairs, keys, come=published):
    """Rolls beside keys that came into use in this way."""
    lines, first = rolls(pairs).splitlines(), FIRST.count("\n")
    beside = come([f"P{i}" for i in range(keys)])
    return "\n".join(lines[:first] + beside + lines[first:]) + "\n"


@dataclass(frozen=True)
class Kind:
    """What a script repeats, how often, and what makes it; which share of the original's
    instructions it may take; and how many of its lines are refused."""

    name: str
    count: int
    make: Callable
    most: float
    refused: int = 0


KINDS = [
    Kind("pairs of rolls on four keys", 8192, rolls, 1),
    Kind("setters on 4 keys", 65536, setters, 1),
    Kind("refused waits on 4 keys", 65536, waits, 0.8, refused=65536),
    Kind("setters on 1,000 keys", 2048, lambda count: setters(count, 1000), 1),
    Kind("flag setters on 4 keys", 65536, flags, 1.5),
    Kind("flag setters on 1,000 keys", 2048, lambda count: flags(count, 1000), 1.5),
    *(Kind("keys, each set stale", count, stale, 1) for count in (4, 64, 1024, 4096)),
    Kind("adds", 4096, adds, 0.15),
    Kind("pairs of rolls beside 400 public keys", 256, lambda count: crowded_rolls(count, 400), 1),
    *(Kind(f"pairs of rolls beside {keys:,} ZSKs in use", pairs,
           lambda count, keys=keys: crowded_rolls(count, keys, put_in_use), 1.1)
      for keys, pairs in ((16, 1024), (256, 256), (4096, 64))),
    Kind("the same, in use by one start", 64,
         lambda count: crowded_rolls(count, 4096, rolled_in), 1.1),
]


def measure(bench, program, given):
    """Millions of instructions, seconds and MB."""
    return bench.instructions(program, given) / 1e6, *bench.least(program, given, RUNS)


def cells(figures):
    """The figures of both programs, and the ratio."""
    ratio = [f"{figures[0] / figures[1]:.2f}" if figures[1] else ""] if len(figures) == 2 else []
    return [f"{figure:,.2f}" for figure in figures] + ratio


def expect(kind, faults, accepted, chain, lines, growth, instructions):
    """What has to be so of a kind."""
    name, wanted = f"{kind.count:,} {kind.name}", lines - 1 - kind.refused
    faults.expect(accepted == wanted, name, f"{accepted:,} lines accepted, not {wanted:,}")
    faults.expect(chain == "safe", name, f"the chain is {chain}")
    faults.expect(growth <= 1 + SLACK, name, f"it grows by {growth:.2f}")
    if len(instructions) == 2:
        ratio = instructions[0] / instructions[1]
        faults.expect(ratio <= kind.most, name, f"{ratio:.2f} of the original, not {kind.most}")


def measured(bench, kind, programs, faults):
    """The cells of a kind."""
    text = kind.make(kind.count)
    whole = bench.script("whole", text)
    half = bench.script("half", kind.make(kind.count // 2))
    found = [measure(bench, program, whole) for program in programs]
    bench.run(programs[0], whole)
    accepted, chain = bench.outcome()
    growth = math.log2(found[0][0] * 1e6 / bench.instructions(programs[0], half))
    expect(kind, faults, accepted, chain, text.count("\n"), growth, [it[0] for it in found])
    yield from (f"{kind.count:,} {kind.name}", f"{text.count(chr(10)):,}", f"{accepted:,}", chain)
    yield f"{growth:.2f}"
    for figures in zip(*found):
        yield from cells(figures)


def main():
    parser = argparse.ArgumentParser()
    parser.add_argument("program")
    parser.add_argument("--original")
    parser.add_argument("--only", default="", help="the kinds in whose names this pattern is")
    given = parser.parse_args()
    heads = ["Script", "Lines", "Accepted", "Chain", "Growth"]
    for unit in ("Million instructions", "Seconds", "MB"):
        heads += [unit, "Original", "Ratio"] if given.original else [unit]
    print(f"| {' | '.join(heads)} |\n|{'---|' * len(heads)}", flush=True)
    faults = Faults()
    with Bench() as bench:
        programs = bench.programs(given.program, given.original)
        for kind in KINDS:
            if re.search(given.only, kind.name):
                print(f"| {' | '.join(measured(bench, kind, programs, faults))} |", flush=True)
    return faults.status()


if __name__ == "__main__":
    sys.exit(main())
