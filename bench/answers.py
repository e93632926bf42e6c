"""What answers cost by length: those of `keyset notes`, of `keyset status`, and a session's lines.

    python3 bench/answers.py [--only PATTERN] [PROGRAM]

It takes the program of `make build`, and the library of `make lib`. Each script has a length
that a user controls, and is measured at three of them, each twice the one before. A row prints, of
the longest: its lines, how many calls are accepted, the verdict, the least processor seconds of
some runs, and the greatest memory in MB. A growth is that of the cost, by instructions as valgrind
counts them or by seconds of a long run, or of the memory: from the first length to the second, and
from that to the third. 1 means that twice the length takes twice as much.

The second table has lines of sessions, one after the other by `keyset_call` or by `keyset_accept`:
the microseconds of a line among the first thousand, of one among the last thousand, and of the
slowest of these. Each is the least of some runs.

It ends with status 1, and says which, if a row has another number of accepted calls than it names,
or another verdict, or grows faster than it may; or if a line of a session takes more than twice as
long after 100,000 lines as after a thousand.
"""

import argparse
import os
import re
import subprocess
import sys
from dataclasses import dataclass
from pathlib import Path
from typing import Callable

from programs import Bench, Faults, growths, memory_growths, shown
from successive_rolls import FIRST, replaced, script as rolls, whole

TOP = Path(__file__).resolve().parent.parent
LIBRARY = TOP / "library" / "out"
BUILT = TOP / "crates" / "keyset" / "out" / "keyset"
RUNS = 3
LONG = "L" * 1_000_000
BEFORE = "before 3600 3600 3600"


@dataclass
class Load:
    """A script by its length, for a word of the program, and the longest of three lengths; how many
    of its calls are accepted then; and by what exponent its cost may grow."""

    name: str
    word: str
    longest: int
    make: Callable[[int], str]
    accepted: int
    growth: int = 1


def joined(*parts):
    return "".join(f"{line}\n" for part in parts for line in part)


def zone(*parts):
    return FIRST + joined(*parts)


def adds(kind, count, name="A", tag=2):
    """Keys, with tags from this one on."""
    private = "" if kind == "public" else " -"
    return [f"add-{kind} {name}{i}{private} 13 {tag + i} 150 yes" for i in range(count)]


def with_notes(script, *notes):
    """A script with notes beside it."""
    return script + "\n" + joined([BEFORE], *notes)


def refused(count):
    return ["wait1 zsk-roll 150"] * count


def published(count):
    """Keys of another signer, each published."""
    shown = [f"set-present A{i} yes 160" for i in range(count)]
    return [line for pair in zip(adds("public", count), shown) for line in pair]


def versions(count):
    """Versions of DNSKEY sets, each seen on all servers."""
    return [line for i in range(count // 2) for line in
            (f"published dnskey 1 3600 {i}", f"everywhere dnskey {i}")]


# ---- notes and questions


def rolls_with_questions(count):
    """As many questions as calls."""
    made = rolls(count // 16 * 8)
    return with_notes(made, [f"due {10_000_000 + i}" for i in range(count // 2)])


def long_reference_noted(count):
    keys = [f"add-zsk {LONG} - 13 65000 150 yes", f"set-present {LONG} yes 160"]
    return with_notes(zone(keys, refused(count)), ["due 200"])


def published_noted(count):
    return with_notes(zone(published(count // 4), refused(count // 2)), ["due 200"])


def notes_of_one_kind(count):
    start = zone(["add-ksk K1 - 13 2 150 yes", "start ksk-roll K0 K1 200"])
    return with_notes(start, versions(count), [f"due {count}"])


def notes_and_questions(count):
    """After each pair of notes a question."""
    start = zone(["add-ksk K1 - 13 2 150 yes", "start ksk-roll K0 K1 200"])
    turns = versions(count // 2)
    return with_notes(start, (line for i in range(0, len(turns), 2)
                              for line in (*turns[i : i + 2], f"due {i}", f"due {i}")))


def zones(count):
    """Many scripts of ten lines, each with a question."""
    one = with_notes(zone(["add-ksk K1 - 13 2 150 yes", "start ksk-roll K0 K1 200"]), ["due 9"])
    return "\n".join([one] * (count // 14))


# ---- statuses


def listed(count):
    """The roll in progress lists all keys: a half goes out, and a half comes in."""
    half = count // 2
    old, new = ",".join(f"A{i}" for i in range(half)), ",".join(f"B{i}" for i in range(half))
    return zone(
        adds("zsk", half), adds("zsk", half, "B", half + 2),
        whole("zsk-roll", f"Z0 {old}", 200), [f"start zsk-roll {old} {new} 400"],
    )


def one_listed_often(count):
    """A start lists one key many times as old, beside as many keys."""
    return zone(adds("zsk", count), [f"start zsk-roll {','.join(['Z0'] * count)} A0 200"])


def rolls_beside_listed(count):
    """KSK rolls go on beside a ZSK roll that lists all keys."""
    half = count // 4
    turns = (replaced("ksk", f"K{i}", f"K{i + 1}", 50000 + i, 1000 * i + 1000)
             for i in range(half // 8))
    return listed(count // 2) + joined(*turns)


def deletes_beside_listed(count):
    """Stale keys are deleted beside a ZSK roll that lists all others."""
    half = count // 4
    stale = [line for i in range(half)
             for line in (f"add-public P{i} 13 {i + 40000} 150 yes", f"set-stale P{i}")]
    return listed(count // 4) + joined(stale, (f"delete P{i}" for i in range(half)))


def long_reference_listed(count):
    return zone([f"add-zsk {LONG} - 13 65000 150 yes", f"start zsk-roll Z0 {LONG} 200"],
                adds("zsk", count))


# ---- sessions


def toggled(count):
    """Another signer's key comes and goes."""
    return zone(["add-public P 13 2 150 yes"],
                (f"set-present P {'no' if i % 2 else 'yes'} 160" for i in range(count)))


def toggled_then_ended(count):
    """The same, and then rolls that are started and ended early."""
    turns = ["start zsk-roll Z0 Z1 200", "abort zsk-roll"] * (count // 6)
    return toggled(count * 2 // 3) + joined(["add-zsk Z1 - 13 3 150 yes"], turns)


NOTES, STATUS = "notes", "status"
ROWS = [
    Load("rolls, and as many questions", NOTES, 8_000, rolls_with_questions, 4000),
    Load("a reference of 1 MB, refused calls, one question", NOTES, 4_000, long_reference_noted,
         10),
    Load("published keys, refused calls, one question", NOTES, 16_000, published_noted, 8008, 2),
    Load("notes of one kind, one question", NOTES, 32_000, notes_of_one_kind, 10),
    Load("notes of one kind, and as many questions", NOTES, 8_000, notes_and_questions, 10, 2),
    Load("scripts of ten lines, each with a question", NOTES, 32_000, zones, 10),
    Load("rolls", STATUS, 32_000, rolls, 32_000),
    Load("keys", STATUS, 32_000, lambda count: zone(adds("zsk", count)), 32_008),
    Load("a roll in progress that lists all keys", STATUS, 32_000, listed, 32_015),
    Load("a start that lists one key often", STATUS, 16_000, one_listed_often, 16_009),
    Load("KSK rolls beside a ZSK roll that lists all keys", STATUS, 16_000, rolls_beside_listed,
         12_015, 2),
    Load("keys deleted beside a roll that lists all others", STATUS, 16_000, deletes_beside_listed,
         16_015, 2),
    Load("a listed reference of 1 MB, and other keys", STATUS, 16_000, long_reference_listed,
         16_010),
]


def zsk_rolls_beside_long(count):
    """Rolls of a ZSK, in a zone whose KSK has a reference of 100 KB."""
    turns = (replaced("zsk", f"Z{i}", f"Z{i + 1}", i % 60000 + 2, 1000 * i + 1000)
             for i in range(count // 8 - 1))
    return FIRST.replace("K0", LONG[:100_000]) + joined(*turns)


# Scripts of sessions, by how many lines they have.
SESSIONS = {
    "rolls": rolls,
    "refused waits": lambda count: zone(refused(count)),
    "another signer's key toggled": toggled,
    "the same, then rolls ended early": toggled_then_ended,
    "rolls of a ZSK, the KSK's reference has 100 KB": zsk_rolls_beside_long,
}
LINES = (1_000, 10_000, 100_000)
# How many times as long a line may take after the most lines as after the fewest.
SLOWER = 2


def outcome(bench, program, text):
    """How many calls of the first script the program `keyset` accepts, and the verdict."""
    script = text.partition("\n\n")[0].rstrip("\n")
    given = bench.script("script", f"{script}\n")
    bench.run(program, given)
    return bench.outcome()


def linked(bench, built, word):
    """A link by whose name the program does what a word says."""
    link = Path(bench.path(f"keyset_{word}"))
    if not link.is_symlink():
        link.symlink_to(built)
    return str(link)


def cells(bench, row, built, faults):
    program, costs = linked(bench, built, row.word), []
    for count in (row.longest // 4, row.longest // 2, row.longest):
        text = row.make(count)
        costs.append(bench.cost(program, bench.script("input", text), RUNS))
    accepted, chain = outcome(bench, built, text)
    name = f"{row.word}: {row.name}"
    faults.expect(accepted == row.accepted, name, f"{accepted:,} calls accepted")
    faults.expect(chain == "safe", name, f"the chain is {chain}")
    faults.expect_growth(costs, row.growth, name)
    faults.expect_memory(costs, 1, name)
    yield from (row.name, f"{text.count(chr(10)):,}", f"{accepted:,}", chain)
    yield from (costs[-1].time, shown(growths(costs)))
    yield from (costs[-1].megabytes, shown(memory_growths(costs)))


def table(heads, rows):
    print(f"| {' | '.join(heads)} |\n|{'---|' * len(heads)}", flush=True)
    for row in rows:
        print(f"| {' | '.join(row)} |", flush=True)
    print()


def session_rows(bench, only, faults):
    """The rows of sessions, by a program that `cc` makes."""
    program = bench.path("session_lines")
    flags = [f"-I{LIBRARY}/include", f"-L{LIBRARY}/lib", "-l:libkeyset.a"]
    source = TOP / "bench" / "session_lines.c"
    subprocess.run(["cc", "-O2", "-o", program, source, *flags], check=True)
    for call in ("call", "accept"):
        for name, make in SESSIONS.items():
            last = []
            for count in LINES if re.search(only, name) else ():
                text = make(count)
                measured = subprocess.run([program, call], input=text.encode(),
                                          capture_output=True, check=True).stdout.split()
                times = [f"{float(each) / 1000:.1f}" for each in measured[1:]]
                last.append(float(measured[2]))
                lines = f"{text.count(chr(10)) - 1:,}"
                yield [f"`keyset_{call}`: {name}", lines, f"{int(measured[0]):,}", *times]
            if last:
                text = f"a line takes {last[-1] / last[0]:.1f} times as long after {lines} lines"
                faults.expect(last[-1] <= SLOWER * last[0], f"keyset_{call}: {name}", text)


def main():
    parser = argparse.ArgumentParser()
    parser.add_argument("--only", default="", help="the rows in whose names this pattern is")
    parser.add_argument("program", nargs="?", default=str(BUILT))
    given, faults = parser.parse_args(), Faults()
    only, built = given.only, os.path.abspath(given.program)
    with Bench() as bench:
        for word in (NOTES, STATUS):
            print(f"`keyset {word}`:\n")
            chosen = [row for row in ROWS if row.word == word and re.search(only, row.name)]
            table(["Script", "Lines", "Accepted", "Chain", "Seconds", "Growth", "MB", "Growth"],
                  (list(cells(bench, row, built, faults)) for row in chosen))
        if (LIBRARY / "lib" / "libkeyset.a").is_file():
            table(["Lines of a session", "Lines", "Accepted", "First", "Last", "Slowest"],
                  session_rows(bench, only, faults))
        else:
            faults.expect(False, "sessions", "make lib makes their library")
    return faults.status()


if __name__ == "__main__":
    sys.exit(main())
