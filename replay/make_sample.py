"""Chooses the sample of scripts that the tests replay, with the answers that the port must give.

    python3 make_sample.py [--original PROGRAM] [--count N] > scripts.txt

The scripts written by hand come first. Then come generated ones, N scripts in all, the last ones
with early ends. The next script is always the one that shows, for its length, the most calls whose
answer in their state no script before it has shown. Last come the examples. The answers are those
of the tables, and the chain line is that of judge.py. With an original the answers are compared
with it first.
"""

import argparse
import shlex
import sys
from pathlib import Path

import compare
from make_scripts import ScriptDraft, by_hand
from tables import PHASES, KeySet, answers

HEADER = """\
# Scripts and their answers: '== ' and a name, the script's lines, the line '-- answers', and
# the line that each call is answered with, then that of the published sets and the chain line. An
# empty line stands between two scripts. Made by replay/make_sample.py.
"""
# The seed and the number of the scripts to choose from, how many lines one may have, and how many
# of the chosen ones have early ends.
SEED, MADE, LONGEST, EARLY = "sample", 6000, 40, 12


def what_is_shown(script):
    """What the calls of a script show: the call, the phases of the rolls and the answer."""
    shown, keyset, last = set(), KeySet(), ""
    for line in script[1:]:
        word, *fields = line.split(" ")
        roll = fields[0] if word == "start" or word in PHASES or word in ("done", "abort") else ""
        phases = keyset.phases.get(roll, ("none", 0))[0], len(keyset.phases)
        meant = compare.intended(keyset, line)
        answer = keyset.call(line)
        early = "refused: wait" if answer.startswith("refused: wait") else answer
        shown.add((word, roll, phases, early, meant and meant[0], line == last))
        last = line
    return shown


def choose(count):
    """The named scripts of the sample."""
    chosen = by_hand()
    shown = set().union(*(what_is_shown(lines) for lines in chosen.values()))
    for early_ends, most in ((False, count - EARLY), (True, count)):
        made = [ScriptDraft(SEED, number, early_ends) for number in range(MADE)]
        left = [
            (script.lines, what_is_shown(script.lines) | script.causes)
            for script in made
            if len(script.lines) <= LONGEST
        ]
        while len(chosen) < most:
            best = max(left, key=lambda one: (len(one[1] - shown) / len(one[0]), -len(one[0])))
            left.remove(best)
            shown |= best[1]
            chosen[f"generated-{len(chosen) + 1}"] = best[0]
    return chosen


def examples():
    """The scripts of examples/, each by its name here. Those of its folders come last."""
    folder = Path(__file__).parent.parent / "examples"
    paths = sorted(folder.rglob("*.script"), key=lambda path: (len(path.parts), path))
    return {
        "-".join(["example", *path.relative_to(folder).with_suffix("").parts]): path
        for path in paths
    }


def main():
    parser = argparse.ArgumentParser()
    parser.add_argument("--original")
    parser.add_argument("--count", type=int, default=265)
    given = parser.parse_args()
    chosen = choose(given.count)
    chosen.update((name, path.read_text().splitlines()) for name, path in examples().items())
    if given.original:
        original = [*shlex.split(given.original), "--canon", "--alts"]
        for name, lines in chosen.items():
            finding = compare.compare(original, [], lines)[2]
            if finding:
                sys.exit(f"{name}: {finding}")
    print(HEADER, end="")
    for name, lines in chosen.items():
        print("\n".join(["", f"== {name}", *lines, "-- answers", *answers(lines)]))


if __name__ == "__main__":
    main()
