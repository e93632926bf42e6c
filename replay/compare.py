"""Compares a port of the key set with the original program, script by script.

    python3 compare.py --original PROGRAM [--port PROGRAM] [--seed SEED] [--count N]
                       [--early-ends] [--file FILE]

The scripts are those written by hand and N generated ones, or those of a file in the format of
by_hand.txt. With --early-ends some rolls of the generated ones end early. PROGRAM is a command that
reads a script on standard input. Without a port the tables take its place. The original runs with
--canon --alts: its answer to a wait can depend on the order of its hashed map. With these options
it lists all answers that it could give, and gives one: the end of the program if that is in the
list, else the longest wait.

Both have to give the same answers, and the same published sets at the end, up to the first call in
which they are meant to differ. After that the original is left out. If the script names an
algorithm, the original gets its number. It gets no early end: a refused one changes nothing, and an
accepted one is a call in which they are meant to differ. The port has to answer by the tables all
the time, and to end with the verdict of judge.py on the record, which the original lacks. Any other
difference is a finding, printed with the smallest script that shows it. The status is 1 if there is
one.
"""

import argparse
import collections
import shlex
import subprocess
import sys
from concurrent.futures import ThreadPoolExecutor
from pathlib import Path

from judge import chain_line
from make_scripts import by_hand, generated, read_scripts
from tables import ROLLS, KeySet, answers, number_of

# What stands for the answer if the original ends without one.
ENDED = "panic"

# The intended differences, by their headings in docs/DIFFERENCES.md. Each has the cells of the
# tables that are other ones in the original, or its answer for a key without its stamp. A call gets
# the name of the first that explains it.
BESIDE = "The waits of ksk-roll pass over keys that stand beside the roll"
UNSUITED = [("Z", "!old | present")]
DIFFERENCES = [
    (BESIDE + ": the first", {("ksk-roll", "wait1"): ("visible", "K", "!stale")}, None),
    (BESIDE + ": the second", {("ksk-roll", "wait2"): ("ds_visible", "K", "!stale")}, None),
    (
        'The second wait of ksk-double-ds-roll reads "visible"',
        {("ksk-double-ds-roll", "wait2"): ("ds_visible", "K", "!old present")},
        None,
    ),
    (
        "A ZSK roll leaves a ZSK that is present and not old",
        {
            ("zsk-roll", "suited"): UNSUITED,
            ("zsk-double-signature-roll", "suited"): UNSUITED,
        },
        None,
    ),
    ("A missing stamp is a refusal, and comes before any wait", {}, ENDED),
]
# This one shows in the list of the answers that the original could give.
LONGEST = "Wait says the longest time that is left"
# And this one shows in the call itself.
EARLY_END = "Rolls can be ended early"


def with_cells(cells):
    """The tables with some cells replaced."""
    rolls = dict(ROLLS)
    for (roll, column), cell in cells.items():
        rolls[roll] = rolls[roll]._replace(**{column: cell})
    return rolls


VARIANTS = [(words, with_cells(cells), lacking) for words, cells, lacking in DIFFERENCES]
ORIGINAL = with_cells({place: cell for _, cells, _ in DIFFERENCES for place, cell in cells.items()})


def answer_of(keyset, line, rolls, lacking):
    """The refusal that another table would give in this state; None if it accepts."""
    usual = keyset.rolls, keyset.lacking
    keyset.rolls, keyset.lacking = rolls, lacking or keyset.lacking
    answer = keyset.refusal(line)
    keyset.rolls, keyset.lacking = usual
    return answer


def intended(keyset, line):
    """The intended difference that this call of a script shows, by its words, and whether the
    original accepts the call or how it refuses it; else None."""
    if is_early_end(line):
        return None if keyset.refusal(line) else (EARLY_END, None)
    if line.split(" ")[0] not in ("start", "wait1", "wait2"):
        return None
    by_tables = keyset.refusal(line)
    original = answer_of(keyset, line, ORIGINAL, ENDED)
    if original == by_tables:
        return None
    for words, rolls, lacking in VARIANTS:
        if answer_of(keyset, line, rolls, lacking) != by_tables:
            return words, original
    raise AssertionError("no difference explains " + line)


def run(command, script):
    """The lines that a program writes for a script, and its status; without one those of the
    tables."""
    if not command:
        return answers(script), 0
    text = "\n".join(script) + "\n"
    done = subprocess.run(command, input=text, capture_output=True, text=True)
    return done.stdout.splitlines(), done.returncode


def is_early_end(line):
    return line.startswith("abort ")


def for_original(script):
    """The script as the original gets it: without early ends, and up to one that is accepted."""
    keyset, lines = KeySet(), script[:1]
    for line in script[1:]:
        answer = keyset.call(line)
        if not is_early_end(line):
            lines.append(by_number(line))
        elif answer.startswith("ok"):
            break
    return lines


def by_number(line):
    """The line with an algorithm's number instead of its name."""
    fields = line.split(" ")
    if fields[0].startswith("add-"):
        fields[-4] = str(number_of(fields[-4]))
    return " ".join(fields)


def is_meant(answer, refused):
    """Whether this is the original's answer to a call that it refuses so, or accepts."""
    return answer == refused or not refused and answer.startswith("ok")


class Comparison:
    """A comparison of the original's answers with the port's, line by line. `differences` has the
    intended ones by their words, `same` says how many answers were compared. After the first
    difference the two don't go `together` any more."""

    def __init__(self, there):
        self.differences = {LONGEST for line in there if line.startswith("#") and ENDED not in line}
        self.there = [line for line in there if not line.startswith("#")]
        self.originals = iter(self.there)
        self.keyset, self.together, self.same = KeySet(), True, 0

    def of_line(self, line, here):
        """The finding in the answers to a line, or None."""
        difference = intended(self.keyset, line) if self.together else None
        answer = self.keyset.call(line)
        is_asked = self.together and not is_early_end(line)
        original = next(self.originals) if is_asked else None
        if difference:
            words, refused = difference
            self.together = False
            self.differences.add(words)
            if is_asked and not is_meant(original, refused):
                return f"{line}\n  original: {original}\n  meant to be: {refused}"
        elif is_asked and original != here:
            both = f"  original: {original}\n  port: {here}"
            return f"{line}\n{both}\n  by the tables: {answer}"
        if here != answer:
            return f"{line}\n  port: {here}\n  by the tables: {answer}"
        self.same += is_asked and self.together
        return None

    def of_end(self, here, verdict):
        """The finding in the published sets and the verdict, or None."""
        sets, chain = self.keyset.published(), chain_line(self.keyset.record)
        if self.together and self.there[-1] != here:
            return f"published sets\n  original: {self.there[-1]}\n  port: {here}"
        if here != sets:
            return f"published sets\n  port: {here}\n  by the tables: {sets}"
        if verdict != chain:
            return f"verdict\n  port: {verdict}\n  by the definition: {chain}"
        return None


def compare(original, port, script):
    """The intended differences that a script shows, by their words; how many answers were
    compared; and the finding or None."""
    lines, status = run(original, for_original(script))
    if status not in (0, 5):
        return set(), 0, f"the original ends with status {status}"
    both = Comparison(lines)
    here, status = run(port, script)
    if status != 0 or len(here) != len(script) + 1:
        return both.differences, 0, f"the port ends with status {status} after {len(here)} answers"
    found = (both.of_line(line, answer) for line, answer in zip(script[1:], here))
    finding = next(filter(None, found), None) or both.of_end(*here[-2:])
    return both.differences, both.same, finding


def smallest(original, port, script):
    """A script from which no line can be left out, with the finding that it still shows."""
    shorter = True
    while shorter:
        shorter = False
        for index in range(len(script) - 1, 0, -1):
            tried = script[:index] + script[index + 1:]
            if compare(original, port, tried)[2]:
                script, shorter = tried, True
    return script, compare(original, port, script)[2]


def asked():
    parser = argparse.ArgumentParser()
    parser.add_argument("--original", required=True)
    parser.add_argument("--port", default="")
    parser.add_argument("--seed", default="1")
    parser.add_argument("--count", type=int, default=1000)
    parser.add_argument("--early-ends", action="store_true")
    parser.add_argument("--file")
    return parser.parse_args()


def main():
    given = asked()
    original = [*shlex.split(given.original), "--canon", "--alts"]
    port = shlex.split(given.port)
    if given.file:
        scripts = read_scripts(Path(given.file).read_text())
    else:
        scripts = {**by_hand(), **generated(given.seed, given.count, given.early_ends)}
    with ThreadPoolExecutor(3) as pool:
        results = [*pool.map(lambda lines: compare(original, port, lines), scripts.values())]
    tally = collections.Counter(it for seen, _, _ in results for it in seen or ["no difference"])
    findings = [name for name, (_, _, finding) in zip(scripts, results) if finding]
    calls = sum(len(lines) - 1 for lines in scripts.values())
    print(f"{len(scripts)} scripts with {calls} calls, {len(findings)} with a finding")
    compared = sum(same for _, same, _ in results)
    print(f"{compared} answers are those of the original, all others those of the tables")
    for words, count in sorted(tally.items()):
        print(f"{count:7}  {words}")
    for name in findings[:5]:
        script, finding = smallest(original, port, scripts[name])
        print("\n".join(["", f"== {name}", *script, f"-- {finding}"]))
    sys.exit(1 if findings else 0)


if __name__ == "__main__":
    main()
