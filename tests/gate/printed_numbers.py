"""Compares the numbers of docs/tests.txt with what the parts of the gate print. The gate does so at
its end, with its own output.

    python3 -m tests.gate.printed_numbers LOG
            compares them with the output of a gate, or of some of its parts
    python3 -m tests.gate.printed_numbers LOG --write
            writes the numbers of that output in their place

A line names its tests before a colon; indented lines say what they try. Each number of the line,
with the word after it, has to be in a line that one of these tests has printed. Such a line begins
with the name of the test, as `sets: `. If a word has more than one number, they have to come in the
same order. A line without a test of the gate has to have the date of its numbers.
"""

import re
import sys
from pathlib import Path

from tests import TOP

FIGURES = TOP / "docs" / "tests.txt"

# The tests that print what they have done.
PARTS = {
    *("automatic", "command", "dnssec_tests", "examples", "install", "library", "long"),
    *("memory", "mistakes", "networks", "nexts", "notes", "rolling", "rolls", "runbooks"),
    *("sessions", "sets"),
}

ROW = re.compile(r"(?P<where>\S[^:]*): (?P<much>.+)")
# A number, with commas or without, and the word that follows it, if one does.
NUMBER = r"(?<![\w.,-])(?P<number>\d+(?:,\d{3})*)(?![\w-]|[.,]\d)"
COUNT = re.compile(NUMBER + r"(?= (?P<word>[a-z][\w-]*))")
BARE = re.compile(NUMBER + r"(?! [a-z])")
DATE = re.compile(r"\b\d{4}-\d{2}-\d{2}\b")


def counts(text):
    """The numbers in a text, by the words that follow them."""
    found = {}
    for match in COUNT.finditer(text):
        found.setdefault(match["word"], []).append(int(match["number"].replace(",", "")))
    return found


def printed(log):
    """What each part has printed."""
    lines = {part: [] for part in PARTS}
    for line in map(str.strip, log.splitlines()):
        part = line.partition(": ")[0]
        if part in PARTS:
            lines[part].append(line)
    return {part: "\n".join(of_part) for part, of_part in lines.items()}


def is_found(wanted, others):
    """Whether the numbers are among the others, in this order."""
    rest = iter(others)
    return all(number in rest for number in wanted)


def compared(row, log, number, wrong):
    """The row as it should be. What differs from the output is added to `wrong`."""
    parts = [name for name in row["where"].split(", ") if name in PARTS]
    place = f"{FIGURES.name}:{number}"
    if not parts:
        if COUNT.search(row["much"]) and not DATE.search(row["much"]):
            wrong.append(f"{place}: no part of the gate prints these numbers; they have no date")
        return row[0]
    wrong += (f"{place}: no word follows {match[0]}" for match in BARE.finditer(row["much"]))
    fresh = {}
    for word, wanted, there in differing(row, parts, log):
        shown = ", ".join(f"{one:,} {word}" for one in wanted)
        given = ", ".join(f"{one:,} {word}" for one in there) or f"no number of {word}"
        wrong.append(f"{place}: {shown}: {' and '.join(parts)} printed {given}")
        if len(there) == len(wanted):
            fresh[word] = iter(there)

    def renewed(match):
        return f"{next(fresh[match['word']]):,}" if match["word"] in fresh else match["number"]

    much = COUNT.sub(renewed, row["much"])
    return f"{row['where']}: {much}"


def differing(row, parts, log):
    """Each word whose numbers these parts haven't printed, with the row's numbers and theirs."""
    found = counts("\n".join(log[part] for part in parts))
    for word, wanted in counts(row["much"]).items():
        there = found.get(word, [])
        if not is_found(wanted, there):
            yield word, wanted, there


def compare(log, wrong):
    """Compares the figures with the output of a gate. Gives them as they should be."""
    head, *rest = FIGURES.read_text().split("\n\n", 1)
    lines, by_part = [*head.splitlines(), ""], printed(log)
    for number, line in enumerate("".join(rest).splitlines(), start=len(lines) + 1):
        row = ROW.fullmatch(line)
        lines.append(compared(row, by_part, number, wrong) if row else line)
    return "\n".join(lines) + "\n"


def main():
    wrong = []
    figures = compare(Path(sys.argv[1]).read_text(), wrong)
    if sys.argv[2:] == ["--write"]:
        FIGURES.write_text(figures)
    print(*wrong, f"printed_numbers: {len(wrong)} differences", sep="\n")
    return 1 if wrong else 0


if __name__ == "__main__":
    sys.exit(main())
