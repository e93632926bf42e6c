#!/usr/bin/env python3
"""Proves crates by `rt ci`, and says from which files each proof was made.

    packaging/proved.py [--anew] [NAME..]    runs `rt ci` with these words

After what `rt ci` prints comes a line for each crate, which the gate prints too:

    proof of CRATE over SUM: LINE

SUM is that of the toolchain, of HANDLES, and of all files that the proof has read: those of the
crate and of the crates below it, with their lines of crates.txt. LINE is the proof's last line, or
says that the crate is kept: `rt ci` found that an earlier run on the same machine had proved the
same files. A crate whose files changed meanwhile has no line. `make dist` reads such lines.
"""

import hashlib
import re
import subprocess
import sys
from pathlib import Path

sys.dont_write_bytecode = True

from layout import TOP

# What `rt ci` prints before the proof of a crate, or of its tests, and after it.
BEGUN = re.compile(r"== .*")
PROVED = re.compile(r"rt: (\w+) proved")
KEPT = re.compile(r"rt: (\w+) is kept: (.*)")
IS_KEPT = "kept: "
LINE = re.compile(r"proof of (?P<crate>\w+) over (?P<sum>[0-9a-f]{64}): (?P<last>.*)")
PARTS = ("src", "specs", "proofs")


def rows_of_crates():
    """The lines of crates.txt, by the names of their crates, lowest first."""
    text = (TOP / "crates.txt").read_text(encoding="utf-8")
    lines = (line.partition("#")[0].strip() for line in text.splitlines())
    return {line.split()[0].rstrip(":"): line for line in lines if line}


def crates():
    """The crates of the repository, lowest first, each with those that its line names."""
    rows = rows_of_crates()
    named = {crate: line.partition(":")[2].split() for crate, line in rows.items()}
    return {crate: [name for name in on if name in named] for crate, on in named.items()}


def files_of(crate):
    """The files of a crate that its proof reads."""
    for part in PARTS:
        yield from sorted(filter(Path.is_file, (TOP / "crates" / crate / part).rglob("*")))


def row(path):
    """The sum of a file, as sha256sum prints it."""
    return f"{hashlib.sha256(path.read_bytes()).hexdigest()}  {path.relative_to(TOP)}\n"


def toolchain():
    """The line by which the toolchain names itself."""
    return subprocess.run(["rt", "--version"], capture_output=True, text=True, check=True).stdout


def sums():
    """The sum of what the proof of each crate reads."""
    first = toolchain() + row(TOP / "HANDLES")
    below, rows, by_crate = crates(), {}, {}
    for crate, line in rows_of_crates().items():
        rows[crate] = f"{line}\n" + "".join(map(row, files_of(crate)))
        read = first + "".join(rows[name] for name in [*all_below(crate, below), crate])
        by_crate[crate] = hashlib.sha256(read.encode()).hexdigest()
    return by_crate


def all_below(crate, below):
    """All crates below one, lowest first."""
    found = {name for it in below[crate] for name in [it, *all_below(it, below)]}
    return [name for name in below if name in found]


def last_lines(printed):
    """How the proof of each crate ended, by what `rt ci` has printed."""
    lines, last = {}, None
    for line in printed.splitlines():
        if BEGUN.fullmatch(line):
            last = None
        elif line.startswith("logic=proved"):
            last = line
        elif (done := PROVED.fullmatch(line)) and last:
            lines[done[1]] = last
        elif found := KEPT.fullmatch(line):
            lines[found[1]] = IS_KEPT + found[2]
    return lines


def lines(printed, before):
    """The lines of the crates that a run has proved or kept. `before` are the sums at its start."""
    after = sums()
    for crate, last in last_lines(printed).items():
        if crate in after and before[crate] == after[crate]:
            yield f"proof of {crate} over {after[crate]}: {last}\n"


def read(texts, here):
    """The last line of each crate's proof from files with these sums, by what such runs have
    printed. That a crate is kept counts only if no text has the line of its proof."""
    by_crate = {}
    for match in (LINE.fullmatch(line) for text in texts for line in text.splitlines()):
        if match and match["sum"] == here.get(match["crate"]):
            if not (match["crate"] in by_crate and match["last"].startswith(IS_KEPT)):
                by_crate[match["crate"]] = match["last"]
    return by_crate


def main():
    before, printed = sums(), []
    words = ["rt", "ci", *sys.argv[1:]]
    run = subprocess.Popen(words, cwd=TOP, stdout=subprocess.PIPE, stderr=subprocess.STDOUT,
                           text=True, errors="replace")
    for line in run.stdout:
        print(line, end="", flush=True)
        printed.append(line)
    status = run.wait()
    print(*lines("".join(printed), before), sep="", end="")
    return status


if __name__ == "__main__":
    sys.exit(main())
