"""What the benchmarks share: they run a program on a script, measure its cost, and end with status
1 if a figure is out of its limit."""

import math
import os
import re
import subprocess
import sys
import tempfile
from dataclasses import dataclass
from pathlib import Path

COUNT = ["valgrind", "--tool=cachegrind", "--cache-sim=no", "--cachegrind-out-file=/dev/null"]
# The original's program ends with this status if a script ends a roll early.
NO_ABORT = 4
MEASURE = os.path.join(os.path.dirname(os.path.abspath(__file__)), "measure.c")

# A run that takes more processor seconds is ended: measure says so by this status.
MOST_SECONDS, ENDED = 20, 71
# Runs that take longer aren't repeated, and the instructions only of shorter ones are counted.
ONCE, COUNTED = 1, 0.3
# So much may an exponent of growth be above its limit, as a start and what grows slowly count too:
# one of instructions or of memory, and one of seconds.
SLACK, OF_SECONDS = 0.15, 0.4


def build_original(original, program):
    """Builds the original's program, without work of its own: the folder has a `build.sh OUT`, and
    its driver `lean.rs`."""
    if not (original / "lean.rs").is_file():
        sys.exit(f"{original}: it has no lean.rs")
    command = ["sh", original / "build.sh", program]
    subprocess.run(command, env={**os.environ, "DRIVER": "lean.rs"}, stdout=sys.stderr, check=True)
    return program


@dataclass(frozen=True)
class Cost:
    """What a run costs: the least processor seconds of some runs, their greatest memory in MB, and
    its instructions if it is short enough to count them."""

    seconds: float
    memory: float
    instructions: "int | None" = None

    def to(self, other):
        """How many times the cost of another run, by instructions if both have them."""
        if self.instructions and other.instructions:
            return self.instructions / other.instructions
        return self.seconds / other.seconds

    @property
    def time(self):
        return f"{self.seconds:.3f}" if self.seconds < math.inf else f"> {MOST_SECONDS}"

    @property
    def megabytes(self):
        return f"{self.memory:.1f}" if self.seconds < math.inf else ""

    def ratio(self, other):
        is_ended = self.seconds == math.inf
        return f"> {MOST_SECONDS / other.seconds:.0f}" if is_ended else f"{self.to(other):.2f}"


def growths(costs):
    """The exponents by which costs grow, each from one length to twice that length."""
    return [_exponent(more.to(less)) for less, more in zip(costs, costs[1:])]


def memory_growths(costs):
    return [_exponent(more.memory / less.memory) for less, more in zip(costs, costs[1:])]


def _exponent(ratio):
    return math.log2(ratio) if ratio < math.inf else math.nan


def shown(exponents):
    return ", ".join("" if math.isnan(it) else f"{it:.2f}" for it in exponents)


class Faults:
    """What is out of its limit."""

    def __init__(self):
        self.texts = []

    def expect(self, is_so, name, text):
        if not is_so:
            self.texts.append(f"{name}: {text}")

    def expect_growth(self, costs, limit, name):
        """The time grows by at most this exponent."""
        for less, more in zip(costs, costs[1:]):
            slack = SLACK if more.instructions else OF_SECONDS
            self._expect_exponent(_exponent(more.to(less)), limit + slack, name, "it")

    def expect_memory(self, costs, limit, name):
        for exponent in memory_growths(costs):
            self._expect_exponent(exponent, limit + SLACK, name, "its memory")

    def _expect_exponent(self, exponent, most, name, what):
        is_so = math.isnan(exponent) or exponent <= most
        self.expect(is_so, name, f"{what} grows by {exponent:.2f}, more than {most:.2f}")

    def status(self):
        """Prints them, and gives the status to end with."""
        print(f"\nOut of their limits: {len(self.texts)}", *self.texts, sep="\n")
        return 1 if self.texts else 0


class Bench:
    """A folder for scripts, with the program that measures others, and the answers of the last run.
    Use it by `with`."""

    def __enter__(self):
        self.folder = tempfile.TemporaryDirectory()
        self.measure, self.answers = self.path("measure"), self.path("answers")
        subprocess.run(["cc", "-O2", "-o", self.measure, MEASURE], check=True)
        return self

    def __exit__(self, *_):
        self.folder.cleanup()

    def programs(self, ours, original):
        """The paths of our program and of the original's, which may be given as a folder."""
        paths = [os.path.abspath(ours)]
        if original:
            path = Path(original).resolve()
            lean = build_original(path, self.path("original")) if path.is_dir() else str(path)
            paths.append(lean)
        return paths

    def path(self, name):
        return os.path.join(self.folder.name, name)

    def script(self, name, text):
        """A file with the text, which is a string or bytes."""
        with open(self.path(name), "wb") as file:
            file.write(text if isinstance(text, bytes) else text.encode())
        return self.path(name)

    def run(self, program, given, wanted=0):
        """The processor seconds of a run, and its greatest memory in MB; both without end if it
        took too long; or None if the script has an `abort`, which the program lacks."""
        figures = self.path("figures")
        with open(given) as text, open(self.answers, "w") as written:
            status = subprocess.run(
                [self.measure, figures, str(MOST_SECONDS), program], stdin=text, stdout=written,
                stderr=subprocess.DEVNULL, check=False,
            ).returncode
        if status == NO_ABORT:
            return None
        if status == ENDED:
            return math.inf, math.inf
        if status != wanted:
            sys.exit(f"{program}: status {status}")
        with open(figures) as file:
            seconds, memory = file.read().split()
        return float(seconds), int(memory) / 1024

    def least(self, program, given, runs, wanted=0):
        """The least seconds of some runs, and the greatest memory; or None, as for one run."""
        taken = [self.run(program, given, wanted)]
        if None in taken:
            return None
        if taken[0][0] < ONCE:
            taken += (self.run(program, given, wanted) for _ in range(runs - 1))
        return min(one[0] for one in taken), max(one[1] for one in taken)

    def cost(self, program, given, runs, wanted=0):
        """The cost of a run, or None, as for one run."""
        taken = self.least(program, given, runs, wanted)
        if taken is None:
            return None
        return Cost(*taken, self.instructions(program, given) if taken[0] < COUNTED else None)

    def outcome(self):
        """How many calls the last run accepted, and what it says of the chain."""
        with open(self.answers) as file:
            output = file.read().splitlines()
        accepted = sum(line == "ok" or line.startswith("ok ") for line in output)
        return accepted, output[-1].split()[1] if output else ""

    @staticmethod
    def instructions(program, given):
        """The instructions that the program runs, as valgrind counts them."""
        with open(given) as text:
            said = subprocess.run(
                [*COUNT, program], stdin=text, stdout=subprocess.DEVNULL, stderr=subprocess.PIPE,
                check=False,
            ).stderr.decode()
        return int(re.search(r"I +refs: +([0-9,]+)", said)[1].replace(",", ""))
