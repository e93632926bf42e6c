"""Changes one line of the command or of a package at a time, and runs the tests that have to
see it.

    python3 -m tests.gate.mutants [--jobs N] [WORD..]
            tries the changes of tests/gate/mutants.txt, or those of files whose name has one of
            these words; so many tests run at once

A change is the lines `file:`, `old:` and `new:`, for a text that the file has once; `\\n` in it is
a line feed. Then comes `seen by:` with the names of tests, or `survives:` with the reason. Each has
to pass without a change, and to fail with it. A test is one that `pytest tests/command -k NAME`
runs, a file of Python's tests, or `cargo.NAME`, which is tried if the library is built.
"""

import argparse
import os
import re
import shutil
import subprocess
import sys
import tempfile
import time
from concurrent.futures import ThreadPoolExecutor
from dataclasses import dataclass
from pathlib import Path

from tests import TOP

TABLE = Path(__file__).with_name("mutants.txt")
COPIED = ("command", "docs", "examples", "library", "replay", "tests", "VERSION", "LICENSE",
          "pyproject.toml")
NOT_COPIED = shutil.ignore_patterns("__pycache__", "target", "out", "frozen")
PROGRAM = TOP / "crates" / "keyset" / "out" / "keyset"
LIBRARY = TOP / "library" / "out" / "lib"
SECONDS = 900


@dataclass(frozen=True)
class Mutant:
    """A change of a line, and the tests that see it, or why none does."""

    file: str
    old: str
    new: str
    seen_by: tuple
    survives: str

    @classmethod
    def of(cls, block):
        parts = dict(re.findall(r"^([a-z ]+): ?(.*)$", block, re.MULTILINE))
        seen_by = tuple(parts.get("seen by", "").split())
        if bool(seen_by) == ("survives" in parts):
            raise SystemExit(f"either tests or a reason:\n{block}")
        old, new = (parts[name].replace("\\n", "\n") for name in ("old", "new"))
        return cls(parts["file"], old, new, seen_by, parts.get("survives", ""))

    @property
    def is_rust(self):
        return self.file.endswith(".rs")

    def put_into(self, tree):
        path = tree / self.file
        text = path.read_text()
        if text.count(self.old) != 1:
            raise ValueError(f"{self.file} has {text.count(self.old)} times: {self.old}")
        path.write_text(text.replace(self.old, self.new))

    def __str__(self):
        return f"{self.file}: {self.old!r} => {self.new!r}"


def copy(folder):
    """A copy of what the tests read."""
    for name in COPIED:
        source = TOP / name
        if source.is_dir():
            shutil.copytree(source, folder / name, ignore=NOT_COPIED)
        else:
            shutil.copy(source, folder / name)
    return folder


def environment(programs):
    """The program answers; the Rust crate has the library."""
    if PROGRAM.is_file():
        (programs / PROGRAM.name).symlink_to(PROGRAM)
    given = {"KEYSET_PROGRAMS": str(programs), "KEYSET_LIBRARY": "", "KEYSET_LIB": str(LIBRARY)}
    return {**given, **os.environ, "PYTHONDONTWRITEBYTECODE": "1"}


def passes(tree, test, variables):
    """Whether a test passes in a copy."""
    part = "rolling" if test.startswith("rolling.") else "command"
    command = [sys.executable, "-m", "pytest", "-q"]
    command += [f"tests/command/test_{part}.py::test_{part}[{test}]"]
    if test.endswith(".py"):
        command = [sys.executable, tree / test]
    elif test.startswith("cargo."):
        _, _, name = test.partition(".")
        what = ["--lib"] if name == "lib" else ["--test", name]
        manifest = tree / "library" / "rust" / "Cargo.toml"
        command = ["cargo", "test", "--offline", "--manifest-path", manifest, *what]
    how = {"cwd": tree, "env": variables, "capture_output": True, "timeout": SECONDS}
    try:
        done = subprocess.run(command, **how)
    except subprocess.TimeoutExpired:
        return False
    return done.returncode == 0


def tried(mutant, variables):
    """What is wrong with a row, or None."""
    with tempfile.TemporaryDirectory(dir=memory()) as folder:
        tree = copy(Path(folder))
        try:
            mutant.put_into(tree)
        except ValueError as error:
            return str(error)
        blind = [test for test in mutant.seen_by if passes(tree, test, variables)]
    return f"not seen by {' '.join(blind)}: {mutant}" if blind else None


def memory():
    """A folder in memory, if there is one."""
    return next((it for it in ("/dev/shm",) if os.path.isdir(it)), None)


def chosen(words):
    """The changes of the table in files whose name has one of these words, or all."""
    blocks = (it for it in re.split(r"\n{2,}", TABLE.read_text()) if it.startswith("file:"))
    return [it for it in map(Mutant.of, blocks) if not words or any(w in it.file for w in words)]


def given():
    parser = argparse.ArgumentParser(description=__doc__.splitlines()[0])
    parser.add_argument("words", nargs="*", metavar="WORD", help="a part of a file's name")
    parser.add_argument("--jobs", type=int, default=os.cpu_count(), help="so many tests at once")
    return parser.parse_args()


def main():
    arguments, began = given(), time.monotonic()
    mutants = chosen(arguments.words)
    left_out = [] if (LIBRARY / "libkeyset.a").is_file() else [it for it in mutants if it.is_rust]
    mutants = [it for it in mutants if it not in left_out]
    pool = ThreadPoolExecutor(arguments.jobs)
    with tempfile.TemporaryDirectory(dir=memory()) as room, pool:
        (programs := Path(room, "programs")).mkdir()
        variables, whole = environment(programs), copy(Path(room, "whole"))
        tests = sorted({test for mutant in mutants for test in mutant.seen_by})
        passed = dict(zip(tests, pool.map(lambda test: passes(whole, test, variables), tests)))
        ready = [it for it in mutants if all(map(passed.get, it.seen_by))]
        faults = [f"{test} fails without a change" for test in tests if not passed[test]]
        survived = [*filter(None, pool.map(lambda it: tried(it, variables), ready))]
    reasons = (f"survives: {it}\n  {it.survives}" for it in mutants if it.survives)
    print(*faults, *survived, *reasons, sep="\n")
    if left_out:
        print(f"not tried, as the library isn't built: {len(left_out)} changes of the Rust crate")
    seen = sum(not it.survives for it in ready) - len(survived)
    seconds = int(time.monotonic() - began)
    print(f"mutants: {seen} of {len(mutants)} seen, in {seconds // 60}:{seconds % 60:02}")
    return 1 if faults or survived else 0


if __name__ == "__main__":
    sys.exit(main())
