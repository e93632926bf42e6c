"""A program of the benchmarks over the crates of this tree, built in a copy of what it needs.

It is proved, since a program that is built without a proof (`rt try`) checks itself as it runs.
What `make build` has proved is used again; the rest takes some minutes. The gate wants each file of
Rattle to belong to a crate that it proves, so the program's files have another suffix here.
"""

from __future__ import annotations

import re
import shutil
import subprocess
import sys
from dataclasses import dataclass
from pathlib import Path

BENCH = Path(__file__).resolve().parent
TOP = BENCH.parent

# The parts of a crate that are read.
PARTS = ["src", "specs", "proofs"]


@dataclass(frozen=True)
class Program:
    """The libraries that a program names; its files here, by their names in its crate; and what it
    gets when it is run once, which builds it."""

    name: str
    libraries: list[str]
    files: dict[str, str]
    words: tuple[str, ...] = ()
    given: bytes = b""

    def build(self, folder: Path) -> Path:
        """Builds the program in this folder."""
        self._copy_tree(folder)
        crate = folder / "crates" / self.name
        (crate / "out").mkdir(exist_ok=True)
        command = ["rt", "run", "--", *self.words]
        subprocess.run(command, cwd=crate, input=self.given, stdout=sys.stderr, check=True)
        return crate / "out" / self.name

    def _copy_tree(self, folder: Path) -> None:
        """Copies the parts of the tree that the program needs, and adds it as a crate."""
        needed = crates_below(self.libraries, crate_lines())
        for name in needed:
            copy_crate(TOP / "crates" / name, folder / "crates" / name)
        own = folder / "crates" / self.name / "src"
        own.mkdir(parents=True, exist_ok=True)
        for name, source in self.files.items():
            shutil.copyfile(BENCH / source, own / name)
        text = [*needed.values(), f"{self.name}: {' '.join(self.libraries)}"]
        (folder / "crates.txt").write_text("\n".join(text) + "\n")


def crate_lines() -> dict[str, str]:
    """The lines of crates.txt, by their crates."""
    lines = (TOP / "crates.txt").read_text().splitlines()
    return {re.split(r"\W", line)[0]: line for line in lines if line and not line.startswith("#")}


def crates_below(names: list[str], lines: dict[str, str]) -> dict[str, str]:
    """The lines of crates.txt for these crates and for all crates below them."""
    below: dict[str, str] = {}
    for name in names:
        if name in lines:
            below |= crates_below(lines[name].split(":")[1].split(), lines)
            below[name] = lines[name]
    return below


def copy_crate(source: Path, target: Path) -> None:
    """Copies the parts of a crate, and what is proved of it."""
    for part in PARTS:
        shutil.rmtree(target / part, ignore_errors=True)
        if (source / part).is_dir():
            shutil.copytree(source / part, target / part)
    proved = Path("out", "rlib")
    if (source / proved).is_dir() and not (target / proved).is_dir():
        shutil.copytree(source / proved, target / proved)
