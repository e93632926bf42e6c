"""What a word of the command imports when it starts, beyond what Python itself does: a timer starts
it again and again. Each word is run with an example, in a folder without a policy and without
servers, until it ends, and all modules are compiled before. (`store` isn't run: it wants a
database.)"""

from __future__ import annotations

import os
import re
import resource
import shlex
import shutil
import subprocess
import sys
import tempfile
from collections.abc import Iterator
from dataclasses import dataclass
from pathlib import Path

SCRIPT = "zsk-roll.script"
# Each word with what it is given. Those that ask no server import nothing that does.
ASK_NOBODY = {
    "init": "example.com Kexample.com.+013+10133.key",
    "call": f"{SCRIPT} 'done zsk-roll'",
    "status": SCRIPT,
    "check": SCRIPT,
    "plan": f"{SCRIPT} zsk-roll Z1 Z2",
    "draw": SCRIPT,
    "zones": ".",
    "policy": f"show {SCRIPT}",
}
ASK = {
    "import": "bind example.com --source .",
    "act": SCRIPT,
    "ceremony": SCRIPT,
    "watch": SCRIPT,
    "tick": SCRIPT,
    "roll": f"{SCRIPT} zsk",
    "next": SCRIPT,
}
OURS = ("vaqsider", "keyset")
ASKERS = ("dns", "cryptography", "ssl", "socket")
# A module that was imported, after those that it imports.
IMPORTED = re.compile(r"^import time: +\d+ \| +\d+ \| *(\S+)$", re.MULTILINE)
# Imports modules, and says which of them aren't here.
IMPORTS = """\
import importlib, sys
for name in {names}:
    try:
        importlib.import_module(name)
    except ImportError:
        print(name, file=sys.stderr)
"""
RUNS = 5


@dataclass(frozen=True)
class Start:
    """What a word imported, and the least seconds of a processor that this takes."""

    word: str
    modules: list[str]
    seconds: float

    def of(self, packages: tuple[str, ...]) -> list[str]:
        return sorted(it for it in self.modules if it.partition(".")[0] in packages)

    def row(self) -> str:
        counts = (len(it) for it in (self.modules, self.of(OURS), self.of(ASKERS)))
        cells = [f"`{self.word}`", *map(str, counts), f"{self.seconds * 1000:.0f}"]
        return f"| {' | '.join(cells)} |"


def ran(words: list[str], top: Path, folder: str) -> str:
    """What a run of Python says on standard error."""
    paths = {"PYTHONPATH": str(top / "command"), "PYTHONPYCACHEPREFIX": f"{folder}/compiled"}
    return subprocess.run([sys.executable, *words], cwd=folder, env={**os.environ, **paths},
                          capture_output=True, text=True).stderr


def imported(words: list[str], top: Path, folder: str) -> list[str]:
    """The modules that a run of Python imports."""
    sought = [*dict.fromkeys(IMPORTED.findall(ran(["-X", "importtime", *words], top, folder)))]
    missing = ran(["-c", IMPORTS.format(names=sought)], top, folder).splitlines()
    return [module for module in sought if module not in missing]


def seconds(modules: list[str], top: Path, folder: str) -> float:
    """The least seconds of a processor that Python takes to begin and to import these."""
    taken = []
    for _ in range(RUNS):
        before = resource.getrusage(resource.RUSAGE_CHILDREN)
        ran(["-c", IMPORTS.format(names=modules)], top, folder)
        after = resource.getrusage(resource.RUSAGE_CHILDREN)
        taken.append(after.ru_utime + after.ru_stime - before.ru_utime - before.ru_stime)
    return min(taken)


def starts(top: Path) -> Iterator[Start]:
    with tempfile.TemporaryDirectory() as folder:
        for source in (top / "examples" / SCRIPT, *top.glob("tests/command/files/*.key")):
            shutil.copy(source, folder)
        python = imported(["-c", "pass"], top, folder)
        least = seconds([], top, folder)
        for word, given in {**ASK_NOBODY, **ASK}.items():
            found = imported(["-m", "vaqsider", word, *shlex.split(given)], top, folder)
            modules = [module for module in found if module not in python]
            yield Start(word, modules, seconds(modules, top, folder) - least)
