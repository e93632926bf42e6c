#!/usr/bin/env python3
"""What ticks cost, in seconds of a processor and in MB: of 10,000 zones of which ten are due, and
of 1,000 zones in the midst of their rolls. And a year of a zone, which nobody touches.

    python3 bench/ticks.py [ZONES BUSY]    10000 1000

Servers, signer and keys are those of tests/command/rolling_world.py, in this process. What comes
next the library says, or the program if that isn't there: its time is counted too."""

from __future__ import annotations

import copy
import os
import resource
import shutil
import sys
import tempfile
from collections import Counter
from collections.abc import Callable
from dataclasses import replace
from pathlib import Path

sys.dont_write_bytecode = True
TOP = Path(__file__).resolve().parent.parent
sys.path.append(str(TOP))

from tests.command import answering
from tests.command.rolling_folder import living, played
from tests.command.rolling_world import ZONE, World
from tests.command.terminal import folder, typed
from vaqsider import resting as kept

DAY, NOW, DUE, FIRST = 86400, 1_800_000_000, 10, 100
POLICY = "ksk-lifetime 12d\nzsk-lifetime 5d\n"
YEAR = "ksk-lifetime 365d\nzsk-lifetime 90d\ndelete-after 1d\n"
# How many days zones are old that are in the midst of their rolls.
AGES = [0, 0.01, 0.1, 1, 4.99, 5, 5.001, 5.005, 5.01, 5.02, 10, 10.01, 11.9, 12, 12.01, 12.05]


def used() -> float:
    """Seconds of a processor, of this process and of those that it has run."""
    own, others = (resource.getrusage(who) for who in (resource.RUSAGE_SELF,
                                                       resource.RUSAGE_CHILDREN))
    return sum(it.ru_utime + it.ru_stime for it in (own, others))


def measured(part: Callable[[], tuple[str, int]]) -> tuple[float, str, int]:
    before = used()
    said, status = part()
    return used() - before, said, status


def alone(here: Path) -> None:
    """Leaves only the zone of these tests in the folder."""
    for path in set(here.glob("*.script")) - {here / f"{ZONE}.script"}:
        path.unlink()


def row(what: str, seconds: float, more: str) -> None:
    memory = resource.getrusage(resource.RUSAGE_SELF).ru_maxrss / 1024
    print(f"| {what} | {seconds:.2f} | {memory:.0f} | {more} |", flush=True)


def resting(count: int) -> None:
    """Zones of one folder, all but ten at rest: these begin a roll."""
    world = World(now=NOW - 3 * DAY)
    with folder() as here, living(world, POLICY, asks=False):
        alone(here)
        for _ in played(world, NOW):
            pass
        for number in range(count):
            copied(f"z{number}")
        for path in here.glob(f"{ZONE}.*"):
            path.unlink()
        few = [here / f"z{number}.script" for number in range(min(count, FIRST))]
        took, _, _ = measured(lambda: typed(["tick", *few], world.now))
        row(f"{len(few)} zones that need nothing, each looked at", took, "")
        for number in range(len(few), count):
            rests(here, f"z{number}")
        took, _, status = measured(lambda: typed(["tick", here], world.now))
        row(f"{count} zones at rest", took, f"status {status}")
        for number in range(DUE):
            with open(f"z{number}.tick", "a", encoding="ascii") as file:
                file.write(f"once zsk {world.now}\n")
        took, said, status = measured(lambda: typed(["tick", here], world.now))
        row(f"{count} zones, {DUE} of which are due", took, deeds_of(said))


def copied(name: str) -> None:
    """One more zone like that of these tests, with files of its own."""
    for suffix in ("script", "notes", "act", "tick"):
        shutil.copy(f"{ZONE}.{suffix}", f"{name}.{suffix}")
    own = f"zone-file {name}.zone\n"
    Path(f"{name}.policy").write_text(Path(f"{ZONE}.policy").read_text() + own)
    shutil.copy(f"{ZONE}.zone", f"{name}.zone")
    shutil.copy(f"{ZONE}.zone.signed", f"{name}.zone.signed")


def rests(here: Path, name: str) -> None:
    """Leaves what a tick of the first zone has left."""
    like = kept.read(here / "z0.script")
    files = [Path(it.replace("z0.", f"{name}.")) for it in like.files]
    stamps = {str(it): kept.stamp(it) for it in files}
    kept.keep(here / f"{name}.script", replace(like, files=stamps))


def deeds_of(said: str) -> str:
    deeds = Counter(line.split(": ")[1] for line in said.splitlines() if ": " in line)
    return ", ".join(f"{count} {deed}" for deed, count in deeds.items())


def busy(count: int) -> None:
    """Zones in folders of their own, in the midst of their rolls, each with its own servers."""
    worlds: dict[int, World] = {}
    with tempfile.TemporaryDirectory(dir="/dev/shm") as place:
        for number, age in enumerate(AGES):
            worlds[number] = stage(Path(place) / f"z{number}", NOW - int(age * DAY), number)
        for number in range(len(AGES), count):
            like = number % len(AGES)
            shutil.copytree(Path(place) / f"z{like}", Path(place) / f"z{number}")
            policy = Path(place) / f"z{number}" / f"{ZONE}.policy"
            policy.write_text(policy.read_text().replace(f".z{like}", f".z{number}"))
            worlds[number] = copy.deepcopy(worlds[like])
        scripts = [f"{place}/z{number}/{ZONE}.script" for number in range(count)]
        with folder(), living(ManyZones(worlds), asks=False):
            for what in ("in the midst of their rolls", "once more"):
                took, said, _ = measured(lambda: typed(["tick", *scripts], NOW))
                row(f"{count} zones {what}", took, deeds_of(said))


def stage(here: Path, begin: int, number: int) -> World:
    """A zone that began at a moment, as it is now."""
    world = World(now=begin)
    here.mkdir()
    before = os.getcwd()
    os.chdir(here)
    try:
        with living(world, POLICY, asks=False):
            for _ in played(world, NOW):
                pass
        policy = Path(f"{ZONE}.policy")
        text = policy.read_text()
        for server in (*world.zone.delays, *world.parent.delays):
            text = text.replace(f" {server}", f" {server}.z{number}")
        policy.write_text(text)
    finally:
        os.chdir(before)
    world.now = NOW
    return world


class ManyZones(World):
    """The servers of many zones of one name, by the names of servers."""

    def __init__(self, worlds: dict[int, World]) -> None:
        super().__init__(now=NOW)
        self.worlds = worlds

    def exchange(self, query, address: str, port: int):
        server, _, number = address.rpartition(".z")
        return self.worlds[int(number)].exchange(query, server, port)


def year() -> None:
    """A year from an unsigned zone on, with quarterly ZSKs and yearly KSKs."""
    world, begun = World(now=NOW), used()
    with folder(), living(world, YEAR, asks=False):
        worst = max(status for _, status, _ in played(world, NOW + 366 * DAY, 6 * 3600))
        lines = Path(f"{ZONE}.script").read_text().splitlines()
    starts = Counter(line.split()[1] for line in lines if line.startswith("start "))
    rolls = ", ".join(f"{count} {roll}" for roll, count in starts.items())
    row("a year of a zone", used() - begun, f"{rolls}; the worst status is {worst}")


def main() -> None:
    os.environ["PATH"] = f"{TOP / 'tests' / 'command' / 'bin'}:{os.environ['PATH']}"
    answering.install()
    zones, many = map(int, sys.argv[1:3]) if len(sys.argv) > 2 else (10_000, 1_000)
    print("| What | Seconds of a processor | MB at most | Deeds |\n|---|---|---|---|")
    resting(zones)
    busy(many)
    year()


if __name__ == "__main__":
    main()
