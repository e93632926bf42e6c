#!/usr/bin/python3
"""Rolls keys of real zones on real servers, while clients ask real resolvers: see README.md.

It runs under Debian's Python, which finds Debian's dnspython."""

import argparse
import asyncio
import contextlib
import signal
import sys
import tempfile
import time
from collections import Counter
from importlib.util import find_spec
from pathlib import Path

sys.dont_write_bytecode = True

from processes import SceneFailure, is_taken, missing

TOP = Path(__file__).resolve().parent.parent
KEYSET = TOP / "crates" / "keyset" / "out" / "keyset"
PORT = 15353
DEBIANS = "/usr/bin/python3"
# Debian's packages of modules.
MODULES = {"dns": "python3-dnspython", "cryptography": "python3-cryptography"}
# The most seconds that the short form and the whole run may take.
SHORT, WHOLE = 600, 2400
FAULTS_SHOWN = 8
# Why a run ends before its scenes.
ENDS = {asyncio.TimeoutError: "it took too long", asyncio.CancelledError: "interrupted"}
# The seconds for which clients go on after a scene.
AFTER = 8


def given():
    parser = argparse.ArgumentParser(description=__doc__.splitlines()[0])
    parser.add_argument("scenes", nargs="*", help="scenes by their names; all without any")
    parser.add_argument("--short", action="store_true", help="a part of the scenes, ten minutes")
    parser.add_argument("--list", action="store_true", help="print the names of the scenes")
    parser.add_argument("--port", type=int, default=PORT)
    parser.add_argument("--seed", default=str(int(time.time())), help="of TTLs and of delays")
    parser.add_argument("--rounds", type=int, default=1, help="so often each honest scene")
    parser.add_argument("--at-once", type=int, default=14, help="scenes side by side")
    parser.add_argument("--limit", type=int, help="the most seconds for it")
    parser.add_argument("--keyset", default=str(KEYSET), help="the program")
    parser.add_argument("--folder", help="a new folder for its files and logs, which is left")
    return parser.parse_args()


async def play(zone, scene):
    """Plays a scene while clients ask. They go on for some seconds. Gives what went wrong, if
    anything did."""
    clients, wrong = zone.clients, None
    await clients.begin()
    zone.reading = asyncio.ensure_future(zone.read_cds())
    try:
        await asyncio.sleep(1)
        await asyncio.wait_for(scene.play(zone), scene.most)
        await asyncio.sleep(2 + min(zone.longest(), AFTER))
    except Exception as error:
        wrong = f"{type(error).__name__}: {error}"
    finally:
        zone.reading.cancel()
        await clients.end()
    return wrong or unlike(scene.is_lie, clients)


def unlike(is_lie, clients):
    """What is wrong in what the clients saw, if anything."""
    early = [fault for fault in clients.faults if fault.moment < clients.mended]
    if is_lie and not early:
        return "no failure was seen"
    if len(early) < len(clients.faults):
        return "clients saw faults after the lie was mended"
    return "clients saw faults" if early and not is_lie else None


HEAD = (f"{'scene':53} {'seconds':>7} {'questions':>9} {'again':>6} {'with AD':>9} "
        f"{'SERVFAIL':>8} {'other':>6}")


def row(name, seconds, counts, faults):
    """A row of the table. Its other faults are all except SERVFAIL."""
    asked, again, checked, servfail = (counts[it] for it in ("asked", "again", "AD", "SERVFAIL"))
    return (
        f"{name:53} {seconds:7.0f} {asked:9} {again:6} {checked:9} {servfail:8} "
        f"{faults - servfail:6}"
    )


@contextlib.contextmanager
def folder_of(arguments):
    """The folder in which all files of the run are."""
    if arguments.folder:
        Path(arguments.folder).mkdir(parents=True)
        yield str(Path(arguments.folder).resolve())
    else:
        with tempfile.TemporaryDirectory(prefix="live-") as folder:
            yield folder


class Run:
    """A run of some scenes, and how many of them go side by side."""

    def __init__(self, world, scenes, at_once):
        self.world, self.scenes, self.at_once = world, scenes, at_once
        self.failed, self.left, self.began = 0, list(scenes), time.monotonic()

    async def run(self):
        await self.world.begin()
        print(HEAD, flush=True)
        places = asyncio.Semaphore(self.at_once)
        await asyncio.gather(*(self.one(scene, places) for scene in self.scenes))
        for words, is_lie in (("all honest scenes", False), ("all with a lie", True)):
            clients = [self.clients(scene) for scene in self.scenes if scene.is_lie == is_lie]
            counts = sum((one.counts for one in clients), start=Counter())
            seconds = time.monotonic() - self.began
            print(row(words, seconds, counts, sum(len(one.faults) for one in clients)))

    def clients(self, scene):
        return self.world.zone_by_name[scene.zone].clients

    async def one(self, scene, places):
        async with places:
            self.world.processes.check()
            began = time.monotonic()
            wrong = await play(self.world.zone_by_name[scene.zone], scene)
        self.left.remove(scene)
        clients, seconds = self.clients(scene), time.monotonic() - began
        said = "FAILED" if wrong else "ok"
        print(row(scene.zone, seconds, clients.counts, len(clients.faults)), said, flush=True)
        if wrong:
            self.failed += 1
            said = (*clients.faults[:FAULTS_SHOWN], *self.reasons(scene.zone, clients))
            print(f"    {wrong}", *said, sep="\n    ", flush=True)

    def reasons(self, zone, clients):
        """What the resolvers of these faults, and a cache before one, say of the zone."""
        for resolver in sorted({fault.resolver for fault in clients.faults}):
            for name in (resolver, f"cache-of-{resolver}"):
                lines = self.world.processes.lines(name, zone.rstrip("."))
                yield from (f"{name}: {line}" for line in lines[:FAULTS_SHOWN])


def missing_packages():
    """Which packages are missing, with the command that installs them; None if all are there."""
    packages = missing()
    if lacking := [name for name in MODULES if find_spec(name) is None]:
        if sys.executable != DEBIANS:
            return f"{sys.executable} doesn't find {' '.join(lacking)}: take {DEBIANS}, of Debian"
        packages += [MODULES[name] for name in lacking]
    names = " ".join(packages)
    return f"missing: {names}\nto install them: apt-get install {names}" if packages else None


def problem(arguments):
    """What else prevents a run, if anything."""
    if not Path(arguments.keyset).exists():
        return f"{arguments.keyset} is not there: make build"
    if is_taken(arguments.port):
        return f"port {arguments.port} is in use on the loopback: choose another with --port"
    return None


async def main_task(run, limit):
    """The run, which ends at its limit and on a signal."""
    interrupted = asyncio.Event()
    for number in (signal.SIGINT, signal.SIGTERM, signal.SIGHUP):
        asyncio.get_running_loop().add_signal_handler(number, interrupted.set)
    running = asyncio.ensure_future(run.run())
    waiting = asyncio.ensure_future(interrupted.wait())
    await asyncio.wait((running, waiting), timeout=limit, return_when=asyncio.FIRST_COMPLETED)
    is_late = not (running.done() or waiting.done())
    await end_the_others()
    if is_late:
        raise asyncio.TimeoutError
    running.result()


async def end_the_others():
    """Ends all other tasks. One that gets an answer just as it is cancelled may go on: so each is
    cancelled until it ends."""
    while left := asyncio.all_tasks() - {asyncio.current_task()}:
        for task in left:
            task.cancel()
        await asyncio.wait(left, timeout=0.5)


def main():
    arguments = given()
    from scenes import chosen, not_among
    scenes = chosen(arguments.scenes, arguments.short, arguments.rounds)
    if arguments.list:
        print(*(scene.name for scene in scenes), sep="\n")
        return 0
    if wrong := missing_packages() or problem(arguments):
        sys.exit(wrong)
    failed = failures(scenes, arguments)
    if not arguments.scenes:
        print("not played:", *not_among(scenes))
    print(f"{len(scenes)} scenes, {failed} failures")
    return bool(failed)


def failures(scenes, arguments):
    """Plays scenes in one world. Gives how many have failed."""
    from world import LiveWorld
    limit = arguments.limit or (SHORT if arguments.short else WHOLE)
    print(f"seed {arguments.seed}")
    with folder_of(arguments) as folder:
        zones = {scene.zone: scene.letters for scene in scenes}
        world = LiveWorld(Path(folder), arguments.port, arguments.keyset, zones, arguments.seed)
        run = Run(world, scenes, arguments.at_once)
        with contextlib.closing(world):
            try:
                asyncio.run(main_task(run, limit))
            except (*ENDS, SceneFailure) as error:
                left = " ".join(scene.name for scene in run.left)
                sys.exit(f"{ENDS.get(type(error), error)}\nnot played to the end: {left}")
    return run.failed


if __name__ == "__main__":
    sys.exit(main())
