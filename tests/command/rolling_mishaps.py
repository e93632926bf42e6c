"""Checks of tests/command/rolling.py: ticks that are killed after each change on disk; two at once;
clocks that jump; a full disk; and hooks and parents that hang or lie."""

from __future__ import annotations

import copy
import os
import resource
import shutil
import signal
import tempfile
import threading
from collections.abc import Callable, Iterator
from concurrent.futures import ProcessPoolExecutor
from contextlib import contextmanager
from dataclasses import dataclass
from pathlib import Path
from unittest import mock

from tests.command.rolling_folder import COUNTS, DAY, POLICY, SPLIT, lines, living, shape, tick
from tests.command.rolling_world import BEGIN, ZONE, World
from tests.command.terminal import TOP, folder

# ---- killed, and two at once

# What a tick finds: how long a zone was played before, and what it then does.
SITUATIONS = {
    "the first keys": ("", lambda said: True),
    "a DS set": (SPLIT, lambda said: "published: publish ds" in said),
    "CDS goes out": (SPLIT, lambda said: "CDS goes out" in said),
    "a new key": (SPLIT, lambda said: "start zsk-roll" in said),
    "a key leaves": (SPLIT, lambda said: "moved away" in said),
    "a registrar": ("parent hook\non-ds registrar\n", lambda said: "DS handed over" in said),
}


@contextmanager
def dying(count: int) -> Iterator[None]:
    """This process ends before it changes files for the time of this number."""
    left = [count]

    def before(change):
        def counted(*given, **named):
            left[0] -= 1
            if left[0] == 0:
                os.kill(os.getpid(), signal.SIGKILL)
            return change(*given, **named)

        return counted

    names = ("fsync", "replace", "rename", "mkdir", "unlink", "pwrite", "ftruncate")
    with mock.patch.multiple(os, **{name: before(getattr(os, name)) for name in names}):
        yield


def is_killed(world: World, count: int) -> bool:
    """Whether a tick in a process of its own was killed at a change; else it came to its end."""
    if (child := os.fork()) == 0:
        with dying(count):
            tick(world)
        os._exit(0)
    return os.WIFSIGNALED(os.waitpid(child, 0)[1])


def before_it(name: str) -> Iterator[tuple[World, str]]:
    """The world just before a tick does what a situation is about, and the folder then."""
    policy, does = SITUATIONS[name]
    world = World(reads_cds="hook" not in policy)
    with folder() as here, living(world, policy):
        for _ in range(200):
            kept = copy.deepcopy(world)
            with tempfile.TemporaryDirectory() as made:
                shutil.copytree(here, made, dirs_exist_ok=True)
                status, said = tick(world)
                if does(said):
                    yield kept, made
                    return
            world.passes(60 if status else 6 * 3600)
    raise AssertionError(f"{name}: it never comes")


@contextmanager
def again(world: World, place: str) -> Iterator[World]:
    """A copy of the folder and of the world as they were."""
    with tempfile.TemporaryDirectory(dir="/dev/shm") as copied:
        shutil.copytree(place, copied, dirs_exist_ok=True)
        os.chdir(copied)
        twin = copy.deepcopy(world)
        with living(twin, Path(f"{ZONE}.policy").read_text().removeprefix(POLICY)):
            yield twin


def killed_in(name: str) -> tuple[list[str], int]:
    """Kills a tick at each of its changes in turn. The next one leaves what one leaves that was
    never killed."""
    faults, count = [], 0
    for kept, made in before_it(name):
        here = os.getcwd()
        with again(kept, made) as world:
            wanted = tick(world)[0], shape()
        while True:
            count += 1
            with again(kept, made) as world:
                if not is_killed(world, count):
                    break
                found = tick(world)[0], shape()
                if found != wanted:
                    faults.append(f"{name}: killed at change {count}: {found}, not {wanted}")
        os.chdir(here)
    return faults, count - 1


def killed() -> Iterator[str]:
    with ProcessPoolExecutor() as pool:
        for faults, count in pool.map(killed_in, SITUATIONS):
            COUNTS["kills"] += count
            yield from faults


def at_once(part: Callable[[], None], count: int) -> None:
    """Runs a part so many times at once."""
    threads = [threading.Thread(target=part) for _ in range(count)]
    for thread in threads:
        thread.start()
    for thread in threads:
        thread.join()


def together() -> Iterator[str]:
    """Ticks at once: one does what is due, and the others find it locked, or nothing left."""
    from vaqsider import ticks

    world = World()
    with folder(), living(world, SPLIT):
        ends, begun = [], threading.Barrier(4)

        def one() -> None:
            begun.wait()
            ends.append(ticks.tick(f"{ZONE}.script", lambda: world.now, lambda deed: None))

        for _ in range(12):
            at_once(one, 4)
            world.loads()
            world.passes(60)
        if worst := [end for end in ends if end.status > 1]:
            yield f"of ticks at once one ends with {worst[0]}"
        words = [line.split(" ")[0] for line in lines()]
        if words != ["zone", "add-ksk", "add-zsk", "start", "report1", "wait1", "report2", "wait2",
                     "done"]:
            yield f"ticks at once have made {words}"


# ---- clocks, disks


def clocks() -> Iterator[str]:
    """A clock that was set back: nothing is done, and a person is asked for. Once it is right, all
    goes on."""
    world = World()
    with folder(), living(world, SPLIT):
        tick(world)
        for back in (1, 60, 3600, BEGIN):
            before, world.now = shape(), world.now - back
            status, said = tick(world)
            if status != 2 or "was that set back?" not in said or shape() != before:
                yield f"set back by {back} it ends with {status}: {said}"
            world.now += back
        world.passes(60)
        status, said = tick(world)
        if "report1" not in said:
            yield f"with the right clock it says {said}"
        world.now += 10 * DAY
        tick(world)
        world.now -= 10 * DAY
        status, said = tick(world)
        if status != 2:
            yield f"back from ten days ahead it ends with {status}: {said}"


def disks() -> Iterator[str]:
    """A disk that is full at some length of a file: no line is torn, and once there is room the
    tick leaves what it leaves otherwise."""
    with folder(), living(World(), SPLIT) as world:
        wanted = tick(world)[0], shape()
    _, hard = resource.getrlimit(resource.RLIMIT_FSIZE)
    for most in (0, 1, 30, 100, 200, 300, 500, 900):
        with folder(), living(World(), SPLIT) as world:
            resource.setrlimit(resource.RLIMIT_FSIZE, (most, hard))
            try:
                status, said = tick(world)
            finally:
                resource.setrlimit(resource.RLIMIT_FSIZE, (hard, hard))
            if status != 2 or Path(f"{ZONE}.script").read_text()[-1:] != "\n":
                yield f"with files of {most} bytes it ends with {status}: {said}"
            found = tick(world)[0], shape()
            if found != wanted:
                yield f"after files of {most} bytes it leaves {found}, not {wanted}"


# ---- commands that hang or lie


@dataclass(frozen=True)
class KeygenRow:
    """What a program does that ought to make a key, and what the tick says of it."""

    name: str
    does: str
    says: str


# What is said of one that hangs.
LATE = "it has not ended within 1 s"
HOOKS = (
    KeygenRow("hangs", "sleep 100", LATE),
    KeygenRow("hangs, and its child too", "sleep 100 & echo $! >pid; sleep 100", LATE),
    KeygenRow("leaves a child", "sleep 100 & exit 1", LATE),
    KeygenRow("fails", "echo no room >&2; exit 3", "status 3: no room"),
    KeygenRow("makes nothing", "true", "it has made no key of role ksk"),
    KeygenRow("makes half a key", "echo x >Kexample.com.+013+00001.key",
              "it has made no key of role ksk"),
    KeygenRow("keeps the private half", f"cp {TOP}/tests/command/files/K*64103.key .",
              "it has made no key of role ksk"),
    KeygenRow("makes a key of another role", f"cp {TOP}/tests/command/files/K*10133.key .; "
              "echo 40693 >Kexample.com.+013+10133.private", "it has made no key of role ksk"),
    KeygenRow("speaks for long", "head -c 100000 /dev/zero | tr '\\0' x; exit 1", "status 1: xxx"),
)


def hooks() -> Iterator[str]:
    """Each command is really run, for at most a second if it hangs: nothing that it does stops a
    tick, and no key comes in."""
    from vaqsider import hooks as real

    run = real.run
    for row in HOOKS:
        COUNTS["commands"] += 1
        world = World()
        patience = {"seconds": 1} if row.says == LATE else {}
        world.runs = lambda *given, limit=patience, **named: run(*given, **{**named, **limit})
        with folder() as here:
            Path("program").write_text(f"#!/bin/sh\n{row.does}\n")
            Path("program").chmod(0o755)
            with living(world):
                policy = Path(f"{ZONE}.policy")
                text = policy.read_text().replace("keygen keygen", f"keygen {here / 'program'}")
                policy.write_text(text)
                status, said = tick(world)
                if status != 2 or row.says not in said or len(lines()) > 1:
                    yield f"{row.name}: it ends with {status}: {said}"
            for pid in here.glob(".*/pid"):
                stat = Path(f"/proc/{pid.read_text().strip()}/stat")
                if stat.exists() and "(sleep) S" in stat.read_text():
                    yield f"{row.name}: its child goes on"


def parents() -> Iterator[str]:
    """A registrar that says yes and does nothing gets it once, and after a while a person is asked
    for; and a parent that gets it by hand is waited for."""
    for policy, status_at_first, says in (
        ("parent hook\non-ds registrar\npatience 1h\non-event say\n", 1, "DS handed over"),
        ("parent ask\npatience 1h\non-event say\n", 2, "give the parent the DS set: example.com."),
    ):
        world = World(reads_cds=False, believes=False)
        with folder(), living(world, policy):
            said, status = "", 0
            for _ in range(60):
                status, said = tick(world)
                if says in said:
                    break
                world.passes(60)
            if status != status_at_first or says not in said:
                yield f"{policy!r}: it ends with {status}: {said}"
            world.passes(2 * 3600)
            status, said = tick(world)
            tick(world)
            inputs = [it["words"][0] for it in world.inputs()]
            if status != 2 or inputs.count("registrar") > 1 or inputs.count("say") not in (1, 2):
                yield f"{policy!r}: then it ends with {status}, and has said {inputs}: {said}"


CHECKS = (clocks, disks, together, hooks, parents)
