"""Machines that share zones over PostgreSQL, which is started here in a folder of its own. Debian's
`postgresql` and `python3-psycopg` are needed, so `make machines` runs it, and not the gate.

A tick on one machine is killed before and after each statement in turn. The next one, on another
machine, leaves what one leaves that was never killed. Machines at once tick each zone once, and
what a second writer adds is refused."""

from __future__ import annotations

import contextlib
import copy
import os
import shutil
import signal
import sys
import tempfile
import threading
import time
from collections.abc import Iterator
from pathlib import Path
from unittest import mock

from live.postgres import NAME, Postgres
from tests.command import answering
from tests.command.rolling_folder import living, shape
from tests.command.rolling_world import ZONE, World
from tests.command.terminal import TOP, folder, typed

LIFETIMES = "ksk-lifetime 15d\nzsk-lifetime 6d\n"
COUNTS = {"kills": 0, "ticks": 0}


class StoreServer(Postgres):
    """A server in a folder of its own, with a database for zones."""

    def __enter__(self) -> StoreServer:
        self.prepare()
        self.start()
        self.wait()
        return self

    def __exit__(self, *_: object) -> None:
        self.end()

    def url(self, database: str) -> str:
        return f"postgresql:///{database}?host={self.folder}&user={NAME}"

    def make(self, database: str, template: str = "template1") -> str:
        self.psql("postgres", "-c", f"DROP DATABASE IF EXISTS {database} WITH (FORCE)",
                  "-c", f"CREATE DATABASE {database} TEMPLATE {template}")
        return self.url(database)

    def rests(self, database: str) -> None:
        """Returns once nobody is connected: the server sees after a moment that one was killed."""
        import psycopg

        with psycopg.connect(self.url("postgres"), autocommit=True) as asked:
            text = "SELECT count(*) FROM pg_stat_activity WHERE datname = %s"
            while asked.execute(text, [database]).fetchone() != (0,):
                time.sleep(0.01)


class Machines:
    """Two machines with a folder each. Key files and zones are in the present folder, which both
    see."""

    def __init__(self, url: str) -> None:
        self.url = url
        for name in ("one", "two"):
            Path(name).mkdir(exist_ok=True)

    def tick(self, world: World, name: str) -> tuple[int, str]:
        COUNTS["ticks"] += 1
        world.loads()
        said, status = typed(["tick", name, "--store", self.url, "--jobs", 1], world.now)
        world.loads()
        world.caches()
        return status, said

    def ticks(self, world: World, name: str) -> None:
        """A dozen ticks of one machine, two minutes apart."""
        for _ in range(12):
            self.tick(world, name)
            world.passes(120)

    def lines(self, name: str) -> list[str]:
        return (Path(name) / f"{ZONE}.script").read_text().splitlines()


@contextlib.contextmanager
def shared(postgres: StoreServer, world: World) -> Iterator[Machines]:
    """A store with an unsigned zone, and machines."""
    with folder() as here, living(world, LIFETIMES):
        policy = Path(f"{ZONE}.policy")
        policy.write_text(policy.read_text() + f"keys {here}\nzone-file {here}/{ZONE}.zone\n")
        for path in set(here.glob("*.script")) - {here / f"{ZONE}.script"}:
            path.unlink()
        url = postgres.make("zones")
        said, status = typed(["store", "copy", here, url])
        if status:
            raise AssertionError(said)
        yield Machines(url)


@contextlib.contextmanager
def dying(count: int) -> Iterator[None]:
    """This process ends before, or after, the statement of a number: two for each."""
    from vaqsider import shared as store

    left, made = [count], store.execute

    def ends() -> None:
        left[0] -= 1
        if left[0] == 0:
            os.kill(os.getpid(), signal.SIGKILL)

    def execute(*given):
        ends()
        done = made(*given)
        ends()
        return done

    with mock.patch.object(store, "execute", execute):
        yield


def is_killed(machines: Machines, world: World, count: int) -> bool:
    if (child := os.fork()) == 0:
        with dying(count):
            machines.tick(world, "one")
        os._exit(0)
    return os.WIFSIGNALED(os.waitpid(child, 0)[1])


def left(machines: Machines, world: World, name: str) -> tuple:
    """What a tick leaves on a machine and in the store, and whether that is the same."""
    machines.tick(world, name)
    if not (Path(name) / f"{ZONE}.script").exists():
        # The other one had done all of it.
        name = "one"
    for of in ("script", "notes"):
        shutil.copy(Path(name) / f"{ZONE}.{of}", f"{ZONE}.{of}")
    with tempfile.TemporaryDirectory() as copied:
        typed(["store", "copy", machines.url, copied])
        stored = [(Path(copied) / f"{ZONE}.{of}").read_text() for of in ("script", "notes")]
    same = stored == [Path(f"{ZONE}.{of}").read_text() for of in ("script", "notes")]
    return same, shape()


def back_to(kept: Path, here: Path) -> None:
    """Has a folder be as it was."""
    for path in here.iterdir():
        shutil.rmtree(path) if path.is_dir() else path.unlink()
    shutil.copytree(kept, here, dirs_exist_ok=True)


def killed(postgres: StoreServer, before: int) -> Iterator[str]:
    """Kills a tick at each statement, after so many ticks of the zone."""
    world = World()
    with shared(postgres, world) as machines:
        for _ in range(before):
            status, _ = machines.tick(world, "one")
            world.passes(60 if status else 1800)
        postgres.make("kept", "zones")
        here, count = Path.cwd(), 0
        with tempfile.TemporaryDirectory() as kept:
            shutil.copytree(here, kept, dirs_exist_ok=True)
            wanted = left(machines, copy.deepcopy(world), "two")
            while True:
                count += 1
                back_to(Path(kept), here)
                postgres.make("zones", "kept")
                twin = copy.deepcopy(world)
                with living(twin):
                    if not is_killed(machines, twin, count):
                        break
                    postgres.rests("zones")
                    found = left(machines, twin, "two")
                if found != wanted:
                    yield f"killed at statement {count}: {found}, not {wanted}"
        COUNTS["kills"] += count - 1


def together(postgres: StoreServer) -> Iterator[str]:
    """Machines at once: a zone rolls as on one, and nothing is done twice."""
    from vaqsider import shared as store
    from vaqsider import ticks

    world = World()
    with shared(postgres, world) as machines:
        deeds: list = []
        for _ in range(14):
            made = ticks.Ticks(lambda: world.now, deeds.append)
            threads = [threading.Thread(target=store.run, args=(
                machines.url, Path(name), 2, made)) for name in ("one", "two")]
            for thread in threads:
                thread.start()
            for thread in threads:
                thread.join()
            world.loads()
            world.passes(120)
        machines.tick(world, "two")
        words = [line.split(" ")[0] for line in machines.lines("two")]
        if words != ["zone", "add-ksk", "add-zsk", "start", "report1", "wait1", "report2", "wait2",
                     "done"]:
            yield f"machines at once have made {words}"


def refused(postgres: StoreServer) -> Iterator[str]:
    """A second line of a number, a changed line and a file with other lines are refused."""
    import psycopg

    world = World()
    with shared(postgres, world) as machines:
        machines.tick(world, "one")
        with psycopg.connect(machines.url, autocommit=True) as store:
            for text in ("UPDATE vaqsider_line SET line = 'x'", "DELETE FROM vaqsider_line",
                         f"INSERT INTO vaqsider_line VALUES ('{ZONE}', 'script', 2, 'x')"):
                try:
                    store.execute(text)
                    yield f"{text} is taken"
                except psycopg.Error:
                    pass
        with open(f"one/{ZONE}.script", "a", encoding="ascii") as file:
            file.write("set-stale K1\n")
        world.now += 60
        status, said = machines.tick(world, "one")
        if status != 2 or "has lines that the store hasn't" not in said:
            yield f"with another line it ends with {status}: {said}"
        said, status = typed(["tick", "one", "--store", "postgresql:///none?host=/nowhere"])
        if status != 69 or "the store fails" not in said:
            yield f"without a store it ends with {status}: {said}"


def by_hand(postgres: StoreServer) -> Iterator[str]:
    """Words that a person types on one machine are those of all."""
    world = World()
    with shared(postgres, world) as machines:
        machines.ticks(world, "one")
        store = ["--store", machines.url]
        for words, wanted in (
            (["roll", f"two/{ZONE}.script", "zsk", "--yes"], 1),
            (["next", f"one/{ZONE}.script"], 1),
            (["call", f"two/{ZONE}.script", "set-stale none"], 1),
            (["call", "two/other.script", "set-stale none"], 64),
            (["zones", "two"], 0),
        ):
            world.loads()
            said, status = typed([*words, *store], world.now)
            if status != wanted:
                yield f"{words} ends with {status}: {said}"
        machines.ticks(world, "two")
        machines.tick(world, "one")
        ends = machines.lines("one"), machines.lines("two")
        if ends[0] != ends[1] or "done zsk-roll" not in ends[0]:
            yield f"a roll that is asked for on one machine comes to {ends}"


def main() -> int:
    os.environ["PATH"] = f"{TOP / 'tests' / 'command' / 'bin'}:{os.environ['PATH']}"
    answering.install()
    with StoreServer() as postgres:
        faults = [*refused(postgres), *together(postgres), *by_hand(postgres)]
        for before in (0, 3):
            faults += killed(postgres, before)
    print(*faults, sep="\n", end="\n" if faults else "")
    print("machines: " + ", ".join(f"{count} {what}" for what, count in COUNTS.items()))
    return 1 if faults else 0


if __name__ == "__main__":
    sys.exit(main())
