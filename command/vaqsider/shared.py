"""Zones that several machines share, in PostgreSQL. The lines of a zone's files are rows that are
only added, each with its number as the key: so no line is written over, and of two writers one is
refused. A line is committed there before it is in a file, and a file before anything is published.

A machine takes one zone after another, which no other one has meanwhile, brings its files up to
what is committed, and ticks it there. Key files, unsigned and signed zones are where the policy
says."""

from __future__ import annotations

import contextlib
import os
from collections.abc import Iterator
from concurrent.futures import ThreadPoolExecutor
from functools import partial
from pathlib import Path
from typing import Any

from keyset import Lines, Locked, file, locked

from . import place, policies, subjects, ticks
from .ending import End
from .errors import BROKEN, DUE, UNAVAILABLE, WARNING, Failure
from .ticks import Ticks

try:
    import psycopg
except ImportError:
    raise Failure("python3-psycopg is missing: install it to share zones", UNAVAILABLE) from None

# The files of a zone whose lines are shared.
FILES = ("script", "notes", "act", "tick")
SCHEMA = """
CREATE TABLE IF NOT EXISTS vaqsider_zone (
    name text PRIMARY KEY, policy text NOT NULL, seen bigint NOT NULL DEFAULT 0,
    status integer NOT NULL DEFAULT 0, says text NOT NULL DEFAULT '');
CREATE TABLE IF NOT EXISTS vaqsider_line (
    zone text NOT NULL, file text NOT NULL, number integer NOT NULL CHECK (number > 0),
    line text NOT NULL, PRIMARY KEY (zone, file, number));
CREATE OR REPLACE FUNCTION vaqsider_kept() RETURNS trigger LANGUAGE plpgsql
    AS $$ BEGIN RAISE EXCEPTION 'lines are only added'; END $$;
CREATE OR REPLACE TRIGGER vaqsider_kept BEFORE UPDATE OR DELETE ON vaqsider_line
    FOR EACH ROW EXECUTE FUNCTION vaqsider_kept();
"""
TAKE = """SELECT name, policy FROM vaqsider_zone WHERE seen < %s
    ORDER BY seen, name FOR UPDATE SKIP LOCKED LIMIT 1"""
HOLD = "SELECT policy FROM vaqsider_zone WHERE name = %s FOR UPDATE"
LEAVE = "UPDATE vaqsider_zone SET seen = %s, status = %s, says = %s WHERE name = %s"
READ = "SELECT line FROM vaqsider_line WHERE zone = %s AND file = %s ORDER BY number"
ADD = "INSERT INTO vaqsider_line (zone, file, number, line) VALUES (%s, %s, %s, %s)"


def execute(
    connection: psycopg.Connection[Any], text: str, *values: object
) -> psycopg.Cursor[Any]:
    """Each statement is made here."""
    try:
        return connection.execute(text, values or None)
    except psycopg.errors.UniqueViolation:
        raise
    except psycopg.Error as error:
        raise _unreachable(error) from None


def _unreachable(error: psycopg.Error) -> Failure:
    return Failure(f"the store fails: {' '.join(str(error).split())}", UNAVAILABLE)


class SharedStore:
    """The zones of a database. One connection keeps the zone that is ticked, and another one
    commits each line at once."""

    def __init__(self, url: str) -> None:
        try:
            self.taking = psycopg.connect(url)
            self.adding = psycopg.connect(url, autocommit=True)
        except psycopg.Error as error:
            raise _unreachable(error) from None

    def __enter__(self) -> SharedStore:
        return self

    def __exit__(self, *_: object) -> None:
        self.taking.close()
        self.adding.close()

    def prepare(self) -> None:
        """Makes the tables, if they aren't there."""
        execute(self.adding, SCHEMA)

    # ---- lines

    def lines(self, zone: str, of: str) -> list[str]:
        return [line for line, in execute(self.adding, READ, zone, of)]

    def add(self, zone: str, of: str, number: int, line: str) -> None:
        """Commits a line. `Locked`: another one has this number."""
        try:
            execute(self.adding, ADD, zone, of, number, line)
        except psycopg.errors.UniqueViolation:
            raise Locked(f"{zone}: another machine has written line {number} of its {of}") from None

    def bring(self, zone: str, folder: Path, policy: str) -> None:
        """Brings the files of a zone up to what is committed. They may lag, as after a crash; with
        other lines a person has to see why."""
        _write(folder / f"{zone}{policies.SUFFIX}", policy)
        for of in FILES:
            path, lines = folder / f"{zone}.{of}", self.lines(zone, of)
            if not path.exists():
                if lines:
                    file.create(path, lines)
                continue
            with locked(path) as kept:
                if kept.lines != lines[: len(kept.lines)]:
                    text = f"{path} has lines that the store hasn't"
                    raise Failure(f"{text}: compare it with a copy of the store", WARNING)
                for line in lines[len(kept.lines) :]:
                    kept.append(line)

    @contextlib.contextmanager
    def witnessing(self, zone: str, folder: Path) -> Iterator[None]:
        """Meanwhile each line of the zone's files is committed before it is in its file."""
        paths = {of: os.path.realpath(folder / f"{zone}.{of}") for of in FILES}
        for of, path in paths.items():
            file.WITNESSES[path] = partial(self.add, zone, of)
        try:
            yield
        finally:
            for path in paths.values():
                del file.WITNESSES[path]

    # ---- zones

    def next(self, before: int, folder: Path, zone_ticks: Ticks) -> tuple[str, End] | None:
        """Ticks the zone that waits longest of those that were not ticked since a moment, and that
        no other machine has. None if there is none."""
        with self.taking.transaction():
            taken = execute(self.taking, TAKE, before).fetchone()
            if taken is None:
                return None
            zone, policy = taken
            end = self._tick(zone, policy, folder, zone_ticks)
            execute(self.taking, LEAVE, int(zone_ticks.clock()) + 1, end.status, end.text, zone)
            return zone, end

    def _tick(self, zone: str, policy: str, folder: Path, zone_ticks: Ticks) -> End:
        try:
            self.bring(zone, folder, policy)
        except Locked as error:
            return zone_ticks.ended(zone, End(DUE, str(error)))
        except Exception as error:
            return zone_ticks.ended(zone, End(*ticks.fault_of(error)))
        with self.witnessing(zone, folder):
            return zone_ticks.tick(folder / f"{zone}.script")

    # ---- copies

    def take_in(self, script: Path) -> None:
        """Copies a zone from files, all of it or nothing."""
        zone, policy = script.stem, policies.place_of(script).read_text(encoding="utf-8")
        with self.taking.transaction():
            execute(self.taking, "INSERT INTO vaqsider_zone (name, policy) VALUES (%s, %s)",
                    zone, policy)
            for of in FILES:
                path = script.with_suffix(f".{of}")
                lines = Lines(path).lines if path.exists() else []
                for number, line in enumerate(lines, start=1):
                    execute(self.taking, ADD, zone, of, number, line)

    def give_out(self, folder: Path) -> list[str]:
        """Copies all zones to files."""
        found = list(execute(self.adding, "SELECT name, policy FROM vaqsider_zone ORDER BY name"))
        for zone, policy in found:
            self.bring(zone, folder, policy)
        return [zone for zone, _ in found]


def _write(path: Path, text: str) -> None:
    """Has the file have this text. It isn't written if it has."""
    if path.exists() and path.read_text(encoding="utf-8") == text:
        return
    place.write(path, text)


def is_url(text: str) -> bool:
    return text.startswith(("postgresql://", "postgres://"))


def run(url: str, folder: Path, jobs: int, zone_ticks: Ticks) -> dict[str, End]:
    """Ticks all zones of a store that no other machine ticks now. How each ended."""
    before, ends = int(zone_ticks.clock()) + 1, {}

    def one(_: int) -> None:
        with SharedStore(url) as store:
            while found := store.next(before, folder, zone_ticks):
                ends[found[0]] = found[1]

    with ThreadPoolExecutor(jobs) as pool:
        list(pool.map(one, range(jobs)))
    return ends


@contextlib.contextmanager
def held(url: str, place: Path) -> Iterator[None]:
    """Meanwhile a script is that of the store, and no other machine has it. To a folder all zones
    of the store are copied first."""
    with SharedStore(url) as store:
        if place.is_dir():
            store.give_out(place)
            yield
            return
        with store.taking.transaction():
            found = execute(store.taking, HOLD, place.stem).fetchone()
            if found is None:
                raise Failure(f"{place.stem} isn't in the store")
            store.bring(place.stem, place.parent, *found)
            with store.witnessing(place.stem, place.parent):
                yield


def copy(source: str, target: str) -> list[str]:
    """Copies zones between a folder and a store. Gives their names."""
    if is_url(source) == is_url(target):
        raise Failure("one of both is a folder, the other one postgresql://..")
    with SharedStore(source if is_url(source) else target) as store:
        store.prepare()
        if is_url(source):
            return store.give_out(Path(target))
        scripts = subjects.scripts([source])
        for script in scripts:
            try:
                store.take_in(script)
            except psycopg.errors.UniqueViolation:
                raise Failure(f"{script.stem} is in the store already", BROKEN) from None
        return [script.stem for script in scripts]
