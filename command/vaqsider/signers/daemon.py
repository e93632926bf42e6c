"""A signer that runs, with a database of keys of its own. An act compares that with what is due,
and has only what differs changed: what comes in before what goes out, so that a resolver finds a
chain after each command. In the end the database has to have what is due."""

from __future__ import annotations

import contextlib
import os
import subprocess
import time
from argparse import Namespace
from dataclasses import dataclass, replace
from pathlib import Path
from typing import TYPE_CHECKING, Callable, Iterator, Protocol

from .. import place
from ..errors import UNAVAILABLE, Failure
from ..keyfiles import KeyFile
from ..signing import shown
from ..zonefile import KeyId
from . import OF_FILES, Key, Sets, Wish

if TYPE_CHECKING:
    from ..act import Act

# For how long a command of a signer may run, in seconds: PowerDNS waits for a database that another
# program has locked, and says nothing.
SECONDS = 60
# If it may not wait, as for SQLite in the midst of a change, it says this and has changed nothing:
# the command runs again after a pause, in seconds, until its time is over.
LOCKED, PAUSE = "database is locked", 0.5


@dataclass(frozen=True)
class SignerStep:
    """A command of a signer. What is run may be made only when it is its turn, of what is there
    then; until then it is shown by these words. Made of no words, it is done by then."""

    words: tuple[str, ...]
    late: Callable[[], SignerStep | tuple[str, ...]] | None = None
    stdin: str = ""
    seconds: float = 0

    def run(self) -> str:
        made = self.late() if self.late else self.words
        if isinstance(made, SignerStep):
            return made.run()
        return said(made, self.stdin, self.seconds) if made else ""


def said(words: tuple[str, ...] | list[str], stdin: str = "", seconds: float = 0) -> str:
    """What a command prints, after it has done its work."""
    end = time.monotonic() + (seconds or SECONDS)
    while True:
        done = _ended(list(words), stdin, seconds or SECONDS)
        out = done.stdout.decode(errors="replace")
        if not done.returncode:
            return out
        output = done.stderr.decode(errors="replace") + out
        if LOCKED not in output or time.monotonic() + PAUSE > end:
            lines = filter(None, (it.strip() for it in output.splitlines()))
            why = "; ".join(list(lines)[:3]) or f"status {done.returncode}"
            raise Failure(f"{shown(list(words))}: {why}", UNAVAILABLE)
        time.sleep(PAUSE)


def _ended(words: list[str], stdin: str, seconds: float) -> subprocess.CompletedProcess[bytes]:
    """A command that has ended, whatever its status is."""
    try:
        return subprocess.run(
            words, input=stdin.encode(), stdout=subprocess.PIPE, stderr=subprocess.PIPE,
            timeout=seconds, env={**os.environ, "LC_ALL": "C", "TZ": "UTC"},
        )
    except FileNotFoundError:
        raise Failure(f"{words[0]} is missing: install it", UNAVAILABLE) from None
    except subprocess.TimeoutExpired:
        text = f"{shown(words)}: not done after {seconds} seconds"
        raise Failure(text, UNAVAILABLE) from None


class SignerStore(Protocol):
    """The database of a signer that runs, by its three verbs; and which options of signing an act
    may give it."""

    name: str
    options: tuple[str, ...]

    def lacks(self, wanted: Sets) -> Iterator[str]:
        """What of these sets it can't do."""

    def now(self, known: list[Key]) -> Sets:
        """What is there now. These are the keys that the script knows."""

    def publish(self, now: Sets, wanted: Sets, folder: Path) -> Iterator[SignerStep]:
        """The commands from what is there to what is wanted. Each leaves a chain. They may have
        files in this private folder."""

    def renew(self) -> Iterator[SignerStep]:
        """The commands that have all be signed anew, under a higher serial, and served."""

    def ttls(self) -> dict[str, int]:
        """The highest TTL of the DNSKEY set, and that of all others, as they will be given."""

    def fits(self, key: Key) -> bool:
        """Whether a key can sign: it is in the database, or its file can come in."""


@dataclass
class DaemonVersion:
    """What an act does."""

    store: SignerStore
    now: Sets
    wanted: Sets
    steps: list[SignerStep]
    known: list[Key]

    @property
    def has_cds(self) -> bool:
        return bool(self.wanted.cds)

    def commands(self) -> list[list[str]]:
        return [list(step.words) for step in self.steps]

    def ttls(self) -> dict[str, int]:
        return self.store.ttls()

    def text(self) -> Iterator[str]:
        yield from (f"now: {text}" for text in self.now.text())
        yield from (f"then: {text}" for text in self.wanted.text())
        yield from (f"run: {shown(words)}" for words in self.commands())

    def last(self) -> str:
        return f"look: what {self.store.name} has then"

    def done(self) -> str:
        how = "has" if self.now != self.wanted else "had, and has signed anew,"
        return f"{self.store.name} {how} what is due"

    def notices(self) -> Iterator[str]:
        return iter(())

    def value(self, commands: list[str]) -> dict[str, object]:
        return {"signer": self.store.name, "commands": commands, "cds": self.has_cds,
                "valid_until": {}}

    def put(self) -> None:
        """Runs the commands, and looks what is there then."""
        for step in self.steps:
            step.run()
        left = list(self.store.now(self.known).differences(self.wanted))
        if left:
            text = f"{self.store.name} has not what is due: {'; '.join(left)}"
            raise Failure(text, UNAVAILABLE)


class Daemon:
    """A signer that runs, for an act."""

    def __init__(self, store: SignerStore, args: Namespace, act: Act) -> None:
        self.store, self.args, self.act = store, args, act
        self.known = [Key.of(file.data, name, file) for name, file in act.keys.every().items()]
        for name, usual in OF_FILES.items():
            if getattr(args, name) not in usual and name not in store.options:
                option = name.replace("_", "-")
                raise Failure(f"--{option}: {store.name} has that in its own settings")

    def lacks(self, wanted: Sets) -> Iterator[str]:
        return self.store.lacks(wanted)

    def now(self) -> Sets:
        return self.store.now(self.known)

    def plan(self, wish: Wish) -> DaemonVersion:
        """What has to be changed, if all of it can be."""
        return self._from(self.now(), wish)

    def _from(self, now: Sets, wish: Wish) -> DaemonVersion:
        lacks = list(self.lacks(wish.sets))
        if lacks:
            raise Failure("; ".join(lacks), UNAVAILABLE)
        there = {KeyId(key.algorithm, key.tag) for key in now.dnskey}
        self.act.expect_own(there, self.store.name)
        for key in sorted(wish.sets.keys, key=str):
            if not self.store.fits(key):
                text = f"{key} is neither in {self.store.name} nor, with its private half, here"
                raise Failure(text, UNAVAILABLE)
        steps = [*self.store.publish(now, wish.sets, wish.folder), *self.store.renew()]
        return DaemonVersion(self.store, now, wish.sets, steps, self.known)

    @contextlib.contextmanager
    def publish(self, wish: Wish) -> Iterator[DaemonVersion]:
        """The plan, with a folder for its files. The commands run when it is put."""
        now = self.now()
        if now == wish.sets:
            with self.renew(wish) as plan:
                yield plan
            return
        with place.folder(Path(self.args.SCRIPT).with_suffix(f".{self.store.name}")) as folder:
            yield self._from(now, replace(wish, folder=folder))

    @contextlib.contextmanager
    def renew(self, wish: Wish) -> Iterator[DaemonVersion]:
        """The same, if nothing but signatures is due."""
        yield DaemonVersion(self.store, wish.sets, wish.sets, list(self.store.renew()), self.known)


def is_here(file: KeyFile | None) -> bool:
    """Whether the private half of a key is in a file."""
    return file is not None and file.private.is_file()
