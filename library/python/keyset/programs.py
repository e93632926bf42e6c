"""The program, and sessions over it: each call runs all lines so far again.

It is the one in the folder KEYSET_PROGRAMS, or the one that `make build` has made, or the one that
is installed, or the one on the path."""

from __future__ import annotations

import json
import os
import re
from pathlib import Path
from typing import List, Optional, Sequence, cast

from .errors import Closed, Malformed, NotSaid, OutOfMemory, Unavailable, refusal_of
from .library import TREE
from .lines import why_malformed
from .members import Status
from .session import FORGONE, MALFORMED, NO_NOTES, NOT_TAKEN, OUT_OF_MEMORY, Guard, Session

PROGRAM, NEXT = "keyset", "next"


class ProgramSession(Session):
    """A session of the program."""

    def __init__(self, line: str, *more: str) -> None:
        self._guard = Guard()
        self._lines: Optional[List[str]] = [line, *more]
        self._notes: List[str] = []
        self._forgoes = False
        self._closing = answers(self._lines)[-2:]

    @property
    def calls(self) -> int:
        return len(self._lines or [""]) - 1

    def call(self, line: str) -> str:
        return self._tried(line, keeps_refused=True)

    def accept(self, line: str) -> str:
        return self._tried(line, keeps_refused=False)

    def _tried(self, line: str, keeps_refused: bool) -> str:
        with self._guard.held():
            lines = self._kept()
            if "\n" in line:
                raise Malformed(len(lines) + 1, why_malformed(line))
            *_, reply, sets, verdict = answers([*lines, line])
            if keeps_refused or refusal_of(reply) is None:
                lines.append(line)
                self._closing = [sets, verdict]
            return reply

    def closing(self) -> List[str]:
        with self._guard.held():
            self._kept()
            return list(self._closing)

    def status(self) -> Status:
        with self._guard.held():
            return status(self._kept())

    def note(self, line: str) -> None:
        with self._guard.held():
            lines = self._kept()
            if self._forgoes:
                raise Malformed(1, NOT_TAKEN[FORGONE])
            if "\n" in line or not line or line.startswith("due "):
                raise Malformed(len(self._notes) + 1, NOT_TAKEN[MALFORMED])
            run("notes", [*lines, "", *self._notes, line, "due 0"])
            self._notes.append(line)

    def forgo_notes(self) -> None:
        with self._guard.held():
            self._kept()
            self._notes, self._forgoes = [], True

    def due(self, moment: int) -> str:
        with self._guard.held():
            lines = self._kept()
            if not self._notes:
                raise Malformed(1, NO_NOTES)
            return due(lines, self._notes, moment)

    def copy(self) -> ProgramSession:
        with self._guard.held():
            twin = ProgramSession.__new__(ProgramSession)
            twin._guard, twin._lines = Guard(), list(self._kept())
            twin._notes, twin._closing = list(self._notes), list(self._closing)
            twin._forgoes = self._forgoes
            return twin

    def close(self) -> None:
        self._lines = None

    def _kept(self) -> List[str]:
        if self._lines is None:
            raise Closed
        return self._lines


def answers(lines: Sequence[str]) -> List[str]:
    """What `keyset` answers to a script."""
    return run("", lines).splitlines()


def status(lines: Sequence[str]) -> Status:
    """What `keyset status` answers to a script."""
    return cast(Status, json.loads(run("status", lines)))


def due(lines: Sequence[str], notes: Sequence[str], moment: int) -> str:
    """What `keyset notes` answers to a question."""
    return run("notes", [*lines, "", *notes, f"due {moment}"])


def next_line(
    policy: Sequence[str], lines: Sequence[str], notes: Sequence[str], moment: int
) -> str:
    """What `keyset next` says, by the lines of a policy, of a script and of its notes."""
    return run(NEXT, [*policy, "", *lines, "", *notes, f"next {moment}"]).rstrip("\n")


def find(word: str) -> List[str]:
    """The command that does what a word says. The program of release 1.0.0 takes no words, and has
    another program beside it for each. These are links today, so a link goes first."""
    import shutil

    folder = os.environ.get("KEYSET_PROGRAMS")
    places = [Path(folder)] if folder else [TREE / "crates" / "keyset" / "out", TREE / "bin"]
    forms = [[f"{PROGRAM}_{word}"], [PROGRAM, word]] if word else [[PROGRAM]]
    made = [[str(place / name), *words] for place in places for name, *words in forms]
    if found := next((command for command in made if os.path.isfile(command[0])), None):
        return found
    for name, *words in forms:
        if path := shutil.which(name):
            return [path, *words]
    raise Unavailable(f"the program {PROGRAM} isn't there: 'make build' makes it")


def run(word: str, lines: Sequence[str]) -> str:
    """What the program writes for this word, or for none if it is empty, and these lines."""
    import subprocess

    text = "".join(f"{line}\n" for line in lines).encode("utf-8", "surrogatepass")
    done = subprocess.run(find(word), input=text, capture_output=True)
    said = done.stderr.decode(errors="replace")
    if word == NEXT and done.returncode == MALFORMED:
        raise NotSaid(said.rstrip("\n"))
    if found := re.fullmatch(r"(?:script: )?line (\d+): malformed\n", said):
        number = int(found[1])
        line = lines[number - 1] if number <= len(lines) else ""
        raise Malformed(number, why_malformed(line, is_first=number == 1))
    if found := re.fullmatch(r"notes: line (\d+): (.*)\n", said):
        raise Malformed(int(found[1]), found[2])
    if done.returncode == OUT_OF_MEMORY:
        raise OutOfMemory("out of memory")
    if done.returncode:
        name = f"{PROGRAM} {word}".rstrip()
        raise Unavailable(f"{name}: status {done.returncode}: {said.strip()}")
    return done.stdout.decode()
