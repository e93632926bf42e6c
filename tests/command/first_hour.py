"""Does what docs/first-hour.md says: the lines of its blocks run in a shell, in a folder of their
own, with the command of this tree and real servers. The gate doesn't need these.

    python3 -m tests.command.first_hour           runs the page, which takes two minutes
    python3 -m tests.command.first_hour LINE..    leaves out each of these lines of the page, by its
                                                  number, or has other words in it, as NUMBER=WORDS.
                                                  Each time something has to be wrong

Of root it makes `nobody`, as the page says that root isn't needed. So the command runs by Debian's
Python, which everybody may run."""

from __future__ import annotations

import contextlib
import os
import re
import shutil
import signal
import socket
import subprocess
import sys
import tempfile
import time
from collections.abc import Iterator
from concurrent.futures import ThreadPoolExecutor
from dataclasses import dataclass
from pathlib import Path

from tests import TOP

PAGE = TOP / "docs" / "first-hour.md"
KEYSET = TOP / "crates" / "keyset" / "out" / "keyset"
FENCE, DEBIANS = "```sh", "/usr/bin/python3"
HERE, PORT = "127.0.0.1", re.compile(r"ip-address: 127\.0\.0\.1@(\d+)")
# Debian's package of each program, and where a user's shell finds programs.
PACKAGES = {"nsd": "nsd", "nsd-control": "nsd", "dnssec-keygen": "bind9-utils",
            "dnssec-signzone": "bind9-utils", "delv": "bind9-dnsutils"}
PATHS = "/usr/local/bin:/usr/bin:/bin"
# How many seconds the page may take, how often it is looked at, and how soon a server has to end;
# and how many pages run side by side.
MOST, OFTEN, SOON, AT_ONCE = 300, 1, 3, 4
# What `delv` says, and the words that a person may type: none makes a call.
VALID, UNSIGNED = "; fully validated", "; unsigned answer"
TYPED = {"init", "tick", "status", "check", "policy"}
WAITS = 1
# Each call is kept before its text is printed: the status and the words, the text, and a mark.
MARK = "\x1e"
SHIM = r"""#!/bin/sh
said=$({command} "$@" 2>&1)
printf '%s {name} %s\n%s\n\036' "$?" "$*" "$said" >>'{record}'
printf '%s\n' "$said"
"""
ZSK = re.compile(r"^  \S+ +ZSK +(\d+) ", re.MULTILINE)
SIGNED_BY = re.compile(r"\sRRSIG\tSOA (?:\S+ ){5}(\d+) ")


@dataclass(frozen=True)
class CommandRun:
    """One call of the command or of `delv`: its status, its words, and what it said."""

    status: int
    words: list[str]
    text: str

    @classmethod
    def of(cls, kept: str) -> CommandRun:
        head, _, text = kept.partition("\n")
        status, *words = head.split(" ")
        return cls(int(status), words, text)

    @property
    def is_answer(self) -> bool:
        return self.words[0] == "delv"

    def fault(self, is_secure: bool) -> str | None:
        """What is wrong with it, once a chain of trust was seen, or before that."""
        if self.is_answer:
            is_right = (VALID if is_secure else UNSIGNED) in self.text
        else:
            is_right = self.status <= (WAITS if self.words[1] == "tick" else 0)
        return None if is_right else f"{' '.join(self.words)}: {self.status}: {self.text.strip()}"


@dataclass(frozen=True)
class Room:
    """The folder in which the page is done. What runs there has it as its home."""

    folder: Path

    @property
    def home(self) -> Path:
        return self.folder / "home"

    @property
    def record(self) -> Path:
        return self.folder / "record"

    def make(self) -> None:
        """Programs that note what they say, and an empty home."""
        (self.folder / "bin").mkdir()
        command = f"PYTHONDONTWRITEBYTECODE=1 PYTHONPATH='{TOP / 'command'}' {DEBIANS}"
        for name, real in (("vaqsider", f"{command} -m vaqsider"), ("delv", shutil.which("delv"))):
            path = self.folder / "bin" / name
            path.write_text(SHIM.format(name=name, command=real, record=self.record))
            path.chmod(0o755)
        self.home.mkdir()
        self.record.touch()
        if who := user():
            for path in (self.folder, self.home, self.record):
                shutil.chown(path, who)

    def shell(self, lines: list[str]) -> subprocess.Popen[bytes]:
        """A shell with these lines. It ends at the first that fails."""
        script, said = self.folder / "lines", self.folder / "said"
        script.write_text("\n".join([*lines, ""]))
        environment = {"HOME": str(self.home), "PATH": f"{self.folder / 'bin'}:{PATHS}"}
        with said.open("w") as out:
            return subprocess.Popen(
                ["bash", "-e", script], cwd=self.home, env=environment, user=user(),
                extra_groups=[] if user() else None, stdin=subprocess.DEVNULL, stdout=out,
                stderr=subprocess.STDOUT, start_new_session=True)

    def calls(self) -> list[CommandRun]:
        return [CommandRun.of(it) for it in self.record.read_text().split(MARK)[:-1]]

    def said(self) -> str:
        """The end of what the shell has printed."""
        return "\n".join((self.folder / "said").read_text().splitlines()[-5:])

    def running(self) -> Iterator[int]:
        """The processes that the page has started, servers that left its shell among them."""
        mark = f"HOME={self.home}\0".encode()
        for process in Path("/proc").glob("[0-9]*"):
            # (Others end meanwhile, or are not ours.)
            with contextlib.suppress(OSError):
                if mark in (process / "environ").read_bytes():
                    yield int(process.name)

    def end(self) -> int:
        """Ends what still runs after a moment, and counts it."""
        until = time.monotonic() + SOON
        while any(self.running()) and time.monotonic() < until:
            time.sleep(0.1)
        ended: set[int] = set()
        while found := set(self.running()):
            for process in found - ended:
                with contextlib.suppress(ProcessLookupError):
                    os.kill(process, signal.SIGKILL)
            ended |= found
        return len(ended)


def user() -> str | None:
    return "nobody" if os.geteuid() == 0 else None


def lines_of(page: str) -> dict[int, str]:
    """The lines of the blocks for a shell, by their numbers."""
    lines, is_block = {}, False
    for number, line in enumerate(page.splitlines(), start=1):
        if line.startswith("```"):
            is_block = line == FENCE
        elif is_block:
            lines[number] = line
    return lines


def port_of(lines: dict[int, str]) -> int:
    """The port that the page takes."""
    if found := PORT.search("\n".join(lines.values())):
        return int(found[1])
    raise SystemExit(f"first_hour: {PAGE} names no port of {HERE}")


def waited(room: Room, lines: list[str]) -> Iterator[str]:
    """Runs the lines until they end or something goes wrong."""
    shell, until = room.shell(lines), time.monotonic() + MOST
    while shell.poll() is None and time.monotonic() < until and not any(wrong(room.calls())):
        time.sleep(OFTEN)
    if shell.poll() is None:
        yield f"the lines have not ended:\n{room.said()}"
    elif shell.returncode:
        yield f"a line ends with status {shell.returncode}:\n{room.said()}"
    yield from wrong(room.calls())


def wrong(calls: list[CommandRun]) -> Iterator[str]:
    """What is wrong with calls. An answer is validated as soon as one before it was."""
    is_secure = False
    for call in calls:
        is_secure |= call.is_answer and VALID in call.text
        if fault := call.fault(is_secure):
            yield fault


def unlike(calls: list[CommandRun]) -> Iterator[str]:
    """What is wrong at the end: the ZSK has to be another one, and has to have signed."""
    words = {call.words[1] for call in calls if not call.is_answer}
    if words != TYPED:
        yield f"a person types {sorted(words)}"
    zsks = [ZSK.findall(call.text) for call in calls if call.words[1] == "status"]
    tags = list(dict.fromkeys(tag for call in calls if VALID in call.text
                              for tag in SIGNED_BY.findall(call.text)))
    if len(tags) != 2 or zsks != [tags[:1], tags[1:]]:
        yield f"the ZSKs are {zsks}, and these tags have signed: {tags}"


def done(lines: list[str]) -> tuple[list[CommandRun], list[str]]:
    """What was called by the lines, and what is wrong."""
    with tempfile.TemporaryDirectory() as made:
        room = Room(Path(made))
        room.make()
        try:
            faults = list(waited(room, lines))
            calls = room.calls()
            faults += [] if faults else unlike(calls)
            left = [it.name for it in room.home.iterdir() if it.name != "first-hour"]
            faults += [f"these are beside the folder: {left}"] if left else []
        finally:
            running = room.end()
        faults += [f"{running} processes are left"] if running and not faults else []
        return calls, faults


def changed(lines: dict[int, str], change: str) -> list[str]:
    """The lines without one, or with other words in it, and with a port of their own."""
    number, _, words = change.partition("=")
    others = {**lines, int(number): words}
    with socket.socket() as probe:
        probe.bind((HERE, 0))
        port = str(probe.getsockname()[1])
    given = str(port_of(lines))
    return [line.replace(given, port) for n, line in others.items() if words or n != int(number)]


def is_seen(lines: dict[int, str], change: str) -> bool:
    """Whether something is wrong with such lines, and says what: its first line and its last."""
    _, faults = done(changed(lines, change))
    said = faults[0].splitlines() if faults else ["NOTHING IS WRONG"]
    line = lines[int(change.partition("=")[0])]
    print(f"{change} ({line}): {' .. '.join(dict.fromkeys((said[0], said[-1])))}", flush=True)
    return bool(faults)


def tried(lines: dict[int, str], changes: list[str]) -> int:
    """Tries each change, some at once. The status is 0 if all are seen."""
    if unknown := [it for it in changes if it.partition("=")[0] not in map(str, lines)]:
        print(f"first_hour: no block has the lines {' '.join(unknown)}")
        return 64
    with ThreadPoolExecutor(AT_ONCE) as pool:
        seen = list(pool.map(lambda it: is_seen(lines, it), changes))
    print(f"first_hour: {seen.count(True)} of {len(seen)} changed lines are seen")
    return 0 if all(seen) else 1


def lacking() -> Iterator[str]:
    """What this machine lacks for the page."""
    paths = f"{PATHS}:/usr/sbin:/sbin"
    missing = {of for name, of in PACKAGES.items() if not shutil.which(name, path=paths)}
    if missing:
        yield f"missing here, and needed: apt-get install {' '.join(sorted(missing))}"
    if not KEYSET.exists():
        yield f"{KEYSET} is missing: make build makes it"


def taken(port: int) -> Iterator[str]:
    """Why the server can't have the port."""
    for kind in (socket.SOCK_DGRAM, socket.SOCK_STREAM):
        with socket.socket(socket.AF_INET, kind) as probe:
            probe.setsockopt(socket.SOL_SOCKET, socket.SO_REUSEADDR, kind == socket.SOCK_STREAM)
            try:
                probe.bind((HERE, port))
            except OSError as error:
                yield f"port {port} of {HERE}, which the page takes: {error.strerror}"


def main() -> int:
    # What it has started ends with it.
    signal.signal(signal.SIGTERM, lambda *_: sys.exit(1))
    lines, begun = lines_of(PAGE.read_text()), time.monotonic()
    changes = sys.argv[1:]
    if why := [*lacking(), *(taken(port_of(lines)) if not changes else ())]:
        print(*(f"first_hour: {it}" for it in why), sep="\n")
        return 1
    if changes:
        return tried(lines, changes)
    calls, faults = done(list(lines.values()))
    print(*faults, sep="\n", end="\n" if faults else "")
    answers, ticks = (sum(call.words[index] == word for call in calls)
                      for index, word in ((0, "delv"), (1, "tick")))
    print(f"first_hour: {len(lines)} lines, {ticks} ticks, {answers} answers of delv, "
          f"{sum(VALID in call.text for call in calls)} validated, "
          f"{time.monotonic() - begun:.0f} seconds")
    return 1 if faults else 0


if __name__ == "__main__":
    sys.exit(main())
