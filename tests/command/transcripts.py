"""Runs the command of an operator on stored transcripts, without a server.

    python3 -m tests.command.transcripts
            compares what each line prints, asks outputs.py, acts.py, adaptors.py, imports.py,
            ceremonies.py and liars.py, lets the command crash after each change of its files, and
            counts the lines of its code that ran
    python3 -m tests.command.transcripts --write
            writes the transcripts again
    python3 -m tests.command.transcripts --left
            shows which lines of its code did not run
    pytest tests/command -k NAME
            only this: NAME.txt, crash.NAME, or a check as outputs.plans

A transcript, `tests/command/NAME.txt`, has lines that begin with `$ `. Below each is what it
prints, then `? N` if it ends with a status that isn't 0. `NOW=N` in front of a line is the clock.
Each transcript has a folder of its own, with the examples and the key files in it. It runs under a
Python that has dnspython and cryptography, as Debian's."""

import itertools
import os
import re
import shlex
import shutil
import subprocess
import sys
import tempfile
import threading
import trace
from concurrent.futures import ProcessPoolExecutor
from pathlib import Path
from unittest import mock

from tests import TOP
from tests.command import acts, adaptors, answering, ceremonies, imports, liars, outputs, testkeys
from tests.command.terminal import STORED, folder, private_halves, typed

PACKAGE = TOP / "command" / "vaqsider"
# The files with the code that decides what is on disk, and when.
WRITERS = (
    "file.py", "calling.py", "act.py", "place.py", "zonefile.py", "signing.py", "watching.py",
    "notes.py", "looks.py", "parents.py", "files.py", "bind.py",
)

LINE = re.compile(r"\$ (?:NOW=(?P<now>\S+) )?(?P<words>.*)")


def execute(text, now):
    """What one line of a transcript prints: the command, or a command of the shell."""
    words = shlex.split(text)
    if words[0] == "vaqsider" and "|" not in words:
        printed, status = typed(words[1:], now)
        return printed + (f"? {status}\n" if status else "")
    environment = {**os.environ, "VAQSIDER_NOW": now, "PYTHONPATH": str(TOP / "command")}
    done = subprocess.run(text, shell=True, capture_output=True, text=True, env=environment)
    return done.stdout + done.stderr + (f"? {done.returncode}\n" if done.returncode else "")


def played(text):
    """The transcript as it is now: each line with what it prints."""
    made = []
    with folder():
        for line in text.splitlines():
            if match := LINE.fullmatch(line):
                made.append(f"{line}\n")
                made.append(execute(match["words"], match["now"] or "1000"))
            elif line.startswith("-- "):
                made.append(f"{line}\n")
    return "".join(made)


def compare(write, names="*.txt"):
    """Plays each transcript. Gives the faults, and how many lines were played."""
    faults, lines = [], 0
    for path in sorted(STORED.glob(names)):
        text = path.read_text()
        made = played(text)
        lines += sum(line.startswith("$ ") for line in text.splitlines())
        if write:
            path.write_text(made)
        elif made != text:
            (Path(tempfile.gettempdir()) / path.name).write_text(made)
            pairs = itertools.zip_longest(made.split("\n"), text.split("\n"))
            place = next(n for n, (one, other) in enumerate(pairs, start=1) if one != other)
            faults.append(f"{path.name}:{place}: it prints something else")
    return faults, lines


def left(files):
    """These files, and drafts that nobody removes. A crash may cost a serial number."""
    texts = {name: Path(name).read_text() for name in files if Path(name).exists()}
    masked = {name: re.sub(r"(SOA\t\S+ \S+) \d+", r"\1 N", text) for name, text in texts.items()}
    return {**masked, "drafts": [path.name for path in Path().glob(".*")]}


class Disk:
    """What a machine has that stops: files as they were when they were synced, under the names that
    their folder had when that was."""

    def __init__(self):
        self.names = {it.name: it.inode() for it in os.scandir()}
        self.files = {it.inode(): Path(it).read_bytes() for it in os.scandir() if it.is_file()}
        self.notes_before, self.put = None, os.replace

    def replace(self, draft, file):
        """Remembers what was noted on disk before servers could give the signed zone."""
        if Path(file).name == "signed":
            self.notes_before = self.files.get(self.names.get("start.notes"))
        self.put(draft, file)

    def fsync(self, descriptor):
        place = Path(f"/proc/self/fd/{descriptor}")
        if place.is_dir():
            self.names = {it.name: it.inode() for it in os.scandir(place)}
        else:
            self.files[place.stat().st_ino] = place.read_bytes()

    def has(self, name):
        return self.files.get(self.names.get(name)) == Path(name).read_bytes()


def stop(name, part, prepare, files):
    """Lets the machine stop after a part has printed what to do: all that it left is on disk, and
    its notes were before the signed zone was in its place."""
    with folder():
        prepare()
        disk = Disk()
        with mock.patch.multiple(os, fsync=disk.fsync, replace=disk.replace):
            part()
        lost = [file for file in files if Path(file).exists() and not disk.has(file)]
        if name == "act" and disk.notes_before != Path("start.notes").read_bytes():
            lost.append("start.notes")
        return [f"{name}: the machine stops, and {file} isn't as it was left" for file in lost]


class Crashes:
    """Runs a part of this program that changes files. After each change it looks what a crash would
    leave: a copy of this process goes on in a copy of the folder, where it runs the part once more.
    If the part crashed later, but before the next change, it would leave the same files. Drafts in
    folders are looked at if `is_deep`."""

    def __init__(self, part, files, wanted, is_deep):
        self.part, self.files, self.wanted, self.is_deep = part, files, wanted, is_deep
        self.count, self.wrong = 0, []

    def run(self):
        self.last_folder = self.folder()
        sys.settrace(self.trace)
        try:
            self.part()
        finally:
            sys.settrace(None)

    def folder(self):
        folders = [".", *(map(str, Path().glob(".*.act")) if self.is_deep else ())]
        found = ((it.path, it.stat()) for of in folders for it in os.scandir(of) if it.is_file())
        return {name: (stat.st_size, stat.st_mtime_ns) for name, stat in found}

    def trace(self, frame, event, _):
        if Path(frame.f_code.co_filename).name not in WRITERS:
            return None
        if event == "line" and (now := self.folder()) != self.last_folder:
            self.last_folder, self.count = now, self.count + 1
            if not self.ends_alike():
                self.wrong.append(self.count)
        return self.trace

    def ends_alike(self):
        """Whether the part, run again after a crash now, leaves the files that are wanted."""
        if (child := os.fork()) != 0:
            return os.waitstatus_to_exitcode(os.waitpid(child, 0)[1]) == 0
        is_so = False
        try:
            sys.settrace(None)
            with tempfile.TemporaryDirectory(dir="..") as copy:
                shutil.copytree(".", copy, dirs_exist_ok=True)
                os.chdir(copy)
                self.part()
                is_so = left(self.files) == self.wanted
        finally:
            os._exit(0 if is_so else 1)


def crash_everywhere(name, part, prepare, files):
    """Lets a part crash after each change of its files, and compares the files with those that it
    leaves without a crash. Gives the faults, and how many crashes there were."""
    with folder():
        prepare()
        part()
        wanted = left(files)
    faults = stop(name, part, prepare, files)
    with folder():
        prepare()
        crashes = Crashes(part, files, wanted, name == "act")
        crashes.run()
        faults += [f"{name}: crashed at change {at}, it ends differently" for at in crashes.wrong]
        if left(files) != wanted or crashes.count == 0:
            faults.append(f"{name}: it ends differently each time, or changes nothing")
    return faults, crashes.count


def noted():
    """The notes of start.script, in which a ZSK roll has just begun, and private keys."""
    private_halves()
    Path("start.notes").write_text(
        "before 59 59 59\npublished dnskey 3 59 0\npublished zone 3 59 0\neverywhere dnskey 9\n"
        "everywhere zone 9\npublished ds 5 59 71\neverywhere ds 80\npublished dnskey 7 59 141\n"
        "everywhere dnskey 145\n"
    )


def operate():
    """A loop of ticks, 35 seconds apart, in which an operator types what may be due by the script:
    from the start of a roll to its end. A file keeps the number of the word that was typed last,
    and after a crash that is typed again."""
    script, typed_last = "start.script", Path("number")
    said = [
        (words, now)
        for now in range(200, 500, 35)
        for words in (
            ["act", script, "--zone-file", "zone", "--out", "signed"],
            ["watch", script, "--server", "signed", "--call"],
            ["call", script, f"wait1 zsk-roll {now}"],
            ["call", script, f"wait2 zsk-roll {now}"],
        )
    ]
    for number in range(int(typed_last.read_text()), len(said)):
        if "done zsk-roll" in Path(script).read_text():
            return
        typed_last.write_text(str(number))
        typed(*said[number])


def published():
    """The DNSKEY set of the roll is published, and not yet seen."""
    noted()
    typed(["act", "start.script", "--zone-file", "zone", "--out", "signed"], 205)


def rising():
    """A DS set is being changed, and a server of the parent gives the old one with a higher TTL."""
    key = testkeys.dnskey(testkeys.NUMBERS[46352], 257).to_text()
    name, old = "Kexample.com.+013+46352.key", "Kexample.com.+013+64103.key"
    Path(name).write_text(f"example.com. IN DNSKEY {key}\n")
    first = Path("mid.script").read_text().splitlines(True)[:9]
    more = (f"add-ksk {name} - 13 46352 150 yes\nstart ksk-roll {old} {name} 200\n"
            "report1 ksk-roll 60 205\nwait1 ksk-roll 300\n")
    Path("rise.script").write_text("".join(first) + more)
    Path("rise.notes").write_text("before 60 60 60\npublished ds 5 60 71\npublished ds 12 60 301\n")
    Path("raised.DS").write_text("example.com. 600 IN DS 64103 13 2 00\n")
    Path("signed").write_text("")


def begin_to_operate():
    noted()
    Path("number").write_text("0")


# What crashes: its name, what it runs, what has to be there before, and which files it leaves.
CRASHES = (
    ("init", lambda: typed(["init", "example.com", "--before", 60, 60, 60]), lambda: None,
     ["example.com.script", "example.com.notes"]),
    ("call", lambda: typed(["call", "mid.script", "wait1 zsk-roll now"], 270), noted,
     ["mid.script"]),
    ("act", lambda: typed(["act", "start.script", "--zone-file", "zone", "--out", "signed"], 205),
     noted, ["signed", "start.notes"]),
    ("watch", lambda: typed(["watch", "start.script", "--server", "signed", "--call"], 210),
     published, ["start.script", "start.notes"]),
    ("rise", lambda: typed(["watch", "rise.script", "--server", "signed", "--parent-server",
                            "raised"], 310), rising, ["rise.notes"]),
    ("state", lambda: typed(["watch", "rise.script", "--state", "--server", "signed",
                             "--parent-server", "raised"], 310), rising,
     ["rise.notes", "rise.look"]),
    ("loop", operate, begin_to_operate, ["start.script", "start.notes", "signed"]),
)


def crash(number):
    """Lets the part of this number crash."""
    return crash_everywhere(*CRASHES[number])


def traced(part, *given):
    """What a part gives, and which lines ran for it."""
    tracer = trace.Trace(count=1, trace=0)
    threading.settrace(tracer.globaltrace)
    return tracer.runfunc(part, *given), tracer.results()


def coverage(results):
    """How many lines of the command ran, and how many there are."""
    ran = {(name, line) for name, line in results.counts if name.startswith(str(PACKAGE))}
    lines = {
        (str(path), line)
        for path in PACKAGE.rglob("*.py")
        for line in trace._find_executable_linenos(str(path))
    }
    return len(ran & lines), len(lines), sorted(lines - ran)


def side_by_side(write):
    """Runs each part in a process, with folders of its own. Gives the faults, how many lines were
    played and crashes tried, and what ran."""
    with ProcessPoolExecutor() as pool:
        parts = [pool.submit(traced, part.faults)
                 for part in (outputs, acts, adaptors, imports, ceremonies)]
        compared = pool.submit(traced, compare, write)
        parts.append(pool.submit(traced, liars.faults))
        crashed = [*pool.map(crash, range(len(CRASHES)))]
    (faults, lines), results = compared.result()
    for part in parts:
        more, others = part.result()
        results.update(others)
        faults += more
    faults += [fault for found, _ in crashed for fault in found]
    return faults, lines, sum(count for _, count in crashed), results


def main():
    os.environ["PATH"] = f"{STORED / 'bin'}:{os.environ['PATH']}"
    os.environ["PYTHON"] = sys.executable
    answering.install()
    faults, lines, crashes, results = side_by_side("--write" in sys.argv[1:])
    ran, total, unrun = coverage(results)
    print(*faults, sep="\n", end="\n" if faults else "")
    answers = len(liars.ROWS) + len(liars.FOUND)
    print(f"command: {lines} lines played, {crashes} crashes, {answers} answers of servers, "
          f"{acts.COUNT} acts, {adaptors.COUNT} changes of signers, {imports.COUNT} imports, "
          f"{ceremonies.COUNT} ceremonies; "
          f"{ran} of {total} lines of code ran, by std's trace")
    if "--left" in sys.argv[1:]:
        print(*(f"{Path(name).name}:{line}" for name, line in unrun), sep="\n")
    return 1 if faults else 0


if __name__ == "__main__":
    sys.exit(main())
