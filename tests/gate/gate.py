"""The gate: the tests of documents and of the release, then `rt ci`. Beside its first proofs run
the tests that need none, and beside its edits those that take what it has built: `archive` builds
the library for them. Then `printed_numbers` compares the numbers of docs/tests.txt with what all of
them have printed. Before the last line of `rt ci` it prints from which files each proof was made,
as a release wants it, when each step was done, in minutes and seconds since the start, so that a
rise is seen, and which tests it leaves out."""

import contextlib
import os
import re
import subprocess
import sys
import tempfile
import threading
import time
from pathlib import Path

import built
import proved
from tests import TOP
from tests.gate import printed_numbers

START = time.monotonic()
STEPS = []
# What was printed. Its numbers are compared at the end.
PRINTED = []
# What the dearest proof takes of the memory, in bytes.
MEMORY = 3_500_000_000
PYTEST = sys.executable, "-m", "pytest", "-q"
# The tests that need no proof.
FREE = ("oracle.test_runbooks", "oracle.test_networks", "gate.test_examples",
        "gate.test_mistakes", "gate.test_clients")
# The priority of edits, as that of `nice`.
LOW = 10
# What it leaves out, for that needs servers, root or hours.
LEFT_OUT = ("signers", "live", "first-hour", "game", "machines", "mutants", "wrong", "fuzz",
            "asan", "valgrind", "try-dist", "test-arm", "test-go")


def say(text):
    """Prints a text, which has its own end of line, and keeps it."""
    print(text, end="", flush=True)
    PRINTED.append(text)


def note(step, after=None):
    """Notes that a step is done: now, or this many seconds after the start."""
    STEPS.append((time.monotonic() - START if after is None else after, step))


def steps():
    """When each step was done, a line each."""
    for after, step in sorted(STEPS):
        minutes, seconds = divmod(int(after), 60)
        yield f"{minutes:4}:{seconds:02} {step}"


def files(crate):
    """The names of a crate's files, by which its copies are recognized."""
    parts = (os.walk(crate / part) for part in ("src", "specs", "proofs"))
    return frozenset(name for part in parts for _, _, names in part for name in names)


class Edits(threading.Thread):
    """Sees until when the edits of each crate were tried, and gives the processors to the proofs
    first: each crate waits for those of the crates below it. Each edit, and the proof that edits
    begin with, is checked in a copy of its crate."""

    def __init__(self, pid):
        super().__init__(daemon=True)
        self.copies = f"rt-edit-{pid}-*"
        self.crates = {files(crate): crate.name for crate in (TOP / "crates").iterdir()}
        self.last = {}

    def run(self):
        while True:
            copies = set(Path(tempfile.gettempdir()).glob(self.copies))
            for copy in copies:
                self.last[self.crates.get(files(copy))] = time.monotonic() - START
            self.lower(copies)
            time.sleep(0.5)

    def lower(self, copies):
        """Gives a low priority to what runs in these folders."""
        for process in Path("/proc").glob("[0-9]*"):
            # (Others end meanwhile, or are not ours.)
            with contextlib.suppress(OSError):
                if (process / "cwd").readlink() in copies:
                    for thread in (process / "task").iterdir():
                        os.setpriority(os.PRIO_PROCESS, int(thread.name), LOW)

    def note(self, crates):
        for crate in crates & self.last.keys():
            note(f"{crate}: edits tried", self.last[crate])


class ModuleRun(threading.Thread):
    """A module of tests, by its room and name, that runs beside `rt ci`: by pytest, if it is named
    as pytest wants it."""

    def __init__(self, module, *words, under=()):
        room, name = module.split(".")
        super().__init__(daemon=True, name=name)
        by_name = sys.executable, "-m", f"tests.{module}", *words
        by_pytest = *PYTEST, f"tests/{room}/{name}.py"
        self.words = [*under, *(by_pytest if name.startswith("test_") else by_name)]
        self.test = None
        # What waits for it.
        self.later = []

    def run(self):
        self.test = subprocess.run(self.words, cwd=TOP, stdout=subprocess.PIPE, text=True)
        note(self.name)
        if not self.test.returncode:
            for script in self.later:
                script.note(self.name)

    def fault(self):
        """What went wrong with the script, if anything did."""
        if self.ident is None:
            return f"the test {self.name} has not begun\n"
        self.join()
        say(self.test.stdout)
        return f"the test {self.name} has failed\n" if self.test.returncode else None


class DelayedRun(ModuleRun):
    """A script of tests that runs after these crates are proved or kept, on what `rt ci` has built
    or restored, and after these scripts have passed."""

    def __init__(self, module, *words, after, under=()):
        super().__init__(module, *words, under=under)
        self.wanted = set(after)
        self.alone = threading.Lock()

    def note(self, done):
        with self.alone:
            self.wanted.discard(done)
            if self.ident is None and not self.wanted:
                self.start()


# What `rt ci` says of a crate, or of its tests, once it is done with its proof. It proves what no
# earlier run on this machine has proved from the same files, and restores what such a run has kept.
DONE = re.compile(
    r"rt: (?P<what>\S+( its tests are)?) (?P<how>proved|NOT PROVED|(is )?kept)(: an earlier .*)?\n"
)
TRIED = re.compile(r"rt: (?P<crate>\S+): trying its must-fail edits .*\n")


def lanes():
    """Has `rt ci` give each proof one job, and run as many as there are processors, if the memory
    allows. By itself it gives a proof up to four jobs. These take more of the processors than one
    does, and other proofs and edits wait for them."""
    processors = len(os.sched_getaffinity(0))
    if os.sysconf("SC_PHYS_PAGES") * os.sysconf("SC_PAGE_SIZE") >= processors * MEMORY:
        return {"RT_JOBS": str(processors), **os.environ}
    return os.environ


def prove(scripts):
    """Runs `rt ci`, and prints all but its last line. Gives its status and that line."""
    last, tried, before, began = "", set(), proved.sums(), len(PRINTED)
    gate = subprocess.Popen(["rt", "ci"], cwd=TOP, env=lanes(), stdout=subprocess.PIPE,
                            stderr=subprocess.STDOUT, text=True)
    edits = Edits(gate.pid)
    edits.start()
    for line in gate.stdout:
        say(last)
        last = line
        if done := DONE.fullmatch(line):
            note_of(done, scripts)
        elif begun := TRIED.fullmatch(line):
            tried.add(begun["crate"])
    status = gate.wait()
    edits.note(tried)
    note("rt ci")
    say("".join(proved.lines("".join(PRINTED[began:]), before)))
    return status, last


def note_of(done, scripts):
    """Notes that `rt ci` is done with a crate: scripts that wait for its proof may begin."""
    note(f"{done['what']} {done['how'].removeprefix('is ')}")
    if done["how"] != "NOT PROVED":
        for script in scripts:
            script.note(done["what"])


def main():
    for name in ("docs", "release"):
        if subprocess.run([*PYTEST, f"tests/gate/test_{name}.py"], cwd=TOP).returncode:
            return 1
        note(name)
    # At low priority: each crate waits for the proofs of those below it.
    free = [ModuleRun(name, under=["nice"]) for name in FREE]
    for test in free:
        test.start()
    with tempfile.TemporaryDirectory() as folder:
        return prove_and_test(free, Path(folder) / "out")


def prove_and_test(free, folder):
    """Runs `rt ci` and the tests beside it, of which some share the library in a folder. If all
    have passed, `make install` and `make dist` take that library and the program."""
    before, scripts = built.sums(), waiting(folder)
    status, last = prove(scripts)
    for run in (*free, *scripts):
        fault = run.fault()
        # (If a proof that a script needs has failed, the script never begins; `rt ci` says why.)
        if fault and (run.ident or status == 0):
            status, last = 1, fault
    if status == 0:
        status, last = compared(last)
    if status == 0:
        built.take(folder, before)
    print("Done after, in minutes and seconds:", *steps(), sep="\n")
    print("Left out:", ", ".join(f"make {it}" for it in LEFT_OUT))
    print(last, end="", flush=True)
    return status


def waiting(folder):
    """The tests that wait for proofs. Some share the library in a folder."""
    # The library takes no proof of `keyset_c`, only of the crates below it.
    archive = DelayedRun("library.archive", folder, after=["dnssec_status", "dnssec_policy"])
    library = DelayedRun("library.test_library", under=["env", f"LIBRARY={folder}"],
                         after=["keyset", "archive"])
    archive.later.append(library)
    return [
        DelayedRun("scripts.test_memory", after=["callers", "keyset"]),
        DelayedRun("scripts.test_sets", after=["callers"]),
        DelayedRun("scripts.test_notes", after=["keyset"]),
        DelayedRun("command.transcripts", after=["keyset"]),
        DelayedRun("command.test_rolling", after=["keyset"]),
        DelayedRun("scripts.test_nexts", after=["keyset"]),
        DelayedRun("scripts.test_rolls", after=["keyset"]),
        DelayedRun("scripts.test_automatic", after=["keyset"]),
        archive,
        library,
    ]


def compared(last):
    """The status and the last line of a gate in which all has passed, once its numbers are
    compared."""
    wrong = []
    printed_numbers.compare("".join(PRINTED), wrong)
    note("printed_numbers")
    if not wrong:
        return 0, last
    print(*wrong, sep="\n")
    return 1, f"docs/tests.txt has {len(wrong)} numbers that this gate hasn't printed\n"


if __name__ == "__main__":
    sys.exit(main())
