#!/usr/bin/env python3
"""Makes a release twice, and compares the sums: in two folders, by two users if it may, at two
times, under two masks, in two zones of time and two locales, of which one has other capitals.

    packaging/twice.py [--untagged] --proofs LOG [LOG ..]

What `make dist` takes has to be there: the copies take what is built here. It wants localedef.
"""

import argparse
import os
import pwd
import shutil
import subprocess
import sys
import tempfile
from dataclasses import dataclass
from pathlib import Path

sys.dont_write_bytecode = True

from artefact import Fault, run
from dist import ARM
from layout import BUILT, PROGRAMS, TOP


@dataclass(frozen=True)
class ReleaseMaker:
    """Who makes a release, and how the machine is set up for it."""

    folder: str
    user: str
    mask: int
    environment: "dict[str, str]"


TURKISH = "tr_TR.UTF-8"
MAKERS = (
    ReleaseMaker("one", "root", 0o022, {"TZ": "UTC", "LC_ALL": "C", "LANG": "C"}),
    ReleaseMaker("a longer name", "nobody", 0o077,
                 {"TZ": "Pacific/Chatham", "LC_ALL": TURKISH, "LANGUAGE": "tr"}),
)


def copy(place):
    """A copy of the repository and of what is built in it."""
    run("git", "clone", "--quiet", TOP, place)
    for built in (BUILT, ARM):
        shutil.copytree(built, place / built.relative_to(TOP))
    for name in PROGRAMS:
        program = Path("crates", name, "out", name)
        (place / program).parent.mkdir()
        shutil.copy2(TOP / program, place / program)


def ran_by(room, maker, *words):
    """Runs a program as a maker does."""
    # (Rust's tools look for themselves at home, and this home is another.)
    rust = os.environ.get("RUSTUP_HOME", str(Path.home() / ".rustup"))
    environment = {"PATH": os.environ["PATH"], "HOME": str(room / maker.folder),
                   "RUSTUP_HOME": rust, "LOCPATH": str(room / "locales"), **maker.environment}
    who = {}
    if os.geteuid() == 0:
        record = pwd.getpwnam(maker.user)
        who = {"user": record.pw_uid, "group": record.pw_gid, "extra_groups": []}
    return subprocess.run(words, env=environment, umask=maker.mask, text=True,
                          capture_output=True, check=False, **who)


def tools_of(room, maker):
    """Which tools a maker has, or why there is none."""
    try:
        return [ran_by(room, maker, tool, "--version").stdout for tool in (sys.executable, "cargo")]
    except OSError as fault:
        return fault


def expect_tools(room):
    """Both makers have the same tools. Those at the home of one aren't there for the other."""
    first, second = (tools_of(room, maker) for maker in MAKERS)
    if first != second:
        raise Fault(f"the makers have other tools, {first} and {second}: call it with "
                    "PATH=/usr/local/bin:/usr/sbin:/usr/bin:/sbin:/bin")


def make(room, maker, words):
    """Makes a release, and gives its sums by the names of its files."""
    place = room / maker.folder
    copy(place)
    if os.geteuid() == 0:
        run("chown", "-R", f"{maker.user}:", place)
    made = ran_by(room, maker, sys.executable, "-B", place / "packaging" / "dist.py",
                  place / "dist", *words)
    if made.returncode:
        raise Fault(f"a release by {maker.user} isn't made: {made.stderr}")
    rows = (row.split() for row in (place / "dist" / "SHA256SUMS").read_text().splitlines())
    return {name: digest for digest, name in rows}


def words_of(given, room):
    """The words for a release, by copies of the logs that each maker may read."""
    logs = [room / f"{number}.log" for number, _ in enumerate(given.proofs)]
    for log, copy_of in zip(given.proofs, logs):
        shutil.copyfile(log, copy_of)
        copy_of.chmod(0o644)
    return [*["--untagged"] * given.untagged, "--proofs", *logs]


def main():
    parser = argparse.ArgumentParser(description=__doc__.partition("\n")[0])
    parser.add_argument("--proofs", metavar="LOG", type=Path, nargs="+", required=True)
    parser.add_argument("--untagged", action="store_true")
    given = parser.parse_args()
    with tempfile.TemporaryDirectory() as room:
        os.chmod(room, 0o755)
        try:
            expect_tools(Path(room))
            words = words_of(given, Path(room))
            (Path(room) / "locales").mkdir(mode=0o755)
            run("localedef", "-i", TURKISH.partition(".")[0], "-f", "UTF-8",
                Path(room) / "locales" / TURKISH, umask=0o022)
            first, second = (make(Path(room), maker, words) for maker in MAKERS)
        except (Fault, OSError) as fault:
            print(f"twice: {fault}", file=sys.stderr)
            return 1
    differing = sorted(name for name in first | second if first.get(name) != second.get(name))
    for name in differing:
        print(f"twice: {name} has other bytes")
    print(f"twice: {len(first) - len(differing)} of {len(first)} files have the same bytes")
    return min(len(differing), 1)


if __name__ == "__main__":
    sys.exit(main())
