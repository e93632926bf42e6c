"""Builds the library for C in FOLDER, on the crates below it that a running `rt ci` has proved or
has kept.

    python3 -m tests.library.archive FOLDER [aarch64]

The second word names another architecture than this machine's. This proves `keyset_c` once more:
`rt ci` keeps nothing of its proof that a build could take.
"""

import shutil
import sys
import tempfile
import time
from pathlib import Path

from tests.gate.tools import CRATES, TOP, kit, run, status_of

HERE = "x86_64"


def stands_on():
    """The crates of the repository, lowest first, each with the crates that it names."""
    rows = (line.partition("#")[0].partition(":") for line in open(TOP / "crates.txt"))
    named = {name.split()[0]: on.split() for name, _, on in rows if name.strip()}
    return {crate: [name for name in on if name in named] for crate, on in named.items()}


def below(crate, crates):
    """All crates of the repository below a crate."""
    return set().union(*({name} | below(name, crates) for name in crates[crate]))


def build(archive, machine):
    """Builds the static library for an architecture on what `rt ci` has proved."""
    top, crates = kit(), stands_on()
    # A copy of it: at its end `rt ci` puts back what was in its place before.
    proved = archive.parent / "proved"
    for name in below("keyset_c", crates):
        shutil.copytree(CRATES / name / "out" / "rlib", proved, dirs_exist_ok=True)
    words = ["--crate-name", "keyset_c", "src/lib.rt", "--crate-type", "staticlib"]
    words += ["--target", f"{machine}-unknown-linux-gnu"] if machine != HERE else []
    words += ["--extern", f"std={top}/rlibs/std.rlib", "-L", f"dependency={top}/rlibs"]
    for name in crates["keyset_c"]:
        words += ["--extern", f"{name}={proved}/{name}.rlib"]
    words += ["-L", f"dependency={proved}"]
    words += ["--antt-project", top / "rattle" / "logic" / "antt-project.json"]
    words += ["--logic-built", top / "logic_built", "--toolchain", top / "toolchain"]
    run(top / "bin" / "rattle", "build", *words, "-o", archive, cwd=CRATES / "keyset_c")


def pack(folder, machine):
    """Builds the library into a folder, and says how long that took."""
    began = time.monotonic()
    with tempfile.TemporaryDirectory() as room:
        archive = Path(room) / "libkeyset_c.a"
        build(archive, machine)
        run(TOP / "library" / "pack.sh", archive, folder, machine)
    return f"{time.monotonic() - began:.0f} s"


def main():
    folder, machine = Path(sys.argv[1]).resolve(), (*sys.argv[2:], HERE)[0]
    return status_of("archive", lambda: pack(folder, machine))


if __name__ == "__main__":
    sys.exit(main())
