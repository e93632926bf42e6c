#!/usr/bin/env python3
"""Says whether the program and the library were made from the sources that are here.

    packaging/built.py [FOLDER]           ends with 0 if they were, and else with 1
    packaging/built.py --keep [FOLDER]    notes that they were

FOLDER is library/out, or that of ARM, which has its program too. It goes by what the files have in
them, not by their times: a checkout makes each file new, and no proof has to be made again for
that. The gate notes it too.
"""

import hashlib
import shutil
import sys
from pathlib import Path

sys.dont_write_bytecode = True

from layout import BUILT, PROGRAMS, TOP

# What was noted, in the folder of the library.
NOTED = "SOURCES"
OTHERS = ("VERSION", "crates.txt", "library/heap.c", "library/keyset.h", "library/keyset.pc.in",
          "library/pack.sh")


def sources():
    """All files that a build reads."""
    yield from (TOP / name for name in OTHERS)
    yield from sorted((TOP / "library" / "programs").iterdir())
    for crate in sorted((TOP / "crates").iterdir()):
        for part in ("src", "specs", "proofs"):
            yield from sorted(filter(Path.is_file, (crate / part).rglob("*")))


def sums():
    """A line for each source, as sha256sum prints it."""
    digests = ((hashlib.sha256(path.read_bytes()).hexdigest(), path) for path in sources())
    return "".join(f"{digest}  {path.relative_to(TOP)}\n" for digest, path in digests)


def programs_of(library):
    """The folder with the programs that belong to a library."""
    own = library / "programs"
    return own if own.is_dir() else TOP / "crates"


def is_built(library):
    made = [programs_of(library) / name / "out" / name for name in PROGRAMS]
    made += [library / "lib" / "libkeyset.a", library / NOTED]
    return all(path.is_file() for path in made) and (library / NOTED).read_text() == sums()


def take(library, before):
    """Puts a library where `make lib` does, and notes that it and the program were made from the
    sources with these sums."""
    shutil.rmtree(BUILT, ignore_errors=True)
    shutil.copytree(library, BUILT)
    (BUILT / NOTED).write_text(before)


def main():
    options = [word for word in sys.argv[1:] if word.startswith("-")]
    folders = [Path(word).resolve() for word in sys.argv[1:] if word not in options] or [BUILT]
    if options not in ([], ["--keep"]) or len(folders) != 1:
        sys.exit(__doc__)
    if not options:
        return int(not is_built(folders[0]))
    (folders[0] / NOTED).write_text(sums())
    return 0


if __name__ == "__main__":
    sys.exit(main())
