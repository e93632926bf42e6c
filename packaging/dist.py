#!/usr/bin/env python3
"""Makes a release: all that others install, in a folder.

    packaging/dist.py FOLDER [--untagged] --proofs LOG [LOG ..]

It wants a clean tree whose commit has the tag of the release, what `make arm` has made of it, the
logs of gates or of `packaging/proved.py` that have each of its proofs, and the tools of Python,
Rust and Debian. --untagged makes it of any clean tree, to try it. Each file has the same bytes
wherever it is made; the crate, if cargo has the same version.
"""

import argparse
import hashlib
import os
import shutil
import sys
from pathlib import Path

sys.dont_write_bytecode = True

from artefact import AARCH64, X86_64, Built, Fault, is_clean, run, version
from built import is_built
from debs import build_debs
from layout import BUILT, TOP
from modules import build_crate, build_module
from notes import write as write_notes
from proof import write as write_proof
from tarballs import pack_built, pack_sources
from wheels import build_sources, build_wheel

ARM = TOP / "library" / "out-aarch64"
BUILDS = [Built(X86_64, BUILT, TOP / "crates"), Built(AARCH64, ARM, ARM / "programs")]


def check(untagged):
    """Fails unless what is here is the release."""
    if not is_clean():
        raise Fault("the tree has changes that are in no commit")
    tags = run("git", "-C", TOP, "tag", "--points-at", "HEAD").split()
    if not untagged and f"v{version()}" not in tags:
        raise Fault(f"this commit isn't tagged v{version()}")
    for built in BUILDS:
        if not is_built(built.library):
            raise Fault(f"{built.library} isn't made of these sources: 'make arm' makes it")


def artefacts(folder, logs):
    """Makes each artefact, and gives its path."""
    yield pack_sources(folder)
    yield build_sources(folder)
    yield build_crate(folder, BUILDS)
    yield build_module(folder, BUILDS)
    for built in BUILDS:
        yield pack_built(folder, built)
        yield build_wheel(folder, built)
        yield from build_debs(folder, built)
    yield write_notes(folder)
    yield write_proof(folder, BUILDS, logs)


def write_all(folder, logs):
    """Makes each artefact, and at last their sums, without which the folder is no release."""
    rows = []
    for path in artefacts(folder, logs):
        digest = hashlib.sha256(path.read_bytes()).hexdigest()
        rows.append(f"{digest}  {path.name}\n")
        print(f"{path.stat().st_size:>10} {path.name}", flush=True)
    (folder / "SHA256SUMS").write_text("".join(sorted(rows, key=lambda row: row.split()[1])))


def make(folder, logs, untagged):
    """Makes a release. If it breaks off, as on a full disk, no part of one is left."""
    check(untagged)
    os.umask(0o022)
    shutil.rmtree(folder, ignore_errors=True)
    folder.mkdir(parents=True)
    try:
        write_all(folder, logs)
    except BaseException:
        shutil.rmtree(folder, ignore_errors=True)
        raise


def main():
    parser = argparse.ArgumentParser(description=__doc__.partition("\n")[0])
    parser.add_argument("folder", metavar="FOLDER", type=Path, help="where the release goes")
    parser.add_argument("--proofs", metavar="LOG", type=Path, nargs="+", required=True,
                        help="what `make test` or `packaging/proved.py` has printed")
    parser.add_argument("--untagged", action="store_true", help="make it of any clean tree")
    given = parser.parse_args()
    try:
        make(given.folder, given.proofs, given.untagged)
    except (Fault, OSError) as fault:
        print(f"dist: {fault}", file=sys.stderr)
        return 1
    return 0


if __name__ == "__main__":
    sys.exit(main())
