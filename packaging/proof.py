"""What was proved, with what: the page PROOF of a release.

Who has the toolchain proves the sources of the release anew, and compares what he builds with the
sums of this page."""

import hashlib
import shutil
import tempfile
from pathlib import Path

import proved
from artefact import Built, Fault, run, version
from debs import strip
from layout import PROGRAMS, TOP, shared

# What is proved and built, as a command prints its sum.
SOURCES = (
    "find crates.txt HANDLES VERSION crates/*/src crates/*/specs crates/*/proofs "
    "library/heap.c library/keyset.h library/keyset.pc.in library/pack.sh library/programs -type f"
)
SUM = f"{SOURCES} | LC_ALL=C sort | xargs sha256sum | sha256sum"
HEAD = """\
What was proved of Vaqsider {version}, and with what.

Toolchain: {toolchain}
Commit: {commit}
Sources: {digest}
    {command}

To compare: `rt ci --anew` proves all from nothing. `make build lib` then builds, and
sha256sum has to print the sums below.

Each crate was proved from nothing by `rt ci` from these sources. Here are the sum of what its proof
has read, as `packaging/proved.py` takes it, and the last line of the proof. In place of that line
`kept` means that `rt ci` made no proof in the runs whose logs the release was made by, since an
earlier run on the same machine had made it from the same files.

"""
BUILT = """
What was built from them. On aarch64 the program is C over the library, of which no proof speaks.
Debian's packages have the program and the shared object without the names that only a linker needs
(`strip --strip-unneeded --remove-section=.comment`); their sums are here too.

"""


def digest(path):
    return hashlib.sha256(path.read_bytes()).hexdigest()


def crates():
    """The crates of the product, lowest first: those of tests come after them."""
    names = list(proved.crates())
    return names[: names.index("keyset_c") + 1]


def proofs(logs):
    """A line for each crate, by the logs of the runs that have proved or kept it."""
    here = proved.sums()
    found = proved.read([log.read_text(encoding="utf-8", errors="replace") for log in logs], here)
    if lacking := [crate for crate in crates() if crate not in found]:
        raise Fault(
            f"the logs have no proof of {', '.join(lacking)} from these sources: "
            "`packaging/proved.py` makes one, or says that the crate is kept"
        )
    return [f"  {crate} {here[crate]}\n    {found[crate]}\n" for crate in crates()]


def builds_of(built: Built):
    """A line for each file of an architecture, and one more if Debian's package strips it."""
    machine = built.architecture.machine
    yield f"  {digest(built.library / 'lib' / 'libkeyset.a')}  {machine} libkeyset.a\n"
    places = [built.library / "lib" / shared()]
    places += [built.programs / name / "out" / name for name in PROGRAMS]
    for path in places:
        yield f"  {digest(path)}  {machine} {path.name}\n"
        with tempfile.TemporaryDirectory() as room:
            stripped = Path(shutil.copy(path, room))
            strip(stripped, built)
            yield f"  {digest(stripped)}  {machine} {path.name}, Debian\n"


def write(folder, builds: "list[Built]", logs):
    """Writes PROOF by the logs of the proofs, and gives its path."""
    text = HEAD.format(
        version=version(), toolchain=proved.toolchain().strip(), command=SUM,
        commit=run("git", "-C", TOP, "rev-parse", "HEAD").strip(),
        digest=run("sh", "-c", SUM, cwd=TOP).split()[0],
    )
    text += "".join(proofs(logs)) + BUILT
    text += "".join(line for built in builds for line in builds_of(built))
    (folder / "PROOF").write_text(text, encoding="utf-8")
    return folder / "PROOF"
