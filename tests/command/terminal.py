"""Types the command of an operator in this process, without a server."""

import contextlib
import io
import os
import shutil
import tempfile
from pathlib import Path

from tests import TOP

STORED = TOP / "tests" / "command"


def typed(words, now=1000):
    """What the command prints at this moment, and its exit status."""
    from vaqsider.cli import main as vaqsider

    os.environ["VAQSIDER_NOW"] = str(now)
    out = io.StringIO()
    with contextlib.redirect_stdout(out), contextlib.redirect_stderr(out):
        try:
            status = vaqsider(list(map(str, words)))
        except SystemExit as end:
            status = end.code
    return out.getvalue(), status or 0


@contextlib.contextmanager
def folder():
    """A new folder with the examples in it, as the current one. It is in memory if possible, as
    each sync takes long on a busy disk."""
    before, memory = os.getcwd(), Path("/dev/shm")
    with tempfile.TemporaryDirectory(dir=memory if memory.is_dir() else None) as made:
        for source in [*TOP.glob("examples/*.script"), *STORED.glob("files/*")]:
            shutil.copy(source, made)
        os.chdir(made)
        try:
            yield Path(made)
        finally:
            os.chdir(before)


def private_halves():
    """Makes the files of private keys, empty: stubs sign by the names of files."""
    for path in Path().glob("K*.key"):
        path.with_suffix(".private").touch()
