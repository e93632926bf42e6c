"""Tries more wrong bodies than the gate does: those of `crates/NAME/wrong`. Names of crates may
follow; else all are tried. The check has to refuse each, as those of `must-fail`.

It works in a copy, in which they stand in `must-fail`, and what `rt check` has kept of the crates
on this machine serves there too."""

import shutil
import subprocess
import sys
import tempfile
from pathlib import Path

from tests.gate.tools import TOP

LEFT = shutil.ignore_patterns(".git", "out", "must-fail")


def main(names):
    with tempfile.TemporaryDirectory(prefix="wrong-") as room:
        copy = Path(room) / "copy"
        shutil.copytree(TOP, copy, ignore=LEFT)
        wrong = {path.parent.name: path for path in sorted(copy.glob("crates/*/wrong"))}
        unknown = set(names) - wrong.keys()
        if unknown:
            print("no wrong bodies:", *sorted(unknown), file=sys.stderr)
            return 2
        for name in names or wrong:
            wrong[name].rename(wrong[name].with_name("must-fail"))
        return subprocess.run(["rt", "must-fail", *(names or wrong)], cwd=copy).returncode


if __name__ == "__main__":
    sys.exit(main(sys.argv[1:]))
