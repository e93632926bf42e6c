"""The package for Python: a wheel for each architecture, with the library inside, and the sources
of the package, which use the library that is installed."""

import os
import shutil
import tempfile
from pathlib import Path

from artefact import Built, run, seconds
from layout import TOP, shared
from modules import repack

# What the package consists of, in the folders of the repository.
FILES = ("pyproject.toml", "README.md", "LICENSE", "command/README.md")
FOLDERS = ("command/vaqsider", "library/python/keyset")


def stage(room):
    """A copy of the package alone."""
    for name in FILES:
        (room / name).parent.mkdir(parents=True, exist_ok=True)
        shutil.copyfile(TOP / name, room / name)
    for name in FOLDERS:
        ignored = shutil.ignore_patterns("__pycache__", "*.pyc")
        shutil.copytree(TOP / name, room / name, ignore=ignored)


def build(room, folder, kind, *settings):
    """Runs Python's own builder. Gives the file that it made."""
    before = set(folder.iterdir())
    python = os.environ.get("PYTHON", "/usr/bin/python3")
    environment = {**os.environ, "SOURCE_DATE_EPOCH": str(seconds()), "PYTHONHASHSEED": "0"}
    words = [python, "-m", "build", "--no-isolation", kind, "--outdir", folder, *settings]
    run(*words, room, env=environment)
    (package,) = set(folder.iterdir()) - before
    return package


def build_wheel(folder, built: Built):
    """A wheel that has the library of this architecture. Gives its path."""
    with tempfile.TemporaryDirectory() as room:
        stage(Path(room))
        inside = Path(room) / "library" / "python" / "keyset" / shared()
        shutil.copyfile(built.library / "lib" / shared(), inside)
        inside.chmod(0o644)
        option = f"--config-setting=--build-option=--plat-name={built.architecture.wheel}"
        return build(Path(room), folder, "--wheel", option)


def build_sources(folder):
    """The package's sources. Gives their tarball."""
    with tempfile.TemporaryDirectory() as room, tempfile.TemporaryDirectory() as made:
        stage(Path(room))
        return repack(build(Path(room), Path(made), "--sdist"), folder)
