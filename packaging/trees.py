"""Puts what is installed into its place, and removes it again."""

import fcntl
import os
import shutil
import tempfile
from contextlib import contextmanager, suppress
from pathlib import Path

import documents
import man
from layout import LAUNCHER, LIST, SHARED, TOP, description


class MissingFile(Exception):
    pass


def make_pages(folder, layout):
    """Writes what an install has that isn't a file of the repository."""
    man.write(folder)
    documents.write(folder / "documents")
    (folder / "vaqsider").write_text(LAUNCHER, encoding="utf-8")
    version = (TOP / "VERSION").read_text().strip()
    text = description(layout.libraries, version)
    (folder / "keyset.pc").write_text(text, encoding="utf-8")


def make_folder(folder):
    """Makes a folder and those above it. Gives those that were not there."""
    missing = []
    while not folder.is_dir():
        missing.append(folder)
        folder = folder.parent
    for new in reversed(missing):
        new.mkdir(exist_ok=True)
        new.chmod(0o755)
    return missing


class RemovedFolder(Exception):
    """A folder was removed before it could be locked."""


@contextmanager
def locked(root):
    """Keeps others from installing below a folder, or from uninstalling there, meanwhile."""
    try:
        folder = os.open(root, os.O_RDONLY | os.O_DIRECTORY)
    except FileNotFoundError:
        raise RemovedFolder from None
    try:
        fcntl.flock(folder, fcntl.LOCK_EX)
        if os.fstat(folder).st_nlink == 0:
            raise RemovedFolder
        yield
    finally:
        os.close(folder)


@contextmanager
def replacing(place):
    """A name beside a place, for what comes into the place in one step: whoever uses the old file
    goes on with it. If it can't be made, nothing is left of it."""
    new = place.with_name(f".{place.name}.new")
    new.unlink(missing_ok=True)
    try:
        yield new
        new.replace(place)
    finally:
        new.unlink(missing_ok=True)


def put(file, root):
    """Puts a file in its place."""
    with replacing(root / file.place) as new:
        if file.mode is None:
            new.symlink_to(file.source.name)
        else:
            shutil.copyfile(file.source, new)
            new.chmod(file.mode)


def listed(root):
    """The files and the folders that were installed."""
    path = root / LIST
    rows = path.read_text(encoding="utf-8").splitlines() if path.is_file() else []
    return [row for row in rows if not row.endswith("/")], [r for r in rows if r.endswith("/")]


def remove_file(root, name):
    """Removes a file, and what Python has compiled of it. A folder in its place isn't ours."""
    path = root / name
    with suppress(IsADirectoryError):
        path.unlink(missing_ok=True)
    if path.suffix == ".py":
        cache = path.parent / "__pycache__"
        for kept in cache.glob(f"{path.stem}.*.pyc"):
            kept.unlink()
        if cache.is_dir() and not any(cache.iterdir()):
            cache.rmdir()


def keep(root, names, folders):
    """Writes the list of what was installed, which anybody may read."""
    rows = [*sorted(names), *sorted(folders)]
    with replacing(root / LIST) as new:
        new.write_text("".join(f"{row}\n" for row in rows), encoding="utf-8")
        new.chmod(0o644)


def is_older_library(name):
    return bool(SHARED.fullmatch(Path(name).name))


def install(root, layout):
    """Installs all, and removes what an earlier install has left and this one lacks. The list has
    each file before the file is there. So `uninstall` finds all files of an install that broke
    off."""
    with tempfile.TemporaryDirectory() as pages:
        make_pages(Path(pages), layout)
        files = list(layout.files(Path(pages)))
        for file in files:
            if not file.source.exists():
                raise MissingFile(f"{file.source} isn't there: 'make build lib' makes it")
        new_folders = []
        while True:
            new_folders += make_folder(root)
            with suppress(RemovedFolder), locked(root):
                return put_all(root, files, new_folders)


def put_all(root, files, new_folders):
    """Puts all files in their places. `new_folders` were made for them before."""
    before, folders = map(set, listed(root))
    names = {str(LIST), *(str(file.place) for file in files)}
    for name in names:
        new_folders += make_folder((root / name).parent)
    ours = (path for path in new_folders if path == root or root in path.parents)
    folders.update(f"{path.relative_to(root)}/" for path in ours)
    keep(root, before | names, folders)
    for file in files:
        put(file, root)
    stay = set(filter(is_older_library, before))
    for name in before - names - stay:
        remove_file(root, name)
    keep(root, names | stay, folders)
    return names


def uninstall(root):
    """Removes what was installed, and the folders that were made for it."""
    with suppress(RemovedFolder), locked(root):
        files, folders = listed(root)
        for name in files:
            remove_file(root, name)
        for name in sorted(folders, reverse=True):
            folder = root / name
            if folder.is_dir() and not any(folder.iterdir()):
                folder.rmdir()
        if files:
            return files
    raise MissingFile(f"{root / LIST} isn't there: nothing is installed here")
