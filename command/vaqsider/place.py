"""How a signed zone gets into its place: under a lock, from a private folder, whole and on disk."""

from __future__ import annotations

import contextlib
import glob
import os
import shutil
import stat
import tempfile
import time
from pathlib import Path
from typing import Callable, Iterator, TypeVar

from keyset import Locked, locked
from keyset.file import Writer
from keyset.notes import path_of

# How long an act waits for another program, in seconds, and how it ends the name of its folder.
PATIENCE, SUFFIX = 5, ".act"
Result = TypeVar("Result")
# What a zone file may allow: it is no program.
MODES = 0o666


def beside(script: str | Path) -> Path:
    """The file that is locked during an act: `example.com.act` for `example.com.script`."""
    return path_of(script).with_suffix(SUFFIX)


def touched(path: Path) -> Path:
    """The file, which is made empty if there is none. A link is refused."""
    os.close(os.open(path, os.O_RDWR | os.O_CREAT | os.O_NOFOLLOW | os.O_CLOEXEC, 0o644))
    return path


@contextlib.contextmanager
def alone(script: str | Path) -> Iterator[Writer]:
    """The lines that earlier acts have left, while no other act runs on this script."""
    path = touched(beside(script))
    with contextlib.ExitStack() as stack:
        yield patiently(lambda: stack.enter_context(locked(path)))


def patiently(part: Callable[[], Result]) -> Result:
    """What a part gives that locks a file. If another program has it, that soon lets it go."""
    until = time.monotonic() + PATIENCE
    while True:
        try:
            return part()
        except Locked:
            if time.monotonic() >= until:
                raise
            time.sleep(0.05)


@contextlib.contextmanager
def folder(signed: Path) -> Iterator[Path]:
    """A private folder beside the signed file. What an act that was killed has left goes."""
    start = f".{signed.name[:200]}."
    # A name of tempfile has eight characters more: `.a.*` would be folders of `a.b` too.
    for left in signed.parent.glob(f"{glob.escape(start)}{'?' * 8}{SUFFIX}"):
        if left.lstat().st_uid == os.geteuid():
            shutil.rmtree(left, ignore_errors=True)
    with tempfile.TemporaryDirectory(prefix=start, suffix=SUFFIX, dir=signed.parent) as made:
        yield Path(made).resolve()


def ready(draft: Path, signed: Path, unsigned: Path) -> None:
    """Gives the draft mode and owner of the signed file, or if there is none of the unsigned one.
    Returns once it is on disk."""
    like = _regular(signed) or unsigned.stat()
    file = os.open(draft, os.O_RDONLY | os.O_NOFOLLOW | os.O_CLOEXEC)
    try:
        _give(file, like)
        os.fchmod(file, like.st_mode & MODES)
        os.fsync(file)
    finally:
        os.close(file)


def _give(file: int, like: os.stat_result) -> None:
    """Gives a file the owner of another one, or the group if only root may do more."""
    if os.geteuid() == 0:
        os.fchown(file, like.st_uid, like.st_gid)
        return
    with contextlib.suppress(PermissionError):
        os.fchown(file, -1, like.st_gid)


def _regular(path: Path) -> os.stat_result | None:
    """How a file is kept, unless it is missing, or a link to somewhere."""
    with contextlib.suppress(FileNotFoundError):
        found = path.lstat()
        return found if stat.S_ISREG(found.st_mode) else None
    return None


def write(path: Path, text: str) -> None:
    """Gives a file this text: all of it, or it stays as it was."""
    draft = path.with_name(f".{path.name}.draft")
    draft.write_bytes(text.encode("utf-8", "surrogateescape"))
    put(draft, path)


def put(draft: Path, signed: Path) -> None:
    """Puts the draft into its place. Returns once that is on disk."""
    os.replace(draft, signed)
    held = os.open(signed.parent, os.O_RDONLY | os.O_CLOEXEC)
    try:
        os.fsync(held)
    finally:
        os.close(held)
