"""A file of accepted lines. A line is appended under a lock and synced before anybody acts on it.
The file itself is locked, and no other file ever takes its place: who waits for the lock would
otherwise wait for a file that is gone. Text after the last line feed was not written to its end,
and nobody acted on it: the next writer cuts it off."""

from __future__ import annotations

import contextlib
import fcntl
import os
import weakref
from pathlib import Path
from typing import Callable, Dict, Iterator, List, Optional, Sequence, Union

from .errors import Damaged, Forked, Locked, NotKept

Place = Union[str, "os.PathLike[str]"]


class Lines:
    """The lines of a file, as they were when it was read."""

    lines: List[str]
    torn: bytes
    """What stands after the last line feed."""

    def __init__(self, path: Place, data: Optional[bytes] = None) -> None:
        self.path = Path(path)
        data = self.path.read_bytes() if data is None else data
        whole, _, self.torn = data.rpartition(b"\n")
        self._length = len(data) - len(self.torn)
        try:
            self.lines = whole.decode("ascii").split("\n") if self._length else []
        except UnicodeDecodeError as error:
            line = whole.count(b"\n", 0, error.start) + 1
            raise Damaged(path, line, "a byte that isn't ASCII") from None


class Lock:
    """A file that this process has open and locked, until `close`."""

    def __init__(self, path: Place) -> None:
        self.descriptor, self._pid = _lock(path), os.getpid()
        # (The process may go to another folder.)
        self._place = os.path.abspath(path)
        _LOCKS.add(self)

    def close(self) -> None:
        """Unlocks the file. A child only lets go of it: the lock is its parent's."""
        descriptor, self.descriptor = self.descriptor, -1
        if descriptor >= 0:
            with contextlib.suppress(OSError):
                if os.getpid() == self._pid:
                    fcntl.flock(descriptor, fcntl.LOCK_UN)
            os.close(descriptor)

    def size(self) -> Optional[int]:
        """The file's size, if the file has its name still."""
        if os.getpid() != self._pid:
            raise Forked
        here = os.fstat(self.descriptor)
        return here.st_size if _is_at(self._place, here) else None


# What this process has locked. A child lets go of it, or the lock would outlive its parent.
_LOCKS: "weakref.WeakSet[Lock]" = weakref.WeakSet()


def _let_go() -> None:
    for lock in list(_LOCKS):
        lock.close()


os.register_at_fork(after_in_child=_let_go)


# Who has to have a line before the file of this path has it, as a store that several machines
# share: it is handed the line's number and the line. If it raises, the file is left as it is.
WITNESSES: Dict[str, Callable[[int, str], None]] = {}


class Writer(Lines):
    """The lines of a file that this process has locked."""

    def __init__(self, path: Place, lock: Lock) -> None:
        self._lock, self._remains = lock, False
        with open(lock.descriptor, "rb", closefd=False) as file:
            super().__init__(path, file.read())
        # A writer that was killed may not have synced what it wrote.
        os.fsync(lock.descriptor)
        _sync_folder(self.path)

    def append(self, line: str) -> None:
        """Adds a line, and cuts off what was torn. Returns once it is on disk. After an error the
        file has its lines from before, unless `NotKept` says that this one may remain."""
        self._expect_own()
        data = f"{line}\n".encode("ascii")
        if witness := WITNESSES.get(os.path.realpath(self.path)):
            witness(len(self.lines) + 1, line)
        try:
            self._put(data)
        except BaseException as error:
            self._cut_back(error)
            raise
        self._length += len(data)
        self.lines.append(line)
        self.torn, self._remains = b"", False

    def _put(self, data: bytes) -> None:
        os.ftruncate(self._lock.descriptor, self._length)
        at = self._length
        while data:
            written = os.pwrite(self._lock.descriptor, data, at)
            data, at = data[written:], at + written
        os.fsync(self._lock.descriptor)

    def _cut_back(self, error: BaseException) -> None:
        """Cuts off the line for which this error was raised."""
        self.torn, self._remains = b"", False
        try:
            os.ftruncate(self._lock.descriptor, self._length)
            os.fsync(self._lock.descriptor)
        except OSError as fault:
            self._remains, error = True, error if isinstance(error, OSError) else fault
        if isinstance(error, OSError):
            remains = self._length if self._remains else None
            raise NotKept(error, self.path, remains) from error

    def _expect_own(self) -> None:
        """The file is locked by this process, has its name, and is as this process has left it."""
        size, left = self._lock.size(), self._length + len(self.torn)
        if size is None or (size != left and not self._remains):
            raise Locked(f"{self.path}: another program has changed or replaced it")


@contextlib.contextmanager
def locked(path: Place) -> Iterator[Writer]:
    """The lines of the file, which no other program writes meanwhile."""
    with contextlib.closing(Lock(path)) as lock:
        yield Writer(path, lock)


def _lock(path: Place) -> int:
    """Opens the file, and locks it. If another one has its name by then, that is the file."""
    while True:
        descriptor = os.open(path, os.O_RDWR | os.O_CLOEXEC)
        try:
            fcntl.flock(descriptor, fcntl.LOCK_EX | fcntl.LOCK_NB)
            if _is_at(path, os.fstat(descriptor)):
                return descriptor
        except BlockingIOError:
            os.close(descriptor)
            raise Locked(f"{os.fspath(path)}: another program is writing it") from None
        except BaseException:
            os.close(descriptor)
            raise
        os.close(descriptor)


def _is_at(path: Place, here: os.stat_result) -> bool:
    """Whether the path leads to this file."""
    return os.path.samestat(os.stat(path), here)


def create(path: Place, lines: Sequence[str]) -> None:
    """Makes the file with these lines. It must not be there yet. After a crash it is there whole,
    or not at all."""
    path = Path(path)
    # (In a container a process after a crash may have the number of the one before.)
    draft = path.with_name(f"{path.name}.{os.urandom(8).hex()}.new")
    try:
        with open(draft, "xb") as file:
            file.write("".join(f"{line}\n" for line in lines).encode("ascii"))
            file.flush()
            os.fsync(file.fileno())
        os.link(draft, path)
    except FileExistsError as error:
        raise FileExistsError(error.errno, error.strerror, str(path)) from None
    finally:
        draft.unlink(missing_ok=True)
    _sync_folder(path)


def _sync_folder(path: Path) -> None:
    """Syncs the folder: before that a new file isn't safe."""
    folder = os.open(path.resolve().parent, os.O_RDONLY)
    try:
        os.fsync(folder)
    finally:
        os.close(folder)
