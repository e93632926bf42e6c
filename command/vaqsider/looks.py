"""The last look at all servers, one line of JSON in `ZONE.look` beside `ZONE.script`. It is kept so
that `check` and `zones` can say what it found, and when, without asking anybody."""

from __future__ import annotations

import contextlib
import fcntl
import json
import os
from dataclasses import asdict, dataclass
from pathlib import Path
from typing import BinaryIO

from keyset import notes

from . import place


@dataclass(frozen=True)
class LastLook:
    """What is kept of a look: its moment, and how many lines the script had; how many servers
    lacked something, what they lacked, and where there was no chain; until when the first signature
    to expire is valid, and from when on a quarter of its time is left."""

    moment: int
    lines: int
    servers: int
    lacking: list[str]
    broken: list[str]
    until: int | None
    renew: int | None

    def age(self, now: float) -> int:
        """For how many seconds it is over. Below 0 the clock was set back since then."""
        return int(now) - self.moment


def path_of(script: str | Path) -> Path:
    return notes.path_of(script).with_suffix(".look")


def keep(script: str | Path, look: LastLook) -> None:
    """Writes it, in the place of an older one: whole, or not at all."""
    path = path_of(script)
    draft = path.with_name(f".{path.name}.draft")
    with _alone(draft) as file:
        file.truncate(0)
        file.write(f"{json.dumps(asdict(look))}\n".encode("ascii"))
        file.flush()
        os.fsync(file.fileno())
        place.put(draft, path)


def _alone(draft: Path) -> BinaryIO:
    """The file of the draft, which no other program writes now."""
    flags = os.O_RDWR | os.O_CREAT | os.O_NOFOLLOW | os.O_CLOEXEC
    while True:
        file = open(os.open(draft, flags, 0o644), "wb")
        fcntl.flock(file, fcntl.LOCK_EX)
        # Another program may have put it into its place meanwhile.
        with contextlib.suppress(FileNotFoundError):
            if os.path.samestat(os.fstat(file.fileno()), draft.lstat()):
                return file
        file.close()


def read(script: str | Path) -> LastLook | None:
    """The last look, or None if there was none. A file that isn't one counts as none."""
    try:
        look = LastLook(**json.loads(path_of(script).read_text(encoding="utf-8")))
    except (FileNotFoundError, ValueError, TypeError, RecursionError):
        return None
    is_right = (
        all(isinstance(it, int) for it in (look.moment, look.lines, look.servers))
        and [type(it) for it in (look.until, look.renew)] in ([int, int], [type(None)] * 2)
        and all(isinstance(it, list) for it in (look.lacking, look.broken))
    )
    return look if is_right else None
