"""How arguments of the command line are read. What can't be is refused by its name."""

from __future__ import annotations

import argparse
import os
import time
from pathlib import Path
from typing import Callable, Iterable

from .errors import Failure

# The highest TTL of a script, and a moment before the last one of calendars.
MOST, LAST = 2**32 - 1, 10**11


def _between(
    least: float, most: float, kind: Callable[[str], float] = int
) -> Callable[[str], float]:
    def read(text: str) -> float:
        try:
            if least <= (value := kind(text)) <= most:
                return value
        except ValueError:
            pass
        raise argparse.ArgumentTypeError(f"it is {text!r}, and has to be from {least} to {most}")

    return read


number, port = _between(0, MOST), _between(1, 65535)
span, moment = _between(0, MOST, float), _between(0, LAST, float)


def clock() -> float:
    """The present moment, in seconds. VAQSIDER_NOW stands in for the clock."""
    try:
        given = os.environ.get("VAQSIDER_NOW")
        return moment(given) if given else time.time()
    except argparse.ArgumentTypeError as error:
        raise Failure(f"VAQSIDER_NOW: {error}") from None


def words(text: str) -> tuple[str, ...]:
    """A command, as a shell would quote it."""
    from . import policies

    try:
        return policies.command(text)
    except ValueError as error:
        raise argparse.ArgumentTypeError(f"it has to be {error}") from None


def expect_other(out: str | Path, script: str | Path) -> None:
    """A file to write may not be one of the script's own."""
    own = [Path(script).with_suffix(suffix) for suffix in (".notes", ".look", ".act")]
    for path in (Path(script), *own):
        is_same = Path(out).exists() and path.exists() and path.samefile(out)
        if is_same or Path(out).resolve() == path.resolve():
            raise Failure(f"{out} is one of the script's own files: choose another --out")


def not_utf8(words: Iterable[str]) -> str | None:
    """The first of these words that isn't UTF-8."""
    return next((word for word in words if any("\udc80" <= it <= "\udcff" for it in word)), None)


def file_name(zone: str) -> str:
    """What files of a zone are called. What BIND's tools don't write into a file name is `%` and
    the number of the character, as in `0%2F25.2.0.192.in-addr.arpa`."""
    name = zone.rstrip(".") or "root"
    return "".join(it if it.isalnum() or it in "-_." else f"%{ord(it):02X}" for it in name)
