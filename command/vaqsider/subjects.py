"""What `policy` is asked about: zones with their policies, or policy files."""

from __future__ import annotations

from argparse import Namespace
from collections.abc import Callable, Iterable, Iterator
from dataclasses import dataclass
from pathlib import Path

from . import linting, policies
from .check import Finding
from .errors import OK, UNAVAILABLE, Failure
from .linting import Spans
from .policies import SUFFIX, Policy


@dataclass(frozen=True)
class Subject:
    """A policy, with the script of its zone, if it is one of a zone."""

    place: Path
    script: Path | None
    policy: Policy

    @classmethod
    def of(cls, place: Path) -> Subject:
        script = None if place.suffix == SUFFIX else place
        return cls(place, script, policies.read(place))

    def findings(self, now: float) -> list[Finding]:
        return linting.findings(self.policy, Spans.of(self.script, now))


def scripts(places: Iterable[str]) -> list[Path]:
    """The scripts that are named, and those of folders."""
    paths: list[Path] = []
    for place in map(Path, places):
        of = sorted(place.glob("*.script")) if place.is_dir() else [place]
        if not of:
            raise Failure(f"{place}: no file ends in .script", UNAVAILABLE)
        paths += of
    return list(dict.fromkeys(paths))


def subjects(places: Iterable[str]) -> list[Subject]:
    """Those that are named. A policy file needs no zone."""
    files = [Path(it) for it in places if Path(it).suffix == SUFFIX]
    others = [it for it in places if Path(it).suffix != SUFFIX]
    return [Subject.of(it) for it in [*files, *scripts(others)]]


def check(
    args: Namespace, clock: Callable[[], float]
) -> tuple[int, Iterator[str], list[dict[str, object]]]:
    """The findings of each policy. The status is that of the worst one."""
    found = [(it.place, one) for it in subjects(args.SCRIPT) for one in it.findings(clock())]
    worst = max((one.level for _, one in found), default=OK)
    text = (f"{place}: {one}" for place, one in found)
    return worst, text, [{"policy": str(place), **vars(one)} for place, one in found]
