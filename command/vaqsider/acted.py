"""What an act prints: for people, and as a value for --json."""

from __future__ import annotations

from argparse import Namespace
from typing import Iterator

from . import signing, words
from .act import Act
from .signers import Version


def planned(args: Namespace, act: Act, version: Version) -> tuple[Iterator[str], dict[str, object]]:
    """What would be done."""
    return _steps(args, act, version), _value(args, act, version)


def done(args: Namespace, act: Act, version: Version) -> tuple[list[str], dict[str, object]]:
    """What was done, and what is left to do at the parent."""
    text = [version.done(), *_notices(act, version)]
    if act.changes_ds:
        text.append(f"the parent's DS set has to be {words.listed(act.keys.published.ds)}")
    return [*text, *act.ds()], _value(args, act, version)


def _steps(args: Namespace, act: Act, version: Version) -> Iterator[str]:
    yield from version.text()
    yield from _notices(act, version)
    yield version.last()
    if args.reload:
        yield f"run: {args.reload}"
    yield from act.ds()


def _notices(act: Act, version: Version) -> Iterator[str]:
    """What an operator should know."""
    yield from version.notices()
    if act.step is not None and not act.has_cds:
        yield "CDS and CDNSKEY are left out"
    elif act.has_cds and not version.has_cds:
        yield "CDS and CDNSKEY are left out, as no key with a DS can sign them: give the parent " \
            "the DS set"


def _value(args: Namespace, act: Act, version: Version) -> dict[str, object]:
    reload = [["sh", "-c", args.reload]] if args.reload else []
    commands = [signing.shown(words) for words in [*version.commands(), *reload]]
    return {**version.value(commands), "ds": act.ds()}
