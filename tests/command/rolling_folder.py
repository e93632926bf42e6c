"""The folder of a zone that rolls by itself in the world of tests (rolling_world.py): how it
begins, ticks in it, and what they leave."""

from __future__ import annotations

import contextlib
import re
from collections.abc import Iterator
from pathlib import Path
from unittest import mock

from tests.command.rolling_world import UNSIGNED, ZONE, World, records_of
from tests.command.terminal import typed
from tests.oracle import what_next
from vaqsider import advice
from vaqsider.errors import Failure

DAY = 86400
KEY = re.compile(r"Kexample\.com\.\+\d+\+\d+")
# What the zones of these tests have done.
COUNTS = {"ticks": 0, "rolls": 0, "kills": 0, "policies": 0, "commands": 0}
# A policy of two kinds of keys.
SPLIT = "ksk-lifetime 15d\nzsk-lifetime 6d\n"
# The program's answers, if it knows the word.
ASK, KNOWN, ASKED = advice.ask, [], [0]


def said(*question) -> str:
    """What comes next: the twin and the program have to say the same."""
    by_twin = what_next.said(*question)
    if is_known():
        ASKED[0] += 1
        if (by_program := ASK(*question)) != by_twin:
            raise AssertionError(f"{question}: {by_program!r}, and by the twin {by_twin!r}")
    return by_twin


def is_known() -> bool:
    if not KNOWN:
        try:
            ASK(["policy 13 csk-roll"], [f"zone {ZONE}"], ["before 0 0 0"], 0)
            KNOWN.append(True)
        except Failure as failure:
            KNOWN.append(advice.NOT_KNOWN not in str(failure))
    return KNOWN[0]


POLICY = """keygen keygen
server ns1 ns2
parent-server p1 p2
signatures 20d
renew-before 5d
"""


@contextlib.contextmanager
def living(world: World, policy: str = "", asks: bool = True) -> Iterator[World]:
    """A new folder with the script of an unsigned zone, its notes and its policy, in this world. By
    `asks` it is asked what comes next."""
    from vaqsider import advice, asking, hooks, signing, zonefile
    from vaqsider.signers import daemon

    if not Path(f"{ZONE}.script").exists():
        for stored in Path().glob("K*.key"):
            stored.unlink()
        Path(f"{ZONE}.zone").write_text(UNSIGNED)
        usual = POLICY.splitlines(keepends=True)
        of_signer = "signer hook" in policy
        usual = [it for it in usual if not (of_signer and it.startswith(("signatures", "renew")))]
        Path(f"{ZONE}.policy").write_text("".join(usual) + policy)
        typed(["init", ZONE, "--before", 60, 60, 60], world.now)
    with contextlib.ExitStack() as stack:
        for target, name, stands_in in (
            (asking, "exchange", world.exchange), (asking, "is_address", lambda name: True),
            (signing, "run", world.signs), (zonefile, "run", world.signs),
            (hooks, "run", world.runs), (daemon, "said", world.hooked),
            (advice, "ask", said if asks else advice.ask),
            (signing.shutil, "which", lambda name: f"/usr/bin/{name}"),
        ):
            stack.enter_context(mock.patch.object(target, name, stands_in))
        yield world


def tick(world: World, *options: str) -> tuple[int, str]:
    """A tick of the zone at this moment: its status, and what it says."""
    world.loads()
    said, status = typed(["tick", f"{ZONE}.script", *options], world.now)
    world.loads()
    world.caches()
    return status, said


def played(world: World, until: int, every: int = 6 * 3600) -> Iterator[tuple[int, int, str]]:
    """Ticks as a timer makes them, more often while something is waited for."""
    while world.now < until:
        status, said = tick(world)
        COUNTS["ticks"] += 1
        yield world.now, status, said
        world.passes(min(60 if status else every, max(1, until - world.now)))


def shape() -> dict:
    """What a tick has left, without the names of keys: lines, notes, files, and what is published.
    A crash may cost a serial number, and a key that nobody knows of."""
    script = Path(f"{ZONE}.script").read_text()
    names = {it: f"K{n}" for n, it in enumerate(dict.fromkeys(KEY.findall(script)), start=1)}
    tags = {it.rpartition("+")[2]: name for it, name in names.items()}
    text = script + Path(f"{ZONE}.notes").read_text()
    for name, short in [*names.items(), *((str(int(tag)), name) for tag, name in tags.items())]:
        text = text.replace(name, short)
    signed, here = Path(f"{ZONE}.zone.signed"), {path.stem for path in Path().glob("K*.key")}
    drafts = (it.name for it in Path().glob(".*") if it.name.endswith((".act", ".draft")))
    sets = records_of(signed) if signed.exists() else {}
    return {
        "text": text, "here": sorted(names.get(it, "another") for it in here),
        "left": sorted(names.get(it.stem, "another") for it in Path("left").glob("K*.key")),
        "making": len(list(Path().glob(".*.new-keys/*"))),
        "published": {kind: len(of) for kind, of in sets.items()},
        "drafts": sorted(drafts),
    }


def lines() -> list[str]:
    return Path(f"{ZONE}.script").read_text().splitlines()
