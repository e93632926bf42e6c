"""Checks of tests/command/rolling.py: policies with each word wrong, and the calls that a policy
shows before ticks make them."""

from __future__ import annotations

from collections.abc import Iterator
from pathlib import Path

from tests.command.rolling_folder import COUNTS, DAY, SPLIT, lines, living, played
from tests.command.rolling_world import BEGIN, ZONE, World
from tests.command.terminal import folder, typed

# A line, and why it is refused.
WRONG = (
    ("policy", "followed by what it says"), ("policy x csk-roll", "an algorithm"),
    ("policy 256 csk-roll", "an algorithm"), ("policy 13", "csk-roll, or by a roll of KSKs"),
    ("policy 13 zsk-roll", "csk-roll, or by a roll of KSKs"),
    ("policy 13 zsk-roll ksk-roll", "csk-roll, or by a roll of KSKs"),
    ("policy 13 csk-roll csk-roll", "csk-roll, or by a roll of KSKs"),
    ("zsk-once soon", "a moment"), ("ksk-lifetime 1y", "a time span"),
    ("ksk-lifetime -1", "a time span"),
    ("zsk-lifetime 90 d", "a time span"), ("delete-after never", "a time span"),
    ("zsk-lifetime 9999999999999", "a time span"), ("keygen '", "a command with its arguments"),
    ("signatures never", "a time span"), ("jitter x", "a time span"), ("renew-before", "followed"),
    ("clock never", "a time span"), ("purge x", "a time span"),
    ("serial up", "one of unixtime"), ("port 0", "a port"), ("port 65536", "a port"),
    ("parent mail", "one of cds, hook, ask"), ("on-ds '\"", "a command"), ("patience x", "a time"),
    ("lifetime 3d", "it begins with one of"), ("POLICY 13 csk-roll", "it begins with one of"),
    ("signer bind\nsigner ldns", "said once"), ("on-event", "followed"), ("reload '", "a command"),
    ("dnskey-ttl 5x", "a time span"), ("server", "followed"), ("nsec3", "followed"),
)
# A policy, and what the lint says of it.
LINTED = (
    ("ksk-lifetime 1d", "ksk-lifetime 1 d is shorter than a ksk-roll, which takes"),
    ("zsk-lifetime 30min", "zsk-lifetime 30 min is shorter than a zsk-roll, which takes"),
    ("zsk-lifetime 60s", "the TTL of dnskey, 1 min, isn't below zsk-lifetime 1 min"),
    ("signatures 60s", "the TTL of zone, 1 min, isn't below signatures 1 min"),
    ("renew-before 30s", "renew-before 30 s is too late"),
    ("signatures 3d\nrenew-before 3d", "renew-before 3 d isn't below the time of signatures, 3 d"),
    ("signatures 3d\njitter 2d\nrenew-before 1d", "renew-before 1 d isn't below the time of"),
    ("parent hook", "parent hook needs on-ds COMMAND"),
    ("on-ds true", "on-ds is never run with parent cds"),
    ("keygen no-such-program", "keygen: no-such-program isn't a program here"),
    ("policy 3 csk-roll", "algorithm 3 isn't one that dnssec-keygen makes keys of"),
    ("policy 13 csk-roll\ncsk-lifetime 1h", "csk-lifetime 1 h is shorter than a csk-roll, which"),
    ("zsk-lifetime 40min\nclock 10min", "zsk-lifetime 40 min is shorter than a zsk-roll, which"),
    ("policy 13 csk-roll\nsigner pdns", "signer pdns: start csk-roll csk1 csk2"),
    ("signer other", "signer other: --signer is bind, ldns"),
    ("signer knot\nsignatures 3d", "lifetime: knot has that in its own settings"),
)


def policies() -> Iterator[str]:
    """Each word of a policy, wrong: it is refused by its line's number, or found by the lint."""
    with folder():
        yield from (fault for text, why in WRONG for fault in refused(text, why))
        for text in ("policy 13 csk-roll\nzsk-lifetime 9d", "csk-lifetime 9d", "csk-once 5"):
            yield from refused(text, "speaks of keys that its rolls don't renew", "")
        typed(["init", ZONE, "--before", 60, 60, 60])
        for text, why in LINTED:
            COUNTS["policies"] += 1
            Path(f"{ZONE}.policy").write_text(f"{text}\n")
            said, status = typed(["policy", "check", f"{ZONE}.script"])
            if status != 2 or f"warning: {why}" not in said:
                yield f"{text!r}: it ends with {status}: {said}"
        Path(f"{ZONE}.policy").unlink()
        said, status = typed(["tick", f"{ZONE}.script"])
        if status != 2 or "example.com.policy is missing" not in said:
            yield f"without a policy it ends with {status}: {said}"


def refused(text: str, why: str, line: str = "line {}: ") -> Iterator[str]:
    """A policy whose last line is refused."""
    COUNTS["policies"] += 1
    Path("a.policy").write_text(f"# a policy\n\n{text}\n")
    said, status = typed(["policy", "check", "a.policy"])
    begin = f"a.policy: {line.format(3 + text.count(chr(10)))}"
    if status != 64 or begin not in said or why not in said:
        yield f"{text!r}: it ends with {status}: {said}"


def years() -> Iterator[str]:
    """`policy show` has the calls that ticks then make, in this order, and no more."""
    world, end = World(), BEGIN + 14 * DAY
    with folder(), living(world, SPLIT):
        words = ["policy", "show", f"{ZONE}.script", "--until", end]
        said, status = typed(words, world.now)
        calls = said.partition("\n\n")[2].splitlines()
        shown = [line.split("Z  ")[-1].split()[1:] for line in calls]
        calendar, _ = typed([*words, "--calendar"], world.now)
        picture, _ = typed([*words, "--picture"], world.now)
        for _ in played(world, end):
            pass
        made = [line.split(" ") for line in lines()[1:]]
    if status or [called(it) for it in shown] != [called(it) for it in made]:
        yield f"policy show ends with {status}: {said}"
    if calendar.count("BEGIN:VEVENT") != len(shown) or not picture.startswith("<svg "):
        yield f"its calendar is {calendar}, and its picture {picture}"


def called(line: list[str]) -> list[str]:
    """The word of a line, and its roll, if it is of one."""
    return line[:2] if line[1].endswith("roll") else line[:1]


CHECKS = (policies, years)
