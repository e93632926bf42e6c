"""`vaqsider ceremony`: a KSK that is offline signs ahead. Each signature that is asked for is made
of the bytes that are written, as an HSM would, and what is wrong is a row."""

from __future__ import annotations

import base64
import json
from pathlib import Path
from typing import Callable

from cryptography.hazmat.primitives import hashes
from cryptography.hazmat.primitives.asymmetric import ec, utils

from tests.command import testkeys
from tests.command.terminal import folder, typed

DAY = 86400
KSK, ZSKS = "Kexample.com.+013+64103", (46350, 10133)
ASK = ["ceremony", "start.script", "--dnskey-ttl", "60", "--span", "7776000", "--out",
       "asked.json"]
TAKE = ["ceremony", "start.script", "--take", "asked.json"]
ACT = ["act", "start.script", "--zone-file", "zone", "--out", "signed"]


def begin() -> None:
    """Only the KSK's private half is away."""
    for tag in ZSKS:
        Path(f"Kexample.com.+013+{tag}.private").touch()
    Path("signed").unlink(missing_ok=True)


def signed_by(number: int, data: bytes) -> str:
    """What a key makes of bytes, as a signature has it (RFC 6605, section 4)."""
    made = testkeys.private(number).sign(data, ec.ECDSA(hashes.SHA256()))
    two = b"".join(it.to_bytes(32, "big") for it in utils.decode_dss_signature(made))
    return base64.b64encode(two).decode()


def fill(change: Callable[[dict], None] = lambda it: None, number: int = 42116) -> int:
    """Signs all that is asked for. What is given back is changed. Gives how many there are."""
    requests = json.loads(Path("asked.json").read_text())
    for it in requests["signatures"]:
        it["signature"] = signed_by(number, base64.b64decode(it["signs"]))
        change(it)
    Path("asked.json").write_text(json.dumps(requests))
    return len(requests["signatures"])


def signed_ahead():
    """The signatures of 90 days come in, and an act puts in the last that is valid."""
    with folder():
        begin()
        said, status = typed(ACT, 205)
        if status != 69 or "has not signed this DNSKEY set" not in said:
            yield f"an act before the ceremony ends with {status}: {said}"
        said, status = typed(ASK, 205)
        if status or "8 signatures are asked for" not in said or fill() != 8:
            yield f"a ceremony of 90 days ends with {status}: {said}"
        for now, wanted in ((206, "8 new"), (207, "0 new"), (60 * DAY, "0 new")):
            said, status = typed(TAKE, now)
            if status or wanted not in said:
                yield f"signatures are taken at {now} with {status}: {said}"
        rows = Path("start.signatures").read_text().splitlines()
        if len(rows) != 5:
            yield f"after 60 days {len(rows)} signatures are kept"


def put_in():
    """Which signature an act puts in, by its day: the last that is valid then. None fits another
    set."""
    with folder():
        begin()
        typed(ASK, 205)
        fill()
        typed(TAKE, 206)
        for day, until in ((0, 30), (20, 45), (89, 105), (134, 135)):
            said, status = typed(ACT, 207 + day * DAY)
            ends = [it for it in Path("signed").read_text().splitlines() if "DNSKEY 13 2 60" in it]
            if status or f"{KSK}.key can't sign" not in said or len(ends) != 1 \
                    or _expiration(ends[0]) != until * DAY:
                yield f"an act on day {day} ends with {status}: {said}{ends}"
        said, status = typed(ACT, 207 + 136 * DAY)
        if status != 69 or "no signature of" not in said:
            yield f"an act after the last signature ends with {status}: {said}"


def _expiration(line: str) -> int:
    from vaqsider.zonefile import parsed

    return parsed("RRSIG", line.split(None, 4)[4]).expiration


def planned():
    """A ceremony has the sets of a roll that comes: the next key's, then that without the old
    one."""
    with folder():
        begin()
        tag, data = testkeys.add(13, 256)
        new, old = f"Kexample.com.+013+{tag:05}.key", "Kexample.com.+013+10133.key"
        Path(new).write_text(f"example.com. IN DNSKEY {data}\n")
        words = ["--first", "abort zsk-roll", "--first", f"add {new}", "--roll",
                 f"zsk-roll {old} {new}"]
        said, status = typed([*ASK, "--ttls", "60", "60", "60", "--delays", "1", "1", "1", *words],
                             205)
        requests = json.loads(Path("asked.json").read_text())["signatures"] if not status else ()
        sizes = [len(it["dnskey"]) for it in requests]
        if status or sorted(set(sizes)) != [1 + 1, 1 + 2]:
            yield f"a ceremony with a roll ends with {status}: {said}{sizes}"


# Signers of a plan, when it begins, and whether it has a ceremony for each set.
PLANS = (("bind", 206, True), ("ldns", 206, True), ("bind", 206 + 300 * DAY, False))


def refused():
    """A plan refuses a roll that no ceremony has signed, or not for that time. The sets that are
    published now are signed."""
    with folder():
        begin()
        tag, data = testkeys.add(13, 256)
        new, old = f"Kexample.com.+013+{tag:05}.key", "Kexample.com.+013+10133.key"
        Path(new).write_text(f"example.com. IN DNSKEY {data}\n")
        Path(new).with_suffix(".private").touch()
        first = ["--ttls", "60", "60", "60", "--delays", "1", "1", "1",
                 "--first", "abort zsk-roll", "--first", f"add {new}"]
        plan = ["plan", "start.script", "zsk-roll", old, new, *first]
        says = f"{KSK}.key isn't here, and it has signed no such DNSKEY set"
        yield from _planned(plan, [(*row[:2], False) for row in PLANS], says)
        typed([*ASK, *first, "--roll", f"zsk-roll {old} {new}"], 205)
        fill()
        typed(TAKE, 206)
        yield from _planned(plan, PLANS, says)
        said, status = typed(plan, 206)
        if status:
            yield f"a plan without a signer ends with {status}: {said}"


def _planned(plan, rows, says):
    for signer, start, is_signed in rows:
        said, status = typed([*plan, "--signer", signer, "--start", str(start)], 206)
        if status != (0 if is_signed else 1) or (says in said) == is_signed:
            yield f"a plan at {start} by {signer} ends with {status}: {said}"


def _other_set(it: dict) -> None:
    it["dnskey"] = it["dnskey"][:-1]


# What comes back from a ceremony, and what is said of it. Nothing of it is kept.
WRONG = (
    ("other bytes", lambda it: it.update(signature=base64.b64encode(b"x" * 64).decode()), "right"),
    ("half of it", lambda it: it.update(signature=it["signature"][:40]), "right"),
    ("another time", lambda it: it.update(expiration=it["expiration"] + 1), "right"),
    ("another TTL", lambda it: it.update(ttl=61), "right"),
    ("another set", _other_set, "right"),
    ("another zone", lambda it: it.update(zone="example.net."), "right"),
    ("no base 64", lambda it: it.update(signature="?"), "isn't what a ceremony has written"),
    ("no tag", lambda it: it.pop("tag"), "isn't what a ceremony has written"),
    ("a tag as a text", lambda it: it.update(tag="x"), "isn't what a ceremony has written"),
    ("an unknown key", lambda it: it.update(key="Kexample.com.+013+00001.key"), "No such file"),
)


def wrong():
    """What isn't right of a ceremony is refused, and nothing of it is kept."""
    for name, change, says in WRONG:
        with folder():
            begin()
            typed(ASK, 205)
            fill(change)
            said, status = typed(TAKE, 206)
            if not status or says not in said or Path("start.signatures").exists():
                yield f"{name}: {status}: {said}"
    with folder():
        begin()
        typed(ASK, 205)
        fill(number=40693)
        said, status = typed(TAKE, 206)
        if status != 2 or "isn't right" not in said:
            yield f"by another key: {status}: {said}"
        for text in ("", "{", "[]", '{"signatures": 3}', '{"signatures": [3]}'):
            Path("asked.json").write_text(text)
            said, status = typed(TAKE, 206)
            if status != 2 or "isn't what a ceremony has written" not in said:
                yield f"a file {text!r}: {status}: {said}"


# How a ceremony is typed, its status, and what it says.
TYPED = (
    ([*ASK[:2], "--out", "x"], 64, "--dnskey-ttl: say the TTL"),
    ([*ASK, "--lifetime", "100"], 64, "--lifetime: signatures have to be valid"),
    ([*ASK, "--roll", "zsk-roll"], 64, "--roll: say 'ROLL OLD NEW'"),
    ([*ASK, "--roll", "no-roll a b"], 64, "start no-roll"),
    ([*ASK[:-1], "start.script"], 64, "start.script"),
)


def typed_wrongly():
    for words, wanted, says in TYPED:
        with folder():
            begin()
            said, status = typed(words, 205)
            if status != wanted or says not in said:
                yield f"{' '.join(words)}: {status}: {said}"


CHECKS = (signed_ahead, put_in, planned, refused, wrong, typed_wrongly)
COUNT = len(WRONG) + len(TYPED) + 2 * len(PLANS) + 6


def faults():
    """What `ceremony` does otherwise than it should."""
    return [fault for check in CHECKS for fault in check()]
