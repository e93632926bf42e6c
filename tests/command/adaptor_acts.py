"""Checks of adaptors.py: acts by signers that run, as they are typed."""

from __future__ import annotations

import contextlib
import itertools
import os
import subprocess
import sys
from pathlib import Path

from tests.command import stores, testkeys
from tests.command.terminal import TOP, folder, typed
from vaqsider import keyfiles
from vaqsider.signers import Key

ACT = ["act", "start.script", "--signer", "pdns"]
BY_API = [*ACT[:-1], "pdns-api http://pdns", "--signer-config", "secret"]
NOTED = "published dnskey 10 60 205"


def stored(fake: stores.FakePdns | None = None) -> stores.FakePdns:
    """A database with the keys of start.script that are in use before its roll, and the files of
    private halves."""
    fake = fake or stores.FakePdns()
    for path in sorted(Path().glob("K*.key")):
        path.with_suffix(".private").write_text(path.name)
        key = Key.of(keyfiles.read(path).data)
        if key.tag != 10133:
            fake.keys.append({"key": key, "active": True, "published": True})
    Path("start.notes").write_text("before 59 59 59\n")
    return fake


def typed_acts():
    """An act by a signer that runs: what it prints, notes and leaves; and after each command that
    fails the same act ends as it would have."""
    for fails_at, (maker, words, raises) in itertools.product(range(1, 9), (
            (stores.FakePdns, ACT, "increase-serial"),
            (stores.FakePdnsApi, BY_API, "a higher serial"))):
        with folder():
            fake = stored(maker())
            with fake.installed():
                yield from _typed_act(fake, fails_at, words, raises)


def _typed_act(fake, fails_at, words, raises):
    fake.fails_at = fails_at
    said, status = typed(words, 205)
    is_broken = fails_at <= fake.changes
    if status != (69 if is_broken else 0) or NOTED not in _notes():
        yield f"an act that fails at {fails_at} ends with {status}: {said}{_notes()}"
    fake.fails_at = None
    said, status = typed(words, 206)
    serial, tags = fake.serial, {key.tag for key in fake.sets()[0]}
    if status or " had, " not in said and " has " not in said or tags != {10133, 46350, 64103}:
        yield f"the act after it ends with {status}: {said}{tags}"
    said, status = typed(words, 207)
    if status or "signed anew" not in said or fake.serial <= serial \
            or _notes().count("published dnskey") != 1:
        yield f"an act that renews ends with {status}: {said}{_notes()}"
    said, status = typed([*words, "--dry-run"], 208)
    if "now: DNSKEY" not in said or said.count(raises) != 1:
        yield f"a dry run says {said}"


def nsec3():
    """PowerDNS gets the parameters of NSEC3 by the option of an act, and keeps them without it."""
    with folder():
        fake = stored()
        for words, wanted in ((["--nsec3", "1 0 0 -"], "1 0 0 -"), ([], "1 0 0 -"),
                              (["--nsec3", "no"], None)):
            with fake.installed():
                said, status = typed([*ACT, *words], 205)
            if status or fake.nsec3 != wanted:
                yield f"an act with {words} ends with {status}, {fake.nsec3}: {said}"
        with fake.installed():
            said, status = typed([*ACT, "--nsec3", "1; 2"], 205)
        if status != 64:
            yield f"an act with other parameters ends with {status}: {said}"


def deaf():
    """A database whose commands end well and change nothing: an act says what isn't as it is
    due."""
    for fake, words, name in ((stores.FakePdns(), ACT, "pdns"),
                              (stores.FakePdnsApi(), BY_API, "pdns-api")):
        with folder():
            stored(fake)
            fake.publish_zone_key = lambda number: None
            fake._put = lambda *_, request: None
            with fake.installed():
                said, status = typed(words, 205)
            if status != 69 or f"{name} has not what is due: DNSKEY" not in said:
                yield f"an act on a deaf database ends with {status}: {said}"


def _notes() -> str:
    return Path("start.notes").read_text()


# How an act is typed, with what before it, its status and what it says.
TYPED = (
    ("", [*ACT, "--lifetime", "5"], 64, "--lifetime: pdns has that in its own settings"),
    ("", [*ACT, "--digest", "4"], 64, "--digest: pdns has that in its own settings"),
    ("", [*ACT, "--out", "x"], 64, "--out: pdns has that in its own settings"),
    ("", ["act", "start.script", "--signer", "opendnssec"], 64, "--signer is bind, ldns, pdns,"),
    ("", ["act", "start.script", "--signer", "hook"], 64, "--signer is bind, ldns, pdns,"),
    ("", ["act", "start.script", "--signer", "pdns x"], 64, "--signer is bind, ldns, pdns,"),
    ("", ["act", "start.script", "--signer", "pdns-api"], 64, "--signer is bind, ldns, pdns,"),
    ("", BY_API[:4], 64, "name the file with the key"),
    ("", [*BY_API[:3], "pdns-api pdns", *BY_API[4:]], 64, "begins with http:// or"),
    ("", [*BY_API[:-1], "none"], 69, "none: No such file"),
    ("real", ["act", "start.script", "--signer", "hook echo {"], 69, "what it says is no JSON"),
    ("gone", ACT, 69, "is neither in pdns nor, with its private half, here"),
    ("other", ACT, 69, "pdns has keys that this script has not published"),
    ("other", [*ACT, "--although"], 0, "pdns has what is due"),
    ("", ["plan", "start.script", "zsk-roll", "-", "-", "--signer", "pdns"], 1, "refused"),
    ("plan", ["plan", "start.script", "csk-roll", "Kexample.com.+013+64103.key,"
              "Kexample.com.+013+10133.key", "C9", "--first", "add-csk C9 - 13 9 300 yes",
              "--first", "abort zsk-roll", "--signer", "pdns"], 1, "PowerDNS would sign the zone"),
)


def typed_wrongly():
    """What an act says before it changes anything."""
    for before, words, wanted, says in TYPED:
        with folder():
            fake = stored()
            if before == "gone":
                Path("Kexample.com.+013+10133.private").unlink()
            if before == "other":
                data = testkeys.dnskey(11, 257).to_text()
                fake.keys[:] = [{"key": Key.of(data), "active": True, "published": True}]
                Path("start.script").write_text("".join(
                    Path("start.script").read_text().splitlines(True)[:3]))
            with contextlib.nullcontext() if before == "real" else fake.installed():
                said, status = typed(words, 205)
            is_changed = bool(fake.changes) != (wanted == 0)
            if status != wanted or says not in said or is_changed:
                yield f"{' '.join(words)}: {status}: {said}"


def without_dnspython():
    """Each word says that dnspython is missing, in whichever of its files that is seen."""
    with folder():
        Path("without").mkdir()
        Path("without/dns.py").write_text('raise ImportError(name="dns")\n')
        env = {**os.environ, "PYTHONPATH": f"without:{TOP / 'command'}", "VAQSIDER_NOW": "205"}
        for words in (ACT, ["act", "start.script"], ["ceremony", "start.script"], TYPED[-1][1]):
            made = [sys.executable, "-m", "vaqsider", *words]
            done = subprocess.run(made, env=env, capture_output=True, text=True)
            if done.returncode != 69 or "python3-dnspython is missing" not in done.stderr:
                yield f"{words} without dnspython: {done.returncode}: {done.stderr}"


CHECKS = (without_dnspython, typed_acts, nsec3, deaf, typed_wrongly)
COUNT = len(TYPED)
