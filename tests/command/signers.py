"""Signs by the real tools of BIND and of ldns, which the gate doesn't need.

    python3 -m tests.command.signers    signs a zone in each way of the table, by each signer, and
                                        has each version verified by the tools of both; then changes
                                        what was signed, and wants the old version to stay
"""

from __future__ import annotations

import itertools
import shlex
import shutil
import subprocess
import sys
import time
from pathlib import Path

from tests.command.terminal import TOP, folder, typed

TOOLS = ("dnssec-keygen", "dnssec-signzone", "dnssec-verify", "ldns-signzone", "ldns-verify-zone")
# Its serial is above that of any day: each version has the next one.
ZONE = r"""$TTL 300
@ IN SOA ns h 2099112701 3600 600 86400 60
  NS ns
  NS ns.other.net.
  MX 10 mail
ns A 127.0.0.1
mail 7200 A 127.0.0.2
*.wild TXT "a b; c" "d\"e"
_x._tcp 60 SRV 0 0 53 ns
sub NS ns.sub
ns.sub A 127.0.0.3
sec NS ns.sec
sec DS 1 13 2 0000000000000000000000000000000000000000000000000000000000000000
odd TYPE65534 \# 3 010203
$TTL 7
last A 127.0.0.9"""
SIGNERS = ("bind", "ldns")
# Options of an act, one after another on the same zone, and what its NSEC3 records begin with.
WAYS = (
    ("", None),
    ("--serial date --dnskey-ttl 999", None),
    ("--nsec3 '1 0 0 -'", "1 0 0 -"),
    ("--digest 2 --digest 4 --lifetime 86400", "1 0 0 -"),
    ("--nsec3 '1 1 5 ABCD'", "1 1 5"),
    ("", "1 1 5"),
    ("--nsec3 no --serial increment", None),
)
# Keys of the sets of a script: algorithm and flag, as dnssec-keygen takes them.
KEYS = {"ksk": ("13", True), "zsk": ("13", False), "rsa-ksk": ("8", True), "rsa-zsk": ("8", False)}
SETS = (("ksk", "zsk"), ("ksk",), ("ksk", "zsk", "rsa-ksk", "rsa-zsk"))
# What is changed after signing.
CHANGES = ("s/10 mail/11 mail/", "/NSEC/d", "/RRSIG.A/d", "s/127.0.0.9/127.0.0.8/", "/SRV.*53/d",
           "20,$d", "1,8d")


def keys() -> dict[str, str]:
    """Makes the key files."""
    names = {}
    for name, (algorithm, is_sep) in KEYS.items():
        words = ["dnssec-keygen", "-q", "-a", algorithm, *["-f", "KSK"] * is_sep, "example.com"]
        size = ["-b", "2048"] * (algorithm == "8")
        names[name] = subprocess.check_output([*words[:4], *size, *words[4:]], text=True).strip()
    return names


def begin(files: list[str]) -> str:
    """A script with the first keys of a zone: a KSK without a ZSK is a CSK."""
    now, script = time.time(), "_".join(files) + ".script"
    csk = ["--csk"] * (len(files) == 1)
    references = ",".join(f"{file}.key" for file in files)
    for words in (["init", "example.com", *files, "--script", script, *csk],
                  ["call", script, f"start algorithm-roll - {references} now"]):
        text, status = typed(words, now)
        if status:
            raise SystemExit(text)
    return script


def act(script: str, words: str, now: float | None = None) -> tuple[str, int]:
    given = f"act {script} --zone-file zone --out signed {words}"
    return typed(shlex.split(given), now or time.time())


def verified(nsec3: str | None) -> str:
    """What the verifiers of both say against the signed zone. ldns can't check opt-out."""
    checks = [["dnssec-verify", "-q", "-z", "-o", "example.com.", "signed"]]
    checks += [["ldns-verify-zone", "-V", "1", "signed"]] if nsec3 != "1 1 5" else []
    done = [subprocess.run(words, capture_output=True, text=True) for words in checks]
    return "".join(it.stdout + it.stderr for it in done if it.returncode)


def ways(script: str, signer: str):
    """Signs in each way. Each version is right, and has a higher serial and the wanted NSEC3."""
    Path("signed").unlink(missing_ok=True)
    for number, (words, nsec3) in enumerate(WAYS):
        text, status = act(script, f"--signer {signer} {words}")
        found = Path("signed").read_text() if Path("signed").is_file() else ""
        records = [line.split("NSEC3\t")[1] for line in found.splitlines() if "\tNSEC3\t" in line]
        is_so = bool(records) == bool(nsec3) and all(it.startswith(nsec3) for it in records)
        serial = f" {2099112702 + number} 3600"
        if status or not is_so or serial not in found or (said := verified(nsec3)):
            yield f"{script} by {signer} {words}: {status} {text}{said if not status else ''}"


def cds(script: str):
    """By each signer CDS comes in, signed by the keys that have to, once it is due."""
    now = time.time() + 1
    for call in ("report1 algorithm-roll 0 now", "wait1 algorithm-roll now"):
        typed(["call", script, call], now := now + 2)
    for signer in SIGNERS:
        text, status = act(script, f"--signer {signer}", now)
        found = Path("signed").read_text()
        if status or not all(f"\t{it}\t" in found for it in ("CDS", "CDNSKEY")) or verified(None):
            yield f"{script} by {signer} with CDS: {status} {text}{verified(None)}"


def changes(script: str):
    """A zone that is changed after it was signed isn't put in place."""
    before, signer = Path("signed").read_text(), shutil.which("dnssec-signzone")
    Path("bad").mkdir()
    for change in CHANGES:
        text = f'#!/bin/sh\n{signer} "$@" || exit\nsed -i \'{change}\' draft\n'
        Path("bad/dnssec-signzone").write_text(text)
        Path("bad/dnssec-signzone").chmod(0o755)
        words = ["env", f"PATH={Path('bad').resolve()}:/usr/bin:/bin", f"PYTHONPATH={TOP}"]
        words += [sys.executable, "-m", "tests.command.signers", "--act", script]
        done = subprocess.run(words, capture_output=True, text=True)
        if done.returncode != 69 or Path("signed").read_text() != before:
            yield f"{change}: {done.returncode} {done.stdout}"


def mistake(script: str):
    """A mistake in the unsigned zone is said."""
    before = Path("zone").read_text()
    Path("zone").write_text(f"{before}last IN A 127.0.0.1.5\n")
    for signer, says in (("bind", "bad dotted quad"), ("ldns", "could not parse")):
        text, status = act(script, f"--signer {signer}")
        if status != 69 or says not in text:
            yield f"a mistake, by {signer}: {status} {text}"
    Path("zone").write_text(before)


def raw(script: str):
    """The last version is in BIND's own form, as a zone that BIND has signed: its serial and its
    NSEC3 count."""
    act(script, "--nsec3 '1 0 0 -'")
    words = ["named-compilezone", "-q", "-F", "raw", "-o", "raw", "example.com.", "signed"]
    subprocess.run(words, check=True)
    before = int(Path("signed").read_text().split()[6])
    Path("raw").replace("signed")
    text, status = act(script, "")
    found = Path("signed").read_text(errors="replace")
    if status or f" {before + 1} 3600" not in found or "NSEC3PARAM" not in found:
        yield f"after a raw version: {status} {text}"


def main() -> int:
    if sys.argv[1:2] == ["--act"]:
        text, status = act(sys.argv[2], "")
        print(text)
        return status
    if missing := [name for name in TOOLS if not shutil.which(name)]:
        print(f"missing: {' '.join(missing)}: apt-get install bind9-utils ldnsutils")
        return 1
    faults, count = [], 0
    with folder():
        Path("zone").write_text(ZONE)
        made = keys()
        scripts = [begin([made[name] for name in names]) for names in SETS]
        for script, signer in itertools.product(scripts, SIGNERS):
            faults += ways(script, signer)
            count += len(WAYS)
        faults += [*changes(scripts[0]), *raw(scripts[0]), *mistake(scripts[0])]
        Path("signed").unlink()
        faults += [fault for script in scripts for fault in cds(script)]
        count += len(scripts) * len(SIGNERS)
    print(*faults, f"signers: {count} versions, {len(CHANGES)} changes", sep="\n")
    return 1 if faults else 0


if __name__ == "__main__":
    sys.exit(main())
