"""What may go wrong while `act` works, each as a row. Either the new zone is in its place, or the
old one stays as it was; and no draft is left."""

import contextlib
import os
import resource
import shlex
import shutil
import stat
import subprocess
import time
from dataclasses import dataclass
from pathlib import Path
from unittest import mock

from tests.command.terminal import STORED, folder, private_halves, typed

NEW, OLD = True, False
# A signer in front of the stub, which does more: $real is the stub's path.
SIGNER = 'mkdir bad; printf \'%s\\n\' "#!/bin/sh" \'{}\' >bad/dnssec-signzone; chmod +x bad/*'


def signer(then):
    """A signer that does this after the stub."""
    return SIGNER.format(f'"$real/dnssec-signzone" "$@" || exit; {then}')


def edited(edit):
    """A signer whose draft is changed so."""
    return signer(f'sed "{edit}" draft >other; mv other draft')


@dataclass(frozen=True)
class Case:
    """A row: what comes before, with the shell; how the act is typed; how it ends, and what it
    says; whether the new zone is in its place; and what has to be so then, by the shell."""

    name: str
    before: str
    words: str
    status: int
    says: str
    is_new: bool
    after: str = "true"
    most: int = resource.RLIM_INFINITY


ROWS = (
    Case("a signer that fails after half", signer("head -c 300 draft >h; mv h draft; exit 1"), "",
         69, "dnssec-signzone: status 1", OLD),
    Case("a signer that says why", signer("echo no key here >&2; exit 2"), "",
         69, "dnssec-signzone: no key here", OLD),
    Case("a signer that writes half", signer("head -c 300 draft >h; mv h draft"), "",
         69, "the signed zone is wrong", OLD),
    Case("a line cut in two", signer("head -c 315 draft >h; mv h draft"), "",
         69, "the signed zone is wrong", OLD),
    Case("a signer that makes no file", signer("rm draft"), "", 69, "draft: No such file", OLD),
    Case("another key", edited("s/ 10133 example/ 10134 example/"), "",
         69, "example.com. SOA is signed by 46350, not 10133,46350", OLD),
    Case("another algorithm", edited("s/RRSIG SOA 13/RRSIG SOA 8/"), "",
         69, "example.com. SOA isn't signed", OLD),
    Case("one signature of two", edited("/RRSIG NS .* 46350 /d"), "",
         69, "example.com. NS is signed by 10133, not 10133,46350", OLD),
    Case("a set without signatures", edited("/RRSIG NS /d"), "",
         69, "dnssec-verify: no signature for example.com./NS", OLD),
    Case("a key too few", edited("/WFD7zTd/d"), "",
         69, "its DNSKEY set isn't that of the script's keys", OLD),
    Case("a key too many in the zone file", "echo '@ IN DNSKEY 256 3 13 AAAA' >>zone", "",
         69, "its DNSKEY set isn't that of the script's keys", OLD),
    Case("CDS in the zone file", "echo '@ IN CDS 0 0 0 00' >>zone", "",
         69, "its CDS set isn't that of the script's keys", OLD),
    Case("another serial", edited("s/ 1000 3600/ 999 3600/"), "", 69, "its serial is 999", OLD),
    Case("no SOA record", edited("/SOA.ns/d"), "", 69, "no SOA record of example.com.", OLD),
    Case("a full disk, for the signer", signer("cat draft >/dev/full"), "",
         69, "dnssec-signzone: ", OLD),
    Case("a full disk, for a draft", "true", "", 69, "too large", OLD, most=500),
    Case("links in the place of drafts", "echo kept >precious; ln -s . .signed.a_12345z.act;"
         " for name in draft draft.in; do ln -s precious signed.$name; done", "",
         0, "signed: written", NEW, "[ $(cat precious) = kept ]"),
    Case("a link in the place of the signed zone", "cp signed target; ln -sf target signed", "",
         0, "signed: written", NEW, "[ ! -L signed ] && cmp -s target old"),
    Case("what a killed act has left", "mkdir -p .signed.a_12345z.act/draft", "",
         0, "signed: written", NEW),
    Case("a mode", "chmod 640 signed; umask 077", "", 0, "signed: written", NEW,
         "[ $(stat -c %a signed) = 640 ]"),
    Case("a first version, by the unsigned zone's mode", "rm signed; chmod 664 zone", "",
         0, "signed: written", NEW, "[ $(stat -c %a signed) = 664 ]"),
    Case("a reload without end", "true", "--reload 'sleep 100' --reload-within 0.2",
         69, "isn't loaded: it has not ended within 0 s: sleep 100", NEW),
    Case("a reload whose child goes on", "true",
         "--reload 'sleep 100 & echo $! >pid; wait' --reload-within 0.2", 69, "isn't loaded", NEW,
         "sleep 0.2; ! grep -q '(sleep) S' /proc/$(cat pid)/stat"),
    Case("a reload that fails", "true", "--reload 'exit 3'", 69, "isn't loaded: status 3", NEW),
    Case("shell text in names", "cp zone 'z; touch P'; for key in K*13+10133.*; do mv $key"
         " ${key%.*}; mv ${key%.*} $key; done", "--zone-file 'z; touch P'",
         0, "signed: written", NEW, "[ ! -e P ]"),
    Case("an act's own file is damaged", "echo cds >double.act", "",
         3, "double.act: line 1: it has not the form", OLD),
    Case("a private half is away", "rm Kexample.com.+013+10133.private", "",
         69, "Kexample.com.+013+10133.key has to sign the zone", OLD),
)
ACT = "act double.script --zone-file zone --out signed"


def prepare(row):
    """A roll in which two keys sign the zone, with a signed version that is in place."""
    text = Path("start.script").read_text().replace("start zsk-roll", "start "
                                                    "zsk-double-signature-roll")
    Path("double.script").write_text(text)
    private_halves()
    Path("signed").write_text("example.com. 60 IN SOA ns. h. 7 3600 600 86400 60\n")
    Path("old").write_text(Path("signed").read_text())
    subprocess.run(["sh", "-c", row.before], check=True, umask=0o022)


@contextlib.contextmanager
def limited(row):
    """A signer of the row comes before the stub, and files get no longer than the row allows."""
    path, (_, hard) = os.environ["PATH"], resource.getrlimit(resource.RLIMIT_FSIZE)
    os.environ.update(PATH=f"{Path('bad').resolve()}:{path}", real=str(STORED / "bin"))
    umask = os.umask(0o077 if "umask 077" in row.before else 0o022)
    resource.setrlimit(resource.RLIMIT_FSIZE, (row.most, hard))
    try:
        yield
    finally:
        resource.setrlimit(resource.RLIMIT_FSIZE, (hard, hard))
        os.environ["PATH"] = path
        os.umask(umask)


def rows():
    for row in ROWS:
        with folder():
            prepare(row)
            with limited(row):
                said, status = typed(shlex.split(f"{ACT} {row.words}"))
            if status != row.status or row.says not in said:
                yield f"{row.name}: it ends with {status}: {said}"
            if is_old() == row.is_new:
                yield f"{row.name}: the signed zone is {Path('signed').read_text()}"
            drafts = [path for path in Path().glob(".*") if not path.is_symlink()]
            if drafts or list(Path().glob("dsset*")):
                yield f"{row.name}: it leaves {drafts}"
            if subprocess.run(["sh", "-c", row.after]).returncode:
                yield f"{row.name}: {row.after} isn't so"


# Policy, serial of the unsigned zone, of the last signed one, the moment, and what comes next.
NOW = 1795780000  # 2026-11-27
SERIALS = (
    ("unixtime", 1, None, NOW, NOW),
    ("unixtime", 1, NOW, NOW, NOW + 1),
    ("unixtime", 1, NOW + 5, NOW, NOW + 6),
    ("unixtime", 2026112701, None, NOW, 2026112702),
    ("unixtime", 2026112701, 2026112702, NOW, 2026112703),
    ("unixtime", 2026112801, 2026112702, NOW, 2026112802),
    ("unixtime", 1, 4294967295, NOW, NOW),
    ("unixtime", 1, 4000000000, NOW, NOW),
    ("increment", 7, None, NOW, 8),
    ("increment", 7, 9, NOW, 10),
    ("increment", 12, 9, NOW, 13),
    ("increment", 1, 4294967295, NOW, 2),
    ("increment", 4294967294, 4294967295, NOW, 1),
    ("increment", 1, 2147483649, NOW, 2147483650),
    ("increment", 0, 2147483647, NOW, 2147483648),
    ("date", 1, None, NOW, 2026112700),
    ("date", 1, 2026112700, NOW, 2026112701),
    ("date", 1, 2026112799, NOW, 2026112800),
    ("date", 2026112699, 2026112503, NOW, 2026112700),
    ("keep", 7, None, NOW, 7),
    ("keep", 8, 7, NOW, 8),
    ("keep", 1, 4294967295, NOW, 1),
    ("keep", 7, 7, NOW, None),
    ("keep", 6, 7, NOW, None),
)


def serials():
    """The next serial, by RFC 1982: a secondary takes it, whatever it had."""
    from vaqsider import serial
    from vaqsider.errors import Failure

    for policy, unsigned, signed, now, wanted in SERIALS:
        try:
            made = serial.following(policy, unsigned, signed, now + 0.7)
        except Failure:
            made = None
        if made != wanted:
            yield f"serial {policy} of {unsigned} after {signed}: {made}, not {wanted}"


@contextlib.contextmanager
def patient(seconds):
    """An act waits so long for another one, also on a busy machine."""
    from vaqsider import place

    place.PATIENCE, before = seconds, place.PATIENCE
    try:
        yield
    finally:
        place.PATIENCE = before


def at_once():
    """Of two acts that begin at once, one waits for the other."""
    with folder(), patient(60):
        prepare(Case("", signer("sleep 0.3"), "", 0, "", NEW))
        with limited(ROWS[0]):
            children = [fork() for _ in range(2)]
        ends = [os.waitstatus_to_exitcode(os.waitpid(child, 0)[1]) for child in children]
        found = Path("signed").read_text()
        if ends != [0, 0] or found.count("RRSIG") != 5 or " 1001 3600" not in found:
            yield f"two at once end with {ends}: {found}"


def fork():
    """Acts in a process of its own."""
    child = os.fork()
    if child == 0:
        status = 1
        with contextlib.suppress(BaseException):
            status = typed(shlex.split(ACT))[1]
        os._exit(status)
    return child


def held():
    """An act waits only a little for another one."""
    from vaqsider import place

    with folder(), patient(0.1):
        prepare(ROWS[0])
        with place.alone("double.script"):
            said, status = typed(shlex.split(ACT))
        if status != 75 or "another program is writing it" not in said:
            yield f"an act beside another one ends with {status}: {said}"


def beside_a_watch():
    """An act waits for a watch that is writing the notes."""
    from keyset import locked

    with folder(), patient(60):
        prepare(ROWS[0])
        Path("double.notes").write_text("before 60 60 60\n")
        with locked("double.notes"):
            child = fork()
            time.sleep(2)
        status = os.waitstatus_to_exitcode(os.waitpid(child, 0)[1])
        if status or "published zone 10" not in Path("double.notes").read_text() or is_old():
            yield f"an act beside a watch ends with {status}"


def synced():
    """The signed file is on disk before it is in its place, and its folder after that; and notes
    are written before."""
    done, real = [], {name: getattr(os, name) for name in ("fsync", "replace")}

    def fsync(file):
        mode, path = os.fstat(file).st_mode, os.readlink(f"/proc/self/fd/{file}")
        done.append("folder" if stat.S_ISDIR(mode) else Path(path).name)
        return real["fsync"](file)

    def replace(source, target):
        done.append(f"replace {Path(source).name}")
        return real["replace"](source, target)

    with folder():
        prepare(Case("", "echo before 60 60 60 >double.notes", "", 0, "", NEW))
        os.fsync, os.replace = fsync, replace
        try:
            typed(shlex.split(ACT))
        finally:
            os.fsync, os.replace = real["fsync"], real["replace"]
    places = [done.index(it) for it in ("ready", "double.notes", "replace ready") if it in done]
    if len(places) != 3 or places != sorted(places) or done[-1] != "folder":
        yield f"an act does this on disk: {done}"


def in_order():
    """What is noted while an act runs, comes before what that notes: the notes stay in order."""
    with folder():
        noting = "echo everywhere zone $(date +%s) >>../double.notes"
        prepare(Case("", signer(f"sleep 1.1; {noting}"), "", 0, "", NEW))
        Path("double.notes").write_text("before 60 60 60\npublished zone 5 60 9\n")
        with limited(ROWS[0]), mock.patch("vaqsider.cli.clock", time.time):
            said, status = typed(shlex.split(ACT))
        found = Path("double.notes").read_text()
        moments = [int(line.split()[-1]) for line in found.splitlines()[1:] if " zone " in line]
        if status or len(moments) != 3 or moments != sorted(moments):
            yield f"an act beside a watch ends with {status}: {said}{found}"


def set_back():
    """If the clock was set back, nothing is noted that can't follow, and nothing is put in
    place."""
    with folder():
        prepare(ROWS[0])
        Path("double.notes").write_text("before 60 60 60\npublished zone 5 60 1001\n")
        said, status = typed(shlex.split(ACT))
        found = Path("double.notes").read_text(), Path("signed").read_text()
        if status != 64 or "now is 1000, and has to be 1001 or later" not in said \
                or "published zone 10" in found[0] or found[1] != Path("old").read_text():
            yield f"an act whose clock was set back ends with {status}: {said}{found}"


def of_others():
    """An act leaves the folder of another zone's act, whose name begins like its own."""
    from vaqsider import place

    with folder() as here, place.folder(here / "signed.com") as other:
        prepare(ROWS[0])
        said, status = typed(shlex.split(ACT))
        if status or not other.is_dir():
            yield f"an act beside that of signed.com ends with {status}: {said}"


def of_group():
    """Who isn't root keeps the signed zone's group, and goes on if it may not give files to
    that."""
    given = []

    def fchown(_, *ids):
        given.append(ids)
        raise PermissionError

    with folder(), mock.patch.multiple(os, geteuid=lambda: 1, fchown=fchown):
        prepare(ROWS[0])
        said, status = typed(shlex.split(ACT))
        if status or given != [(-1, Path("old").stat().st_gid)] or is_old():
            yield f"an operator's act gives {given}, and ends with {status}: {said}"


# What is on the path, how the act is typed, its end, and what it says.
BIND, LDNS = "dnssec-signzone named-compilezone", "ldns-verify-zone"
TOOLS = (
    (BIND, "", 69, "no signed zone is put in place unseen: install dnssec-verify or ldns-"),
    (f"{BIND} {LDNS}", "", 0, "signed: written"),
    (f"{BIND} {LDNS}", "--nsec3 '1 1 0 -'", 69, "unseen: install dnssec-verify"),
    (f"{BIND} {LDNS} bad", "", 69, "ldns-verify-zone: it is false"),
    ("named-compilezone dnssec-verify", "", 69, "dnssec-signzone is missing: install it"),
    ("dnssec-signzone dnssec-verify", "", 69, "named-compilezone is missing: install it"),
)


def only(names):
    """A folder that has only these tools, and what stubs need."""
    (made := Path("few").resolve()).mkdir()
    for name in ("sh", "awk", "sed"):
        (made / name).symlink_to(shutil.which(name))
    for name in set(names.split()) - {LDNS, "bad"}:
        (made / name).symlink_to(STORED / "bin" / name)
    if LDNS in names:
        ends = "echo it is false >&2; exit 1" if "bad" in names else ""
        (made / LDNS).write_text(f"#!/bin/sh\n{ends}\n")
        (made / LDNS).chmod(0o755)
    return str(made)


def tools():
    """If a tool isn't there, or the verifier doesn't find the zone right, the old one stays."""
    for names, words, wanted, says in TOOLS:
        with folder():
            prepare(ROWS[0])
            with mock.patch.dict(os.environ, PATH=only(names)):
                said, status = typed(shlex.split(f"{ACT} {words}"))
            if status != wanted or says not in said or is_old() != bool(wanted):
                yield f"with {names}: {words} ends with {status}: {said}"


def is_old():
    return Path("signed").read_text() == Path("old").read_text()


CHECKS = (
    rows, serials, at_once, held, beside_a_watch, synced, in_order, set_back, of_others, of_group,
    tools,
)
COUNT = len(ROWS) + len(SERIALS) + len(TOOLS) + len(CHECKS) - 3


def faults():
    """What `act` does otherwise than it should."""
    return [fault for check in CHECKS for fault in check()]
