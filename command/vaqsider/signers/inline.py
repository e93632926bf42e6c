"""A named that signs by itself, without a dnssec-policy: `auto-dnssec maintain; inline-signing yes;
dnssec-dnskey-kskonly yes;`, as BIND has it up to 9.18. `dnssec-settime` gives each key its times,
in the folder that is named's `key-directory`, and `rndc sign` has named read them.

Of an algorithm keys with the SEP flag sign the DNSKEY set, and others the zone; if there are active
ones of one kind only, each signs all. An old key's signatures stay beside the new ones until the
key leaves the DNSKEY set: that harms nothing."""

from __future__ import annotations

import contextlib
import os
import re
import shutil
import tempfile
import time
from argparse import Namespace
from dataclasses import replace
from pathlib import Path
from typing import Callable, Iterator

from .. import zonefile
from ..arguments import file_name
from ..errors import UNAVAILABLE, Failure
from ..keyfiles import KeyFile, read
from . import DELETION, Key, Sets, bind, by_flags, files, lacks_by_flags
from .daemon import SignerStep, is_here, said

TIME = re.compile(r"(?P<name>[\w ]+): (?P<at>UNSET|\d+)")
TIMES = {"Publish", "Activate", "Inactive", "Delete", "SYNC Publish", "SYNC Delete", "Revoke"}
# What zonestatus says of a zone that named signs so.
SIGNS = ("signed serial: ", "key maintenance: automatic")
NO_POLICY = "does not have dnssec-policy"
SIGNING = re.compile(r"Signing with key (\d+)/")
# How often named is asked whether it has done all, and for how many seconds at most.
PAUSE, PATIENCE = 0.3, 60


class InlineKey:
    """A key file in named's folder, with its times."""

    def __init__(self, file: KeyFile, output: str, now: float) -> None:
        found = {it["name"]: it["at"] for it in map(TIME.fullmatch, output.splitlines()) if it}
        if not TIMES <= found.keys():
            raise Failure(f"dnssec-settime -p all {file.path}: times are missing", UNAVAILABLE)
        self.file, self.key, self.now = file, Key.of(file.data, file.path.name, file), now
        self.times = {name: int(at) for name, at in found.items() if at != "UNSET"}

    def is_past(self, name: str) -> bool:
        return self.times.get(name, self.now + 1) <= self.now

    @property
    def is_published(self) -> bool:
        return self.is_past("Publish") and not self.is_past("Delete")

    @property
    def is_active(self) -> bool:
        return self.is_past("Activate") and not (self.is_past("Inactive") or
                                                 self.is_past("Delete"))

    @property
    def has_cds(self) -> bool:
        return self.is_past("SYNC Publish") and not self.is_past("SYNC Delete")


class InlineSigner:
    """named, by its keys and by rndc."""

    name, options = "bind-inline", ()

    def __init__(
        self, origin: str, args: Namespace, clock: Callable[[], float] = time.time
    ) -> None:
        self.zone, self.clock = origin.rstrip(".") or ".", clock
        self.origin = origin
        self.folder = Path((args.keys or [Path(args.SCRIPT).parent])[0])
        self.config = ["-c", args.signer_config] if args.signer_config else []
        beside = Path(args.SCRIPT).parent / f"{file_name(self.zone)}.zone"
        self.zone_file = Path(getattr(args, "zone_file", None) or beside)
        if self.zone.startswith("-"):
            raise Failure(f"rndc takes {self.zone} for an option")

    def rndc(self, *words: str) -> tuple[str, ...]:
        return ("rndc", *self.config, *words)

    # What is there

    def held(self) -> list[InlineKey]:
        """The keys of the zone in named's folder."""
        files = [read(path) for path in sorted(self.folder.glob("K*.key"))]
        of = [it for it in files if it.owner.rstrip(".").lower() == self.zone.rstrip(".").lower()]
        words = "dnssec-settime", "-u", "-p", "all"
        return [InlineKey(it, said((*words, str(it.path.resolve()))), self.clock())
                for it in of if it.private.is_file()]

    def now(self, known: list[Key]) -> Sets:
        names = {key: key for key in known}
        of = [(it, names.get(it.key, it.key)) for it in self.held()]
        signers, zone = by_flags(key for it, key in of if it.is_active)
        return Sets(frozenset(key for it, key in of if it.is_published), signers, zone,
                    frozenset(key for it, key in of if it.has_cds))

    def fits(self, key: Key) -> bool:
        return is_here(key.file)

    def lacks(self, wanted: Sets) -> Iterator[str]:
        yield from lacks_by_flags("named", wanted)
        if Key(DELETION) in wanted.cds:
            yield "named can't ask the parent to remove the DS set by CDS of key times"
        if not wanted.zone:
            yield "named gives no unsigned zone: take auto-dnssec and inline-signing out"

    def ttls(self) -> dict[str, int]:
        """Those of the unsigned zone; the DNSKEY set has that of the key files, or of the SOA
        record."""
        with self._in_full(self.zone_file) as full:
            unsigned = zonefile.ZoneFile.of(self.origin, full)
            highest = max(row.ttl for row in zonefile.rows(full))
        keys = [it.file.ttl for it in self.held()]
        return {"dnskey": max([unsigned.soa.ttl, *keys]), "zone": highest}

    def given(self) -> Sets:
        """What named gives: the signed zone, which it keeps beside the unsigned one."""
        said(self.rndc("sync", self.zone))
        with self._in_full(Path(f"{self.zone_file}.signed")) as full:
            return files.sets_of(zonefile.ZoneFile.of(self.origin, full))

    @contextlib.contextmanager
    def _in_full(self, path: Path) -> Iterator[Path]:
        """A zone file in which each record is in full."""
        with tempfile.TemporaryDirectory() as made:
            yield zonefile.in_full(path, self.origin, bind.TOOLS, Path(made).resolve())

    # What has to be done

    def publish(self, now: Sets, wanted: Sets, folder: Path) -> Iterator[SignerStep]:
        self._expect_signing()
        for left in self.folder.glob(".K*.draft"):
            left.unlink()
        # named forgets CDS of a key that leaves with it.
        without = [key for key in sorted(now.cds - wanted.cds, key=str)
                   if key not in wanted.dnskey]
        if without:
            kept = replace(now, cds=now.cds - set(without))
            yield from (self._timed(key, now, kept, folder) for key in without)
            yield SignerStep(self.rndc("sign", self.zone))
            now = kept
        every = {key: key for key in (*now.keys, *now.cds, *wanted.keys, *wanted.cds)}
        changed = [key for key in sorted(every, key=str)
                   if self._uses(key, wanted) != self._uses(key, now)]
        rises = [it for it in changed if self._uses(it, wanted) > self._uses(it, now)]
        for key in [*rises, *(it for it in changed if it not in rises)]:
            yield self._timed(key, now, wanted, folder)

    @staticmethod
    def _uses(key: Key, sets: Sets) -> tuple[bool, ...]:
        return key in sets.signers | sets.zone, key in sets.dnskey, key in sets.cds

    def _expect_signing(self) -> None:
        text = said(self.rndc("zonestatus", self.zone))
        if not all(it in text for it in SIGNS) or self._has_policy():
            raise Failure(f"named doesn't sign {self.zone} by the times of its keys: it has to have"
                          " 'auto-dnssec maintain; inline-signing yes; dnssec-dnskey-kskonly yes;'"
                          " and no dnssec-policy (BIND 9.18 or older)", UNAVAILABLE)

    def _has_policy(self) -> bool:
        try:
            return NO_POLICY not in said(self.rndc("dnssec", "-status", self.zone))
        except Failure as failure:
            return NO_POLICY not in str(failure)

    def _timed(self, key: Key, now: Sets, wanted: Sets, folder: Path) -> SignerStep:
        signs, is_in, has_cds = self._uses(key, wanted)
        signed, was_in, had_cds = self._uses(key, now)
        times = []
        if is_in:
            times += [] if was_in else ["-P", "now"]
            times += ["-D", "none"]
        elif was_in or signed:
            times += ["-I", "now", "-D", "now"]
        if signs:
            times += [] if signed else ["-A", "now"]
            times += ["-I", "none"]
        elif is_in:
            times += ["-I", "now"] if signed else ["-A", "none", "-I", "none"]
        if has_cds != had_cds:
            # In the second of its deletion named publishes CDS anew, if it signs twice.
            sync = ["-P", "sync", "now", "-D", "sync", "none"] if has_cds else [
                "-D", "sync", "now-1"]
            times += sync
        file = key.at_hand()
        words = ("dnssec-settime", *times, str(file.path))
        return SignerStep(words, lambda: _settime(file, times, folder))

    def renew(self) -> Iterator[SignerStep]:
        """named signs anew what expires soon, by itself."""
        yield SignerStep(self.rndc("sign", self.zone))
        yield SignerStep(self.rndc("signing", "-list", self.zone), self._when_signed)
        yield SignerStep(self.rndc("sync", self.zone), self._when_given)

    def _when_signed(self) -> tuple[str, ...]:
        """Nothing, once named has signed all by each of its active keys. By one that is only
        published it is about to sign, it says."""
        active = {str(it.key.tag) for it in self.held() if it.is_active}
        words = self.rndc("signing", "-list", self.zone)
        self._wait(lambda: [f"{tag} has not signed all" for tag in sorted(
            active & set(SIGNING.findall(said(words))))])
        return ()

    def _when_given(self) -> tuple[str, ...]:
        """Nothing, once named gives what the times of its keys ask for: it takes CDS out a moment
        after it has signed. By a clock that was set back a bit, a time of just now has yet to
        come: so they are read each time."""
        self._wait(lambda: list(self.given().differences(self.now([]))))
        return ()

    def _wait(self, left: Callable[[], list[str]]) -> None:
        until = time.monotonic() + PATIENCE
        while lacks := left():
            if time.monotonic() > until:
                raise Failure(f"named doesn't give {self.zone} as its keys have it in {PATIENCE} "
                              f"seconds: {'; '.join(lacks)}", UNAVAILABLE)
            time.sleep(PAUSE)


def _settime(file: KeyFile, times: list[str], folder: Path) -> tuple[str, ...]:
    """Gives a key times, on a copy. The copy takes the place of the key with its mode and owner, so
    that named can still read it; the private half last, as named takes the times of that."""
    name = file.path.resolve()
    made = Path(tempfile.mkdtemp(dir=folder))
    copies = {path: made / path.name for path in (name, name.with_suffix(".private"))}
    for path, copy in copies.items():
        shutil.copyfile(path, copy)
    said(("dnssec-settime", *times, str(copies[name])))
    for path, copy in copies.items():
        like = path.stat()
        os.chmod(copy, like.st_mode & 0o777)
        if os.geteuid() == 0:
            os.chown(copy, like.st_uid, like.st_gid)
        with open(copy, "rb") as file_:
            os.fsync(file_.fileno())
        draft = path.with_name(f".{path.name}.draft")
        shutil.copy2(copy, draft)
        os.replace(draft, path)
    return ()
