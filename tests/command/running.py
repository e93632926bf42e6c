"""Signers that run, by the real ones: PowerDNS, Knot DNS and named. The gate doesn't need them.

    python3 -m tests.command.running [NAME..]    takes each through a course of rolls, with a crash
                                                 before each command. After each step it asks the
                                                 server itself, and compares what that gives with
                                                 what is due

The names are pdns, pdns-pgsql and pdns-api (also on PostgreSQL), knot, knot-pkcs11 (by SoftHSM) and
bind-inline."""

from __future__ import annotations

import contextlib
import os
import shutil
import sqlite3
import sys
import tempfile
import time
from pathlib import Path

import dns.exception

from tests.command import signer_courses
from tests.command.running_servers import ORIGIN, PATIENCE, SERVERS, RunningSigner
from tests.command.terminal import folder
from vaqsider.errors import Failure
from vaqsider.signers import Sets, daemon

TWO = ("K1,Z1,K4,Z4 K1,K4 Z1,Z4 -", "K1,Z1,K4,Z4 K1,K4 Z1,Z4 K4", "K4,Z4 K4 Z4 -")
OF_PDNS = (*signer_courses.COURSE[1:], *TWO, "K4,Z4 K4 Z4 0", "- - - -")
OF_KNOT = (*signer_courses.COURSE[1:], *signer_courses.OF_CSK, *TWO)
COURSES = {
    "pdns": OF_PDNS,
    "pdns-pgsql": OF_PDNS[:5],
    "pdns-api": OF_PDNS,
    "knot": OF_KNOT,
    "knot-pkcs11": OF_KNOT,
    "bind-inline": (*signer_courses.COURSE[1:], *TWO),
}
OF_PDNS_TOOLS = ("pdnsutil", "pdns_server", "pdns_control")
TOOLS = {"pdns": OF_PDNS_TOOLS, "pdns-pgsql": OF_PDNS_TOOLS, "pdns-api": OF_PDNS_TOOLS,
         "knot": ("knotd", "keymgr", "knotc"),
         "knot-pkcs11": ("knotd", "keymgr", "knotc", "softhsm2-util"),
         "bind-inline": ("named", "rndc", "dnssec-settime", "dnssec-keygen")}
PACKAGES = ("pdns-server pdns-backend-sqlite3 pdns-backend-pgsql postgresql knot bind9 "
            "bind9-utils softhsm2")


def course(name: str):
    """The course of a signer. Each step crashes once before each of its commands."""
    with folder():
        server = SERVERS[name]()
        keys = server.keys
        known = list(keys.values())
        try:
            for text in COURSES[name]:
                wanted = signer_courses.sets(keys, text)
                yield from (f"{name}: {text}: {it}" for it in step(server, known, wanted))
            if name.startswith("pdns"):
                yield from (f"{name}: {it}" for it in own_cds(server, known))
            if name == "pdns":
                yield from locked(server, known, signer_courses.sets(keys, COURSES[name][0]))
        finally:
            server.end()


def step(server: RunningSigner, known, wanted: Sets):
    """What isn't as it should be after a step that crashes everywhere."""
    store = server.store
    with tempfile.TemporaryDirectory() as made:
        for _ in range(2 + 2 * len(wanted.keys)):
            for one in list(store.publish(store.now(known), wanted, Path(made)))[:1]:
                one.run()
        for one in [*store.publish(store.now(known), wanted, Path(made)), *store.renew()]:
            one.run()
    yield from store.now(known).differences(wanted)
    left = ["no answer"]
    for _ in range(PATIENCE):
        with contextlib.suppress(OSError, dns.exception.DNSException):
            left = [*server.given(known).differences(wanted)]
        if not left:
            return
        time.sleep(0.3)
    yield from (f"the server gives: {it}" for it in left)


def own_cds(server: RunningSigner, known):
    """CDS that PowerDNS gives of its own is said."""
    server.util("set-publish-cds", ORIGIN)
    try:
        server.store.now(known)
        yield "it gives CDS of its own, and nothing is said"
    except Failure as failure:
        if "by PUBLISH-CDS:" not in str(failure):
            yield f"CDS of its own: {failure}"
    server.util("unset-publish-cds", ORIGIN)
    server.store.now(known)


def locked(server: RunningSigner, known, wanted: Sets):
    """A database that another program has locked: it is said, and after it all is well."""
    store, usual = server.store, daemon.SECONDS
    daemon.SECONDS = 2
    held = sqlite3.connect("db", isolation_level=None)
    held.execute("BEGIN EXCLUSIVE")
    said = ""
    try:
        for one in store.publish(store.now(known), wanted, Path()):
            one.run()
    except Failure as failure:
        said = str(failure)
    finally:
        daemon.SECONDS = usual
        held.execute("ROLLBACK")
        held.close()
    if "not done after 2 seconds" not in said:
        yield f"pdns: a locked database: {said!r}"
    yield from step(server, known, wanted)


def main() -> int:
    os.environ["PATH"] += ":/usr/sbin:/sbin"
    names = sys.argv[1:] or list(SERVERS)
    tools = {it for name in names for it in (*TOOLS[name], "dnssec-keygen", "dnssec-settime")}
    if missing := sorted(it for it in tools if not shutil.which(it)):
        print(f"missing: {' '.join(missing)}: apt-get install {PACKAGES}")
        return 1
    faults = [fault for name in names for fault in course(name)]
    count = sum(len(COURSES[name]) for name in names)
    print(*faults, f"running: {count} steps of {len(names)} signers", sep="\n")
    return 1 if faults else 0


if __name__ == "__main__":
    sys.exit(main())
