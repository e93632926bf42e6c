"""Signers that run: from any sets to any others of a course, with a crash before each command, and
what may go wrong with each, as rows. Beside them what hooks and APIs answer (hooks_and_apis.py),
and acts as they are typed (adaptor_acts.py)."""

from __future__ import annotations

import itertools
from argparse import Namespace
from pathlib import Path
from unittest import mock

from tests.command import adaptor_acts, hooks_and_apis
from tests.command.signer_courses import (
    COURSE, OF_CSK, UNSIGNED, ZONE, fault_of, make, of, sets, steps,
)
from tests.command.terminal import folder
from vaqsider.errors import Failure
from vaqsider.signers import Sets, inline
from vaqsider.signers.inline import InlineSigner
from vaqsider.signers.knot import Knot
from vaqsider.signers.pdns import Pdnsutil

COURSES = {"pdns": COURSE + UNSIGNED, "pdns-api": COURSE + UNSIGNED, "knot": COURSE[1:] + OF_CSK,
           "bind-inline": COURSE[1:]}


def courses():
    """Each change of a course, and each back again, ends with what is due, wherever it crashes and
    is begun again; and so does the way back. What is in both sets stays through all."""
    for name, course in COURSES.items():
        count = 0
        for one, other in zip(course, course[1:]):
            for before, after in ((one, other), (other, one)):
                count += 1
                yield from _change(name, before, after)
        if count < 20:
            yield f"{name}: only {count} changes"


def _change(name: str, before: str, after: str):
    """From some sets to others and back, with a crash before each command."""
    crash, commands = 0, 0
    while crash <= commands:
        with folder():
            keys = make()
            known, (store, fake) = list(keys.values()), of(name)
            first, wanted = sets(keys, before), sets(keys, after)
            with fake.installed():
                left = _reached(store, known, first)
                start, todo = len(fake.served), steps(store, known, wanted)
                _run(todo[:crash])
                left += [*_reached(store, known, wanted), *fake.faults()]
                served = [it for it in fake.served[start:] if it]
                left += _reached(store, known, first)
            where = f"{name}: {before} to {after}, crash at {crash}"
            if left:
                yield f"{where}: {left}"
            both = [_three(keys, it) for it in (before, after)]
            yield from (f"{where}: it gave {it}" for it in served if not _is_between(it, *both))
        crash, commands = crash + 1, len(todo)


def _run(todo) -> None:
    for step in todo:
        step.run()


def _reached(store, known, wanted: Sets) -> list[str]:
    """What is otherwise than wanted, after all steps."""
    _run(steps(store, known, wanted))
    return list(store.now(known).differences(wanted))


def _is_between(given, one, other) -> bool:
    """Whether sets have all that is in both; and if both have a chain, a chain by their keys."""
    dnskey, signers, zone = given
    has_chain = bool(signers & dnskey and zone & dnskey) and zone <= one[2] | other[2]
    has_all = all(a & b <= it for it, a, b in zip(given, one, other))
    return has_all and (has_chain or not (one[2] and other[2]))


def _three(keys, text):
    made = sets(keys, text)
    return made.dnskey, made.signers, made.zone


# What a signer can't do, and what it says.
LACKS = (
    ("pdns", "K1,Z1,C3 K1,C3 C3 -", "PowerDNS would sign the zone by C3 K1, not C3"),
    ("pdns", "K1,C3 K1,C3 K1 -", "PowerDNS would sign the zone by C3 K1, not K1"),
    ("pdns", "K1,K2,Z1 K1,K2 Z1 K2", ""),
    ("bind-inline", "K1,Z1,C3 K1,C3 C3 -", "named would sign the zone by C3 K1, not C3"),
    ("bind-inline", "K1,Z1 K1 Z1 0", "named can't ask the parent to remove"),
    ("bind-inline", "- - - -", "named gives no unsigned zone"),
    ("knot", "K1,Z1,C3 K1,C3 C3 C3", ""),
    ("knot", "K1,Z1 K1,Z1 Z1 -", "Knot signs the DNSKEY set only by keys with the SEP flag"),
    ("knot", "K1,C3 K1 K1,C3 -", "Knot can't sign the zone by C3 without"),
    ("knot", "K1,C3 K1,C3 K1,C3 C3", "Knot can't give CDS for C3 while"),
    ("knot", "K1,Z1 K1 Z1 0", "cds-cdnskey-publish: delete-dnssec"),
    ("knot", "- - - -", "Knot gives no unsigned zone"),
)


def lacks():
    """A signer says what it can't do, before anything is changed."""
    for name, text, says in LACKS:
        with folder():
            store, fake = of(name)
            with fake.installed():
                found = "; ".join(store.lacks(sets(make(), text)))
            if bool(found) != bool(says) or says not in found:
                yield f"{name}: {text}: it says {found}"


def _pdns_of(change):
    def prepare(fake, keys):
        fake.keys.append({"key": keys["K1"], "active": True, "published": True})
        change(fake)

    return prepare


def _instead(**answers):
    return _pdns_of(lambda it: it.instead.update(answers))


def _knot_of(**times):
    def prepare(fake, keys):
        fake.does(["keymgr", ZONE, "import-bind", str(keys["K1"].file.path)])
        for key in fake.keys.values():
            key.update(publish=1, active=1)
            key.update({name.replace("_", "-"): at for name, at in times.items()})

    return prepare


def _setting(section, *rows):
    def prepare(fake, _):
        fake.conf[section] = list(rows)

    return prepare


def _status(text, policy=False):
    def prepare(fake, _):
        fake.status, fake.policy = text, policy

    return prepare


FIRST = "K1,Z1 K1 Z1 -"
# What is wrong with a database: how it comes to be so, what is asked for, and what is said.
WRONG = (
    ("pdns", _pdns_of(lambda it: setattr(it, "version", "9")), FIRST, "a line that isn't known"),
    ("pdns", _pdns_of(lambda it: setattr(it, "zone", "example.net")), FIRST, "No such zone"),
    ("pdns", _pdns_of(lambda it: setattr(it, "direct", "no")), "K1,Z1 K1 Z1 K1",
     "only with direct-dnskey=yes"),
    ("pdns", _pdns_of(lambda it: it.metadata.append("PUBLISH-CDNSKEY")), FIRST,
     "CDS of its own, by PUBLISH-CDNSKEY: 'pdnsutil unset-publish-cds"),
    ("pdns", _pdns_of(lambda it: setattr(it, "default", "2")), FIRST, "by default-publish-cds:"),
    ("pdns", _pdns_of(lambda it: setattr(it, "fails_at", 1)), FIRST, "database is locked"),
    ("pdns", _pdns_of(lambda it: setattr(it, "fails_at", 5)), FIRST, "database is locked"),
    ("pdns-api", _pdns_of(lambda it: setattr(it, "lacks", ("dnskey",))), FIRST, "isn't known"),
    ("pdns-api", _pdns_of(lambda it: setattr(it, "lacks", ("published",))), FIRST, "isn't known"),
    ("pdns-api", _pdns_of(lambda it: setattr(it, "zone", "example.net")), FIRST, "has no zone"),
    ("pdns-api", _pdns_of(lambda it: setattr(it, "presigned", True)), FIRST, "presigned"),
    ("pdns-api", _pdns_of(lambda it: setattr(it, "direct", "no")), "K1,Z1 K1 Z1 K1",
     "only with direct-dnskey=yes"),
    ("pdns-api", _pdns_of(lambda it: it.metadata.append("PUBLISH-CDNSKEY")), FIRST,
     "CDS of its own, by PUBLISH-CDNSKEY: 'pdnsutil unset-publish-cds"),
    ("pdns-api", _pdns_of(lambda it: setattr(it, "default", "2")), FIRST,
     "by default-publish-cds:"),
    ("pdns-api", _pdns_of(lambda it: setattr(it, "fails_at", 1)), FIRST, "database is locked"),
    ("pdns-api", _pdns_of(lambda it: setattr(it, "fails_at", 5)), FIRST, "database is locked"),
    ("pdns-api", _instead(GET=(200, b"<html>")), FIRST, "no JSON"),
    ("pdns-api", _instead(GET=(200, b'[{"id": "exa')), FIRST, "no JSON"),
    ("pdns-api", _instead(GET=(200, b"{}")), FIRST, "has no zone"),
    ("pdns-api", _instead(GET=(200, b'[{"name": "x"}]')), FIRST, "isn't known"),
    ("pdns-api", _instead(POST=(404, b"Not Found")), FIRST, "404"),
    ("knot", _knot_of(retire_active=9), FIRST, "Knot rolls"),
    ("knot", _knot_of(pre_active=9), FIRST, "Knot rolls"),
    ("knot", _setting("policy[m]", "policy[m].manual = off"), FIRST,
     "has to have manual: on, cds-cdnskey-publish: rollover"),
    ("knot", _setting("template[default]", "template[default].dnssec-policy = m"), FIRST,
     "Knot doesn't sign example.com."),
    ("knot", lambda it, _: setattr(it, "fails_at", 3), FIRST, "database is locked"),
    ("bind-inline", _status("key maintenance: none"), FIRST, "named doesn't sign example.com"),
    ("bind-inline", _status("key maintenance: automatic", True), FIRST, "and no dnssec-policy"),
    ("bind-inline", lambda it, _: setattr(it, "fails_at", 2), FIRST, "database is locked"),
)


def wrong():
    """A database that isn't as it has to be: the signer stops, and says why. After it is mended the
    same ends well."""
    for name, prepare, text, says in WRONG:
        with folder():
            keys = make()
            known, (store, fake) = list(keys.values()), of(name)
            prepare(fake, keys)
            said = ""
            with fake.installed():
                try:
                    for step in steps(store, known, sets(keys, text)):
                        step.run()
                except Failure as failure:
                    said = str(failure)
                if says not in said:
                    yield f"{name}: {says}: it says {said!r}"
                if fake.fails_at is None:
                    continue
                fake.fails_at = None
                for step in steps(store, known, sets(keys, text)):
                    step.run()
                left = list(store.now(known).differences(sets(keys, text)))
                if left:
                    yield f"{name}: {says}: after it {left}"


def private():
    """Files of keys keep their mode, and a key comes into Knot with times that never come."""
    with folder():
        keys = make()
        store, fake = of("bind-inline")
        path = keys["K1"].file.private
        path.chmod(0o640)
        Path(".Kexample.com.+013+00001.private.draft").touch()
        with fake.installed():
            for step in steps(store, list(keys.values()), sets(keys, FIRST)):
                step.run()
        if path.stat().st_mode & 0o777 != 0o640 or list(Path().glob(".K*")):
            yield "bind-inline: a key file has another mode, or a draft is left"
    with folder():
        keys = make()
        store, fake = of("knot")
        with fake.installed():
            todo = steps(store, [], sets(keys, FIRST))
            todo[0].run()
            if store.now([]).keys:
                yield "knot: a key is used as soon as it is imported"


# How many syncs named is behind the times of its keys, and what is said in the end.
BEHIND = ((0, ""), (1, ""), (4, ""), (10**6, "doesn't give example.com as its keys have it"))


def behind():
    """An act waits until named gives what its keys' times ask for, and not for ever."""
    for count, says in BEHIND:
        patience = 0.1 if says else 60
        with folder(), mock.patch.multiple(inline, PAUSE=0.001, PATIENCE=patience):
            keys = make()
            store, fake = of("bind-inline")
            known, wanted = list(keys.values()), sets(keys, "K1,Z1 K1 Z1 K1")
            with fake.installed():
                _run(steps(store, known, wanted))
                fake.behind = count
                wanted = sets(keys, FIRST)
                said = fault_of(lambda: _run(steps(store, known, wanted)))
                left = [] if says else list(store.given().differences(wanted))
            if left or bool(said) != bool(says) or says not in said or says and "CDS" not in said:
                yield f"named is {count} syncs behind: {left} {said!r}"


NAMES = ("-x.example.", "0/25.2.0.192.in-addr.arpa.", "a\\.b.example.", ".")


def names():
    """A zone's name never becomes an option of a tool."""
    args = Namespace(keys=["."], SCRIPT="z.script", signer_config=None, zone_file="zone")
    makers = (lambda it: Pdnsutil(it, None), lambda it: Knot(it, None),
              lambda it: InlineSigner(it, args))
    for zone, maker in itertools.product(NAMES, makers):
        if bool(fault_of(lambda: maker(zone))) != zone.startswith("-"):
            yield f"a zone {zone} by {maker}"


CHECKS = (courses, lacks, wrong, private, behind, names, *hooks_and_apis.CHECKS,
          *adaptor_acts.CHECKS)
COUNT = sum(2 * len(it) - 2 for it in COURSES.values()) + len(LACKS) + len(WRONG) \
    + len(BEHIND) + hooks_and_apis.COUNT + adaptor_acts.COUNT


def faults():
    """What signers that run do otherwise than they should."""
    return [fault for check in CHECKS for fault in check()]


if __name__ == "__main__":
    print(*faults(), f"{COUNT} rows", sep="\n")
