"""Knot DNS signs a zone whose policy is manual: `keymgr` gives each key its times. A key is in the
DNSKEY set from `publish` on, and signs from `active` on; a KSK that is `ready`, and not active yet,
signs too, and CDS is for it. A time of 0 never comes.

The policy has to have `manual: on` and `cds-cdnskey-publish: rollover`."""

from __future__ import annotations

import json
import re
import shutil
from pathlib import Path
from typing import Any, Callable, Iterable, Iterator, Mapping

from ..errors import UNAVAILABLE, Failure
from . import DELETION, Key, Sets
from .daemon import SignerStep, is_here, said

# A moment that is over, and the times of a key that mean the others, for each of its uses.
PAST, NEVER = "1", "0"
TIMES = ("pre-active", "publish", "ready", "active", "retire-active", "retire", "post-active",
         "revoke", "remove")
ODD = ("pre-active", "retire-active", "post-active", "revoke")
# Until a key has its times, it has those of its file: BIND's form of a day that never comes.
FAR = "20991231000000"
TIMED = re.compile(r"^(Publish|Activate|Inactive|Delete|Revoke): .*\n", re.MULTILINE)
SETTING = re.compile(r"[\w.-]+(?:\[[^]]*\])?\.(?P<item>[\w-]+) = (?P<value>.*)")
ROW = re.compile(r"^\[[^]]*\] \S+ (\d+) (\S+) ", re.MULTILINE)
WANTED = {"manual": "on", "cds-cdnskey-publish": "rollover"}


class KnotKey:
    """A key that Knot has."""

    def __init__(self, listed: Mapping[str, Any], data: str, now: float) -> None:
        self.id, self.key = listed["id"], Key.of(data)
        self.is_ksk, self.is_zsk = listed["ksk"], listed["zsk"]
        self.is_public_only = listed["public-only"]
        self.times = {name: int(listed[name]) for name in TIMES}
        self.now = now

    def is_past(self, name: str) -> bool:
        return 0 < self.times[name] <= self.now

    @property
    def is_odd(self) -> bool:
        """Whether it has times of a roll of Knot's own."""
        return any(self.times[it] for it in ODD)

    @property
    def is_published(self) -> bool:
        return self.is_past("publish") and not self.is_past("remove")

    @property
    def is_active(self) -> bool:
        return self.is_past("active") and not (self.is_past("retire") or self.is_past("remove"))

    @property
    def is_ready(self) -> bool:
        return self.is_ksk and self.is_past("ready") and not self.is_past("active")

    @property
    def signs(self) -> bool:
        return self.is_active or self.is_ready and self.is_published


class Knot:
    """Knot DNS, with the settings of a file."""

    name, options = "knot", ()

    def __init__(self, origin: str, config: str | None,
                 clock: Callable[[], float] | None = None) -> None:
        import time

        self.zone = origin
        self.config = ["-c", config] if config else []
        self.clock = clock or time.time
        # The record of each key, by its number there: that never changes.
        self.records: dict[str, str] = {}
        if origin.startswith("-"):
            raise Failure(f"keymgr takes {origin} for an option")

    def keymgr(self, *words: str) -> tuple[str, ...]:
        return ("keymgr", *self.config, self.zone, *words)

    def knotc(self, *words: str) -> tuple[str, ...]:
        return ("knotc", *self.config, *words)

    # What is there

    def held(self) -> list[KnotKey]:
        """The keys of the store."""
        text = said(self.keymgr("list", "-j"))
        try:
            listed = json.loads(text) if text.strip() else []
            return [KnotKey(it, self._record(it["id"]), self.clock()) for it in listed]
        except (ValueError, KeyError, TypeError) as error:
            raise Failure(f"keymgr list -j: it says what isn't known: {error}",
                          UNAVAILABLE) from None

    def _record(self, number: str) -> str:
        """The data of a key's DNSKEY record."""
        if number not in self.records:
            text = said(self.keymgr("dnskey", number))
            match = re.search(r"\sDNSKEY\s+(\d+ 3 \d+ .+)", text)
            if match is None:
                raise Failure(f"keymgr dnskey {number}: no DNSKEY record", UNAVAILABLE)
            self.records[number] = match[1]
        return self.records[number]

    def now(self, known: list[Key]) -> Sets:
        names = {key: key for key in known}
        of = [(it, names.get(it.key, it.key)) for it in self.held()]
        odd = [str(key) for it, key in of if it.is_odd]
        if odd:
            raise Failure(f"Knot rolls {' '.join(odd)} itself: let that end, and set manual: on",
                          UNAVAILABLE)

        def those(is_so: Callable[[KnotKey], bool]) -> frozenset[Key]:
            return frozenset(key for it, key in of if is_so(it))

        zone = those(lambda it: it.is_zsk and (it.is_active or self._signs_as_ready(it, of)))
        return Sets(those(lambda it: it.is_published),
                    those(lambda it: it.is_ksk and it.signs), zone,
                    those(lambda it: it.is_ready))

    @staticmethod
    def _signs_as_ready(held: KnotKey, of: list[tuple[KnotKey, Key]]) -> bool:
        """A CSK that is ready signs the zone, unless another key of its algorithm does."""
        others = (it for it, key in of if it.is_zsk and it.is_active
                  and key.algorithm == held.key.algorithm)
        return held.is_ready and held.is_published and not any(others)

    def fits(self, key: Key) -> bool:
        held = (it for it in self.held() if it.key == key and not it.is_public_only)
        return is_here(key.file) or any(held)

    def lacks(self, wanted: Sets) -> Iterator[str]:
        if Key(DELETION) in wanted.cds:
            yield "Knot asks the parent to remove the DS set only by cds-cdnskey-publish: " \
                "delete-dnssec in knot.conf"
        if not wanted.zone:
            yield "Knot gives no unsigned zone: turn dnssec-signing off"
        for key in sorted(wanted.signers, key=str):
            if not key.is_sep:
                yield f"Knot signs the DNSKEY set only by keys with the SEP flag, not by {key}"
        for key in sorted(wanted.zone - wanted.signers, key=str):
            if key.is_sep:
                yield f"Knot can't sign the zone by {key} without signing the DNSKEY set by it"
        for key in sorted(wanted.cds & wanted.zone, key=str):
            same = [it for it in wanted.zone - {key} if it.algorithm == key.algorithm]
            if same:
                yield f"Knot can't give CDS for {key} while it signs the zone beside {same[0]}"

    def ttls(self) -> dict[str, int]:
        """The DNSKEY set has the TTL of the policy, or that of the SOA record; CDS has 0."""
        text = said(self.knotc("zone-read", self.zone))
        rows = [(int(ttl), kind) for ttl, kind in ROW.findall(text)]
        soa = [ttl for ttl, kind in rows if kind == "SOA"]
        if not soa:
            raise Failure(f"Knot has not loaded {self.zone}: have it loaded with dnssec-signing: "
                          "off, then turn that on", UNAVAILABLE)
        policy = self.settings().get("dnskey-ttl")
        dnskey = [ttl for ttl, kind in rows if kind == "DNSKEY"]
        least = [_seconds(policy)] if policy else soa
        return {"dnskey": max([*dnskey, *least]), "zone": max(ttl for ttl, _ in rows)}

    # The settings

    def settings(self) -> dict[str, str]:
        """The settings of the zone's policy."""
        return self._read(f"policy[{self._of_zone().get('dnssec-policy', 'default')}]")

    def _of_zone(self) -> dict[str, str]:
        """The settings of the zone, with those of its template."""
        zone = self._read(f"zone[{self.zone}]")
        template = self._read(f"template[{zone.get('template', 'default')}]")
        return {**template, **zone}

    def _read(self, section: str) -> dict[str, str]:
        try:
            text = said(self.knotc("conf-read", section))
        except Failure as failure:
            if "not exist" in str(failure) or "invalid identifier" in str(failure):
                return {}
            raise
        found = filter(None, map(SETTING.fullmatch, text.splitlines()))
        return {it["item"]: it["value"].strip('"') for it in found}

    def _expect_policy(self) -> None:
        """The zone is signed, by a policy that leaves the keys to keymgr."""
        has, zone = self.settings(), self._of_zone()
        if zone.get("dnssec-signing") != "on":
            raise Failure(f"Knot doesn't sign {self.zone}: it has to have dnssec-signing: on",
                          UNAVAILABLE)
        wrong = [f"{name}: {value}" for name, value in WANTED.items() if has.get(name) != value]
        if wrong:
            raise Failure(f"the policy of {self.zone} in knot.conf has to have "
                          f"{', '.join(wrong)}", UNAVAILABLE)

    # What has to be done

    def publish(self, now: Sets, wanted: Sets, folder: Path) -> Iterator[SignerStep]:
        self._expect_policy()
        held = {it.key: it for it in self.held()}
        every = wanted.keys | {key for key in wanted.cds if key.file}
        for key in _sorted(every - held.keys()):
            yield self._imported(key, folder)
        rises = [key for key in _sorted(every) if self._uses(key, wanted) > self._uses(key, now)]
        falls = [key for key in _sorted(every | now.keys | now.cds) if key not in rises]
        for key in [*rises, *falls]:
            if self._uses(key, wanted) != self._uses(key, now):
                yield self._timed(key, wanted)

    @staticmethod
    def _uses(key: Key, sets: Sets) -> tuple[bool, ...]:
        return (key in sets.zone, key in sets.signers, key in sets.dnskey, key in sets.cds)

    def _imported(self, key: Key, folder: Path) -> SignerStep:
        """A key comes in by a copy of its file with times that never come: it isn't used before it
        has times of its own."""
        file = key.at_hand()
        path = folder / file.path.name
        words = self.keymgr("import-bind", str(path))

        def late() -> tuple[str, ...]:
            shutil.copyfile(file.path, path)
            text = TIMED.sub("", file.private.read_text(encoding="ascii"))
            path.with_suffix(".private").write_text(
                f"{text}Publish: {FAR}\nActivate: {FAR}\n", encoding="ascii")
            return words

        return SignerStep(words, late)

    def _timed(self, key: Key, wanted: Sets) -> SignerStep:
        is_used = key in wanted.signers or key in wanted.zone
        has_cds = key in wanted.cds
        times = {"publish": PAST if key in wanted.dnskey else NEVER,
                 "ready": PAST if has_cds else NEVER,
                 "active": PAST if is_used and not has_cds else NEVER,
                 "retire": NEVER, "remove": NEVER}
        if key.is_sep:
            times["zsk"] = "yes" if key in wanted.zone else "no"
        given = [f"{name}={value}" for name, value in times.items()]

        def late() -> tuple[str, ...]:
            ids = [it.id for it in self.held() if it.key == key]
            if not ids:
                raise Failure(f"Knot has lost {key}", UNAVAILABLE)
            return self.keymgr("set", ids[0], *given)

        return SignerStep(self.keymgr("set", f"ID of {key}", *given), late)

    def renew(self) -> Iterator[SignerStep]:
        yield SignerStep(self.knotc("-b", "zone-sign", self.zone))


def _seconds(text: str) -> int:
    units = {"s": 1, "m": 60, "h": 3600, "d": 86400, "w": 604800, "M": 2592000, "y": 31536000}
    return sum(int(number) * units[unit or "s"]
               for number, unit in re.findall(r"(\d+)([smhdwMy]?)", text))


def _sorted(keys: Iterable[Key]) -> list[Key]:
    return sorted(keys, key=str)
