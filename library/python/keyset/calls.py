"""The calls of `domain`'s `KeySet`, each as a line of a script."""

from __future__ import annotations

import math
import time
from abc import ABC, abstractmethod
from typing import Callable

from .errors import WrongArgument
from .lines import FIELDS
from .rolls import RollType
from .values import Accepted, References


class Calls(ABC):
    """A method for each call. An accepted one gives what it asks for, and its number.

    Moments are whole seconds since 1970. Without a moment a call takes that of the clock. A report
    rounds it up, and is made once the clock has reached it; any other call rounds it down.
    `WrongArgument`: an argument doesn't fit in a line."""

    @abstractmethod
    def call(self, line: str) -> Accepted:
        """Makes a call, a line of a script, and gives what it asks for."""

    def add_key_ksk(
        self,
        pubref: str,
        privref: str | None = None,
        *,
        algorithm: int,
        key_tag: int,
        creation: float | None = None,
        available: bool = True,
    ) -> Accepted:
        """Adds a KSK. A key that isn't available may not come in by a roll."""
        private = _private(privref)
        return self._add("add-ksk", pubref, private, algorithm, key_tag, creation, available)

    def add_key_zsk(
        self,
        pubref: str,
        privref: str | None = None,
        *,
        algorithm: int,
        key_tag: int,
        creation: float | None = None,
        available: bool = True,
    ) -> Accepted:
        """Adds a ZSK."""
        private = _private(privref)
        return self._add("add-zsk", pubref, private, algorithm, key_tag, creation, available)

    def add_key_csk(
        self,
        pubref: str,
        privref: str | None = None,
        *,
        algorithm: int,
        key_tag: int,
        creation: float | None = None,
        available: bool = True,
    ) -> Accepted:
        """Adds a CSK."""
        private = _private(privref)
        return self._add("add-csk", pubref, private, algorithm, key_tag, creation, available)

    def add_public_key(
        self,
        pubref: str,
        *,
        algorithm: int,
        key_tag: int,
        creation: float | None = None,
        available: bool = True,
    ) -> Accepted:
        """Adds a key of another signer."""
        return self._add("add-public", pubref, "", algorithm, key_tag, creation, available)

    def _add(
        self,
        word: str,
        pubref: str,
        private: str,
        algorithm: int,
        key_tag: int,
        creation: float | None,
        available: bool,
    ) -> Accepted:
        return self._make(
            word,
            reference("pubref", pubref),
            private,
            field("algorithm", "ALG", algorithm),
            field("key_tag", "TAG", key_tag),
            field("creation", "TIME", down(creation)),
            _yes("available", available),
        )

    def delete_key(self, pubref: str) -> Accepted:
        """Deletes a key whose roles are all stale."""
        return self._make("delete", reference("pubref", pubref))

    def set_decoupled(self, pubref: str, value: bool) -> Accepted:
        """Says whether the key is apart from your key storage."""
        return self._make("set-decoupled", reference("pubref", pubref), _yes("value", value))

    def set_present(self, pubref: str, value: bool, now: float | None = None) -> Accepted:
        """Sets whether the key is in the DNSKEY set."""
        moment = field("now", "TIME", down(now))
        return self._make("set-present", reference("pubref", pubref), _yes("value", value), moment)

    def set_signer(self, pubref: str, value: bool) -> Accepted:
        """Sets whether the key signs."""
        return self._make("set-signer", reference("pubref", pubref), _yes("value", value))

    def set_at_parent(self, pubref: str, value: bool) -> Accepted:
        """Sets whether the key is to have a DS."""
        return self._make("set-at-parent", reference("pubref", pubref), _yes("value", value))

    def set_stale(self, pubref: str) -> Accepted:
        """Takes the key out of all sets, as an old one."""
        return self._make("set-stale", reference("pubref", pubref))

    def set_visible(self, pubref: str, moment: int) -> Accepted:
        """Sets the stamp since when all servers have the key."""
        return self._stamp("set-visible", pubref, moment)

    def set_ds_visible(self, pubref: str, moment: int) -> Accepted:
        """Sets the stamp since when all servers of the parent have its DS."""
        return self._stamp("set-ds-visible", pubref, moment)

    def set_rrsig_visible(self, pubref: str, moment: int) -> Accepted:
        """Sets the stamp since when all servers have its signatures."""
        return self._stamp("set-rrsig-visible", pubref, moment)

    def _stamp(self, word: str, pubref: str, moment: int) -> Accepted:
        return self._make(word, reference("pubref", pubref), field("moment", "TIME", moment))

    def start_roll(
        self,
        roll: RollType,
        old: References = (),
        new: References = (),
        now: float | None = None,
    ) -> Accepted:
        """Starts a roll from the old keys to the new ones."""
        lists = references("old", old), references("new", new)
        return self._make("start", _roll(roll), *lists, field("now", "TIME", down(now)))

    def propagation1_complete(
        self, roll: RollType, ttl: int, now: float | None = None
    ) -> Accepted:
        """Reports that what the start changed has spread, and that caches may hold older data for
        `ttl` seconds."""
        return self._report("report1", roll, ttl, now)

    def cache_expired1(self, roll: RollType, now: float | None = None) -> Accepted:
        """Goes on, if old data has left the caches; else raises `Wait`."""
        return self._make("wait1", _roll(roll), field("now", "TIME", down(now)))

    def propagation2_complete(
        self, roll: RollType, ttl: int, now: float | None = None
    ) -> Accepted:
        """The same report for what the first wait changed."""
        return self._report("report2", roll, ttl, now)

    def cache_expired2(self, roll: RollType, now: float | None = None) -> Accepted:
        """The same wait for the second report."""
        return self._make("wait2", _roll(roll), field("now", "TIME", down(now)))

    def roll_done(self, roll: RollType) -> Accepted:
        """Ends the roll, once its last actions are done."""
        return self._make("done", _roll(roll))

    def abort_roll(self, roll: RollType) -> Accepted:
        """Ends the roll early, before its first report."""
        return self._make("abort", _roll(roll))

    def _report(self, word: str, roll: RollType, ttl: int, now: float | None) -> Accepted:
        fields = _roll(roll), field("ttl", "TTL", ttl)
        return self._make(word, *fields, field("now", "TIME", up(now)))

    def _make(self, *words: str) -> Accepted:
        return self.call(" ".join(filter(None, words)))


def field(name: str, form: str, value: object) -> str:
    """An argument as a field of a line."""
    text = str(value)
    fits, wanted = FIELDS[form]
    if isinstance(value, bool) or not fits(text):
        raise WrongArgument(name, value, wanted)
    return text


def reference(name: str, value: str) -> str:
    """An argument as the reference of a key."""
    if not isinstance(value, str):
        raise WrongArgument(name, value, "a text")
    return field(name, "REF", value)


def references(name: str, values: References) -> str:
    """An argument as references of keys. A text isn't a list of them."""
    if not isinstance(values, (list, tuple)):
        raise WrongArgument(name, values, "a list of references")
    return ",".join(reference(name, value) for value in values) or "-"


def _private(privref: str | None) -> str:
    return "-" if privref is None else reference("privref", privref)


def _roll(roll: RollType) -> str:
    if not isinstance(roll, RollType):
        raise WrongArgument("roll", roll, "a RollType")
    return roll.value


def _yes(name: str, value: bool) -> str:
    if not isinstance(value, bool):
        raise WrongArgument(name, value, "True or False")
    return "yes" if value else "no"


def down(now: float | None) -> int:
    return _whole(math.floor, time.time() if now is None else now)


def up(now: float | None) -> int:
    """A report's moment. If none is given, this returns once the clock has reached it."""
    moment = _whole(math.ceil, time.time() if now is None else now)
    if now is None:
        time.sleep(max(0, moment - time.time()))
    return moment


def _whole(rounded: Callable[[float], int], moment: float) -> int:
    try:
        return rounded(moment)
    except (ValueError, OverflowError):
        raise WrongArgument("now", moment, FIELDS["TIME"][1]) from None
