"""Whatever else signs: a command of the shell gets each verb as `$1`, and with its sets as JSON on
standard input. To `now`, `lacks` and `ttls` it answers by JSON: what is there, what it can't do,
and the highest TTLs."""

from __future__ import annotations

import json
from pathlib import Path
from typing import Any, Iterator

from ..errors import UNAVAILABLE, Failure
from . import SAID, Key, Sets
from .daemon import SignerStep

# For how many seconds the command may work on one verb.
PATIENCE = 3600


class Hook:
    """A command that is asked by JSON on its standard input."""

    name, options = "hook", ()

    def __init__(self, origin: str, command: str) -> None:
        self.zone, self.command = origin, command.strip()

    def _asking(self, verb: str, sets: Sets | None = None) -> SignerStep:
        asked: dict[str, object] = {"verb": verb, "zone": self.zone}
        if sets is not None:
            asked["keys"] = [self._key(key, sets) for key in sorted(
                sets.keys | sets.cds, key=lambda it: (str(it), it.data))]
        words = ("sh", "-c", self.command, "hook", verb)
        return SignerStep(words, stdin=json.dumps(asked), seconds=PATIENCE)

    @staticmethod
    def _key(key: Key, sets: Sets) -> dict[str, object]:
        file = key.file
        return {
            "key": str(key), "record": key.data, "tag": key.tag, "algorithm": key.algorithm,
            "file": str(file.path.resolve()) if file else None,
            "private": file.reference if file else None,
            **{kind: key in getattr(sets, kind) for kind in SAID},
        }

    def _answer(self, verb: str, sets: Sets | None = None) -> dict[str, Any]:
        text = self._asking(verb, sets).run()
        try:
            answer = json.loads(text)
            if not isinstance(answer, dict):
                raise ValueError("no object")
            return answer
        except ValueError as error:
            raise Failure(f"{self.command}: {verb}: what it says is no JSON: {error}",
                          UNAVAILABLE) from None

    def now(self, known: list[Key]) -> Sets:
        answer, names = self._answer("now"), {key: key for key in known}
        try:
            of = {kind: frozenset(names.get(it, it) for it in map(Key.of, answer[kind]))
                  for kind in SAID}
        except (KeyError, TypeError, ValueError) as error:
            raise Failure(f"{self.command}: now: it lacks sets of records: {error!r}",
                          UNAVAILABLE) from None
        return Sets(**of)

    def lacks(self, wanted: Sets) -> Iterator[str]:
        return iter(map(str, self._answer("lacks", wanted).get("lacks", ())))

    def ttls(self) -> dict[str, int]:
        answer = self._answer("ttls")
        ttls = {kind: answer.get(kind) for kind in ("dnskey", "zone")}
        valid = {kind: it for kind, it in ttls.items() if type(it) is int and 0 <= it < 2**32}
        if len(valid) != len(ttls):
            raise Failure(f"{self.command}: ttls: it says {ttls}", UNAVAILABLE)
        return valid

    def fits(self, key: Key) -> bool:
        """It knows where its keys are."""
        return True

    def publish(self, now: Sets, wanted: Sets, _: Path) -> Iterator[SignerStep]:
        if now != wanted:
            yield self._asking("publish", wanted)

    def renew(self) -> Iterator[SignerStep]:
        yield self._asking("renew")
