"""What is so after each call of a script, by the programs.

A program runs a whole script. Asked once for each call it would take the square of the script's
length. So the script is cut into pieces where no roll is in progress: there adds and setters can
make its keys anew, as they are. What a piece publishes doesn't depend on names, tags, moments and
TTLs. With numbers for names, and 0 for moments and TTLs, most rolls of a zone are the same piece,
and that is asked once."""

from __future__ import annotations

from dataclasses import dataclass
from typing import Callable, Dict, Iterable, Iterator, List, Sequence, Set, Tuple, cast

from . import programs
from .lines import FORMS
from .members import KeyMembers, RoleMembers, Status, roles_of
from .programs import ProgramSession

ZONE = "zone example"
# The most keys that may have tags of their own.
MOST = 65535


@dataclass(frozen=True)
class State:
    """What is so after a call. Roles that never were in use may be missing."""

    published: Dict[str, List[str]]
    roles: List[Tuple[int, RoleMembers]]

    @classmethod
    def of(cls, status: Status, name: Callable[[str], str]) -> State:
        sets = cast(Dict[str, List[str]], status["published"])
        return cls({kind: sorted(map(name, keys)) for kind, keys in sets.items()}, roles_of(status))


# The lines that make a key as it is, with `{0}` for its number.
KeyLines = Tuple[str, ...]


class Mismatch(Exception):
    """A piece can't be asked by itself: lines can't make its keys, or it is answered otherwise."""


@dataclass(frozen=True)
class Piece:
    """What is so after each line of a piece, and how its keys are made after the last one."""

    statuses: List[Status]
    keys: Dict[int, KeyLines]


class Pieces:
    """Goes through a script, piece by piece."""

    def __init__(self) -> None:
        self._keys: Dict[str, KeyLines] = {}
        self._known: Dict[Tuple[str, ...], Piece] = {}
        self._last = State({kind: [] for kind in ("ds", "dnskey", "signers", "zone")}, [])

    def follow(self, piece: Sequence[Tuple[str, str]]) -> Iterator[State]:
        """The state after each line of a piece. The lines come with their answers."""
        line = piece[0][0]
        word, name, *_ = line.split(" ")
        if word.startswith("add-"):
            self._keys[name] = (_add(line),)
            yield self._last
        elif word == "delete":
            del self._keys[name]
            yield self._last
        else:
            yield from self._states(piece)

    def _states(self, piece: Sequence[Tuple[str, str]]) -> Iterator[State]:
        numbers = Numbers(self._keys)
        before = [line.format(at) for at, key in enumerate(self._keys.values()) for line in key]
        lines = [numbers.plain(line) for line, _ in piece]
        asked = (*before, "", *lines)
        if asked not in self._known:
            adds = [*(key[0] for key in self._keys.values()), *numbers.adds]
            self._known[asked] = _piece_of([ZONE, *before], lines, [it for _, it in piece], adds)
        found = self._known[asked]
        for status in found.statuses:
            self._last = State.of(status, numbers.name)
            yield self._last
        self._keys = {numbers.name(f"K{at}"): key for at, key in found.keys.items()}


class Numbers:
    """Numbers for the names of keys. A key that is added later has a higher one."""

    def __init__(self, names: Iterable[str]) -> None:
        self._names = list(names)
        self._of = {name: at for at, name in enumerate(self._names)}
        self.adds: List[str] = []

    def name(self, plain: str) -> str:
        return self._names[int(plain[1:])]

    def plain(self, line: str) -> str:
        """The line with numbers for names, and 0 for moments and TTLs."""
        word, *fields = line.split(" ")
        if word.startswith("add-"):
            self._of[fields[0]] = at = len(self._names)
            self._names.append(fields[0])
            self.adds.append(_add(line))
            return self.adds[-1].format(at)
        named = zip(FORMS[word].split(), fields)
        return " ".join([word, *(self._field(name, field) for name, field in named)])

    def _field(self, name: str, field: str) -> str:
        if name in ("REF", "OLD", "NEW") and field != "-":
            return ",".join(f"K{self._of[it]}" for it in field.split(","))
        return "0" if name in ("TIME", "TTL") else field


def _add(line: str) -> str:
    """The line of an add, for a key of any number."""
    word, *fields = line.split(" ")
    plain = {"REF": "K{0}", "PRIV": "-", "TAG": "{0}", "TIME": "0"}
    named = zip(FORMS[word].split(), fields)
    return " ".join([word, *(plain.get(name, field) for name, field in named)])


def _piece_of(
    before: List[str], lines: List[str], replies: List[str], adds: List[str]
) -> Piece:
    """What the programs say of a piece after the lines that make its keys. `Mismatch`: they answer
    it otherwise than in its script."""
    if len(adds) > MOST or programs.answers([*before, *lines])[len(before) - 1 : -2] != replies:
        raise Mismatch
    counts = range(1, len(lines) + 1)
    statuses = [programs.status([*before, *lines[:count]]) for count in counts]
    last = statuses[-1]
    keys = {int(key["reference"][1:]): key for key in last["keys"]}
    left = {at: (adds[at], *_setters(key)) for at, key in keys.items()}
    if not last["rolls"]:
        again = programs.status([ZONE, *(it.format(at) for at, key in left.items() for it in key)])
        if (again["published"], roles_of(again)) != (last["published"], roles_of(last)):
            raise Mismatch
    return Piece(statuses, left)


def _setters(key: KeyMembers) -> Iterator[str]:
    """What makes a new key as it is."""
    role = key["roles"][0]
    for is_so, line in (
        (role["old"], "set-stale K{0}"),
        (role["present"], "set-present K{0} yes 0"),
        (role["signer"], "set-signer K{0} yes"),
        (role["at_parent"], "set-at-parent K{0} yes"),
        (key["visible"] is not None, "set-visible K{0} 0"),
        (key["ds_visible"] is not None, "set-ds-visible K{0} 0"),
        (key["rrsig_visible"] is not None, "set-rrsig-visible K{0} 0"),
    ):
        if is_so:
            yield line


def cut(lines: Sequence[str], replies: Sequence[str]) -> Iterator[List[Tuple[str, str]]]:
    """The lines with their answers in pieces: a piece ends if no roll is in progress after it."""
    piece: List[Tuple[str, str]] = []
    rolls: Set[str] = set()
    for line, reply in zip(lines, replies):
        piece.append((line, reply))
        word, first, *_ = line.split(" ")
        if word == "start":
            rolls.add(first)
        elif word in ("done", "abort"):
            rolls.discard(first)
        if not rolls:
            yield piece
            piece = []
    if piece:
        yield piece


def follow(lines: Sequence[str]) -> Iterator[State]:
    """The state after each call of a script, all of whose lines are accepted."""
    pieces, done = Pieces(), 1
    for piece in cut(lines[1:], programs.answers(lines)[:-2]):
        try:
            found = list(pieces.follow(piece))
        except Mismatch:
            break
        yield from found
        done += len(piece)
    else:
        return
    session = ProgramSession(*lines[:done])
    for line in lines[done:]:
        session.call(line)
        yield State.of(session.status(), str)
