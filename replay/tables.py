"""What the calls of a script answer, by the tables of the rolls.

    python3 tables.py < SCRIPT

This is written only from the tables, and shares no text with the key set that is proved or with the
original. A roll is one row of ROLLS, which has the words that pick roles, and the code below has no
case for any roll. The word 'any' picks the first state of a key of any kind, a public key included.
"""

import sys

from judge import NEW_SET, Position, Report, chain_line
from keyset.rolls import CALLS, ROLLS, TIMED

# Which state a word picks, by the kind of key.
ROLES = {
    "ksk": {"K": 0, "KSK": 0, "first": 0, "whole": 0, "any": 0},
    "zsk": {"Z": 0, "ZSK": 0, "first": 0, "zone": 0, "whole": 0, "any": 0},
    "csk": {"KSK": 0, "ZSK": 1, "first": 0, "zone": 0, "whole": 0, "any": 0},
    "include": {"any": 0},
}

# A phase has the name of the call that it waits for. The phase after it:
PHASES = dict(zip(CALLS[1:], CALLS[2:]))

# The setters that write a flag.
FLAG_SETTERS = ("set-present", "set-signer", "set-at-parent", "set-stale")

# The algorithms that have a name, by their numbers in IANA's registry.
ALGORITHMS = {
    "RSASHA256": 8,
    "RSASHA512": 10,
    "ECDSAP256SHA256": 13,
    "ECDSAP384SHA384": 14,
    "ED25519": 15,
    "ED448": 16,
}

# The published sets: which roles they show, and by which flag.
SETS = {
    "ds": ("KSK", "at_parent"),
    "dnskey": ("any", "present"),
    "signers": ("KSK", "signer"),
    "zone": ("ZSK", "signer"),
}

WRONG_STATE = "key is in the wrong state"
NOT_SUITED = "no suitable key present after key roll"


class Key:
    """A key: its kind, its states as sets of flags, and its stamps by name."""

    def __init__(self, kind, private, algorithm, tag, creation, available):
        self.kind, self.private, self.algorithm, self.tag = kind, private, algorithm, tag
        self.available, self.decoupled = available, False
        self.states = [set(), set()] if kind == "csk" else [set()]
        self.stamps = {"creation": creation}

    def role(self, word):
        """The state that the word picks, by its number; None if it picks none."""
        return ROLES[self.kind].get(word)


def number_of(algorithm):
    """The number of an algorithm, which a script has by its number or its name."""
    return ALGORITHMS[algorithm] if algorithm in ALGORITHMS else int(algorithm)


def is_stale(state):
    return state == {"old"}


def meets(state, condition):
    """Whether a state meets a condition."""
    flags = state | ({"stale"} if is_stale(state) else set())
    return any(
        all((word.lstrip("!") in flags) != word.startswith("!") for word in part.split())
        for part in condition.split("|")
    )


class KeySet:
    """Keys and rolls. `rolls` is the table that it follows. `lacking` is what a wait answers for a
    key without its stamp. `record` has a position for each call."""

    def __init__(self, rolls=None, lacking="refused: " + WRONG_STATE):
        self.keys, self.phases = {}, {}
        self.listed = {}  # keys by reference that an early end of a roll turns back
        self.record, self.added = [NEW_SET], {}
        self.rolls, self.lacking = rolls or ROLLS, lacking

    def picked(self, word, condition):
        """The roles that a word and a condition pick, each as a key and a number."""
        roles = [(key, key.role(word)) for key in self.keys.values()]
        return [
            (key, number)
            for key, number in roles
            if number is not None and meets(key.states[number], condition)
        ]

    def call(self, line):
        """Answers a line of a script, does what it says, and adds a position to the record."""
        refusal = self.refusal(line)
        answer = refusal if refusal else self.accepted(line)
        word, *fields = line.split(" ")
        if word.startswith("add-") and not refusal:
            self.added[fields[0]] = len(self.record)
        self.record.append(self.position(word, fields, not refusal))
        return answer

    def position(self, word, fields, accepted):
        """What the position of this call has."""
        moment = int(fields[-1]) if word == "set-present" or word in TIMED else None
        step = fields[0] if accepted and word in ("start", "wait1") else None
        report = None
        if accepted and word in ("report1", "report2"):
            report = Report(fields[0], word == "report2", int(fields[1]))
        sets = [
            frozenset((name, self.added[name]) for name in self.picked_names(*SETS[label]))
            for label in SETS
        ]
        return Position(moment, step, report, *sets)

    def refusal(self, line):
        """The answer to a line that is refused, else None. Nothing changes."""
        word, *fields = line.split(" ")
        if word.startswith("add-"):
            tag, name = int(fields[-3]), fields[0]
            if any(key.tag == tag for key in self.keys.values()):
                return "refused: Key tag already present"
            return "refused: key already exists" if name in self.keys else None
        if word == "start":
            cause = self.start_refusal(*fields[:3])
            return "refused: " + cause if cause else None
        if word in CALLS[1:]:
            phase, ttl = self.phases.get(fields[0], (None, 0))
            if phase != word:
                return "refused: wrong roll state for operation"
            return self.waits(word, fields[0], ttl, int(fields[1])) if "wait" in word else None
        if word == "abort":
            is_early = self.phases.get(fields[0], (None, 0))[0] == "report1"
            return None if is_early else "refused: wrong roll state for operation"
        return self.setter_refusal(word, self.keys.get(fields[0]))

    def setter_refusal(self, word, key):
        if key is None:
            return "refused: key not found"
        if word in ("set-signer", "set-at-parent") and key.kind == "include":
            return "refused: key has the wrong type"
        if word == "set-at-parent" and key.kind == "zsk":
            return "refused: key has the wrong type"
        if word == "delete" and not all(is_stale(state) for state in key.states):
            return "refused: key is still in use, not old"
        return None

    def start_refusal(self, roll, old, new):
        rule = self.rolls[roll]
        old, new = ([] if names == "-" else names.split(",") for names in (old, new))
        if roll in self.phases:
            return "wrong roll state for operation"
        if not all(map(rule.tolerates, self.phases)):
            return "conflicting roll is in progress"
        if cause := self.list_refusal(rule.kinds, old, new):
            return cause
        algorithms = [{self.keys[name].algorithm for name in names} for names in (old, new)]
        if rule.same_algorithms and algorithms[0] != algorithms[1]:
            return "algorithm set mismatch for non-algorithm key roll"
        return None if self.is_suited(rule, old, new) else NOT_SUITED

    def list_refusal(self, kinds, old, new):
        """What is wrong with the first key of a start that may not be listed, else None."""
        listed = set()
        for number, name in enumerate(old + new):
            key = self.keys.get(name)
            if key is None:
                return "key not found"
            if key.kind not in kinds:
                return "key has the wrong type"
            fresh = key.available and not any(key.states)
            if number >= len(old) and (not fresh or name in listed):
                return WRONG_STATE
            listed.add(name)
        return None

    def is_suited(self, rule, old, new):
        """Whether the zone would have what it needs after this start. Nothing changes."""
        before = {name: [set(state) for state in self.keys[name].states] for name in old + new}
        self.mark(rule, old, new, None)
        suited = all(self.picked(*wanted) for wanted in rule.suited)
        for name, states in before.items():
            self.keys[name].states = states
        return suited

    def mark(self, rule, old, new, now):
        """Marks the keys of a start; without a moment only their flags."""
        for name in old:
            for state in self.keys[name].states:
                state.add("old")
        for key, number, change in self.changes(rule, new):
            write(key, number, change, now)

    def changes(self, rule, new):
        """What a start writes of the new keys: each key, the number of its role, and the change."""
        for key in (self.keys[name] for name in new):
            for word, change in rule.new:
                number = key.role(word)
                if number is not None:
                    yield key, number, change

    def checked(self, word, roll):
        """The stamps that a wait reads; None for a key that lacks it."""
        stamp, roles, condition = getattr(self.rolls[roll], word)
        return [key.stamps.get(stamp) for key, _ in self.picked(roles, condition)]

    def waits(self, word, roll, ttl, now):
        stamps = self.checked(word, roll)
        if None in stamps:
            return self.lacking
        left = max((ttl - max(0, now - stamp) for stamp in stamps), default=0)
        return f"refused: wait for duration {left}s" if left > 0 else None

    def accepted(self, line):
        """Does what an accepted line says, and gives its answer."""
        word, *fields = line.split(" ")
        if word.startswith("add-"):
            self.add(word[4:], fields)
        elif word == "delete":
            del self.keys[fields[0]]
            self.forget(fields[0])
        elif word == "abort":
            return self.end_early(fields[0])
        elif word.startswith("set-"):
            if word in FLAG_SETTERS:
                self.forget(fields[0])
            self.set(word, self.keys[fields[0]], fields[1:])
        elif word == "done":
            del self.phases[fields[0]]
        else:
            return self.step(word, fields[0], fields[1:])
        return "ok"

    def add(self, kind, fields):
        name, *private, algorithm, tag, creation, available = fields
        self.keys[name] = Key(
            "include" if kind == "public" else kind,
            None if private in ([], ["-"]) else private[0],
            number_of(algorithm),
            int(tag),
            int(creation),
            available == "yes",
        )

    def set(self, word, key, fields):
        flag = word[4:].replace("-", "_")
        if word == "set-stale":
            key.states = [{"old"} for _ in key.states]
        elif word in ("set-visible", "set-ds-visible", "set-rrsig-visible"):
            key.stamps[flag] = int(fields[0])
        elif word == "set-decoupled":
            key.decoupled = fields[0] == "yes"
        else:
            for state in key.states[:1] if flag == "at_parent" else key.states:
                state.add(flag) if fields[0] == "yes" else state.discard(flag)
            if flag == "present" and fields[0] == "yes":
                key.stamps.setdefault("published", int(fields[1]))

    def step(self, word, roll, fields):
        rule, now = self.rolls[roll], int(fields[-1])
        if word == "start":
            old, new = ([] if names == "-" else names.split(",") for names in fields[:2])
            kept = [name for name in old if not any("old" in s for s in self.keys[name].states)]
            self.listed[roll] = set(kept), set(new)
            self.mark(rule, old, new, now)
            self.phases[roll] = ("report1", 0)
            return " ".join(["ok", rule.started])
        if word == "report1":
            del self.listed[roll]
        ttl = int(fields[0]) if word.startswith("report") else 0
        self.phases[roll] = (PHASES[word], ttl)
        changes = getattr(rule, word.replace("wait", "change"))
        writes = [
            (key, target, change)
            for picked, condition, change in changes
            for key, number in self.picked(picked, condition)
            for target in (range(len(key.states)) if picked == "whole" else [number])
        ]
        for key, target, change in writes:
            write(key, target, change, now)
        actions = {"wait1": rule.halfway, "wait2": rule.ended}.get(word, "")
        return " ".join(["ok", *actions.split()])

    def forget(self, name):
        """An early end no longer changes this key."""
        for names in self.listed.values():
            for listed in names:
                listed.discard(name)

    def end_early(self, roll):
        """Turns back what a start wrote: only flags, and only of keys that are still listed."""
        rule = self.rolls[roll]
        old, new = self.listed.pop(roll)
        del self.phases[roll]
        for name in old:
            for state in self.keys[name].states:
                state.discard("old")
        for key, number, change in self.changes(rule, new):
            key.states[number] -= set(change.replace("+", "").split())
        return " ".join(["ok", *rule.early.split()])

    def published(self):
        """The line of the published sets."""
        return " ".join(f"{label}={self.names(*SETS[label])}" for label in SETS)

    def names(self, word, flag):
        return ",".join(self.picked_names(word, flag)) or "-"

    def picked_names(self, word, flag):
        """The references of the keys that a word and a flag pick."""
        keys = {id(key) for key, _ in self.picked(word, flag)}
        return sorted(name for name, key in self.keys.items() if id(key) in keys)


def write(key, number, change, now):
    """Writes the flags and stamps of a change."""
    for word in change.split():
        if word[0] == "+":
            key.states[number].add(word[1:])
        elif word[0] == "-":
            key.states[number].discard(word[1:])
        elif now is not None:
            key.stamps[word] = now


def answers(script, keyset=None):
    """The answers to a script's lines, then the line of its published sets and the chain line."""
    keyset = keyset or KeySet()
    lines = [keyset.call(line) for line in script[1:]]
    return [*lines, keyset.published(), chain_line(keyset.record)]


if __name__ == "__main__":
    print("\n".join(answers(sys.stdin.read().removesuffix("\n").split("\n"))))
