"""Makes scripts of all rolls, with all that may go wrong between their calls.

    python3 make_scripts.py [--early-ends] SEED COUNT

Each script has a first roll that gives its zone a chain, then one or two rolls of the types in
turn. A Habit says what may come between two calls. With early ends some rolls end before their
first report. Otherwise a script depends only on its seed and its number. The key set of tables.py
makes the same calls, to know the state of keys and rolls; its answers are used for nothing else.
"""

import random
import re
import sys
from pathlib import Path

from tables import ROLLS, KeySet, meets

ZONES = [".", "example.com", "a-b.example"]
MOST = 18446744073709551615  # the greatest moment of a script
TTLS = [0, 1, 5, 60, 300, 3600, 86400, 4294967295]
FLAGS = ["present", "signer", "at-parent"]
STAMPS = ["visible", "ds-visible", "rrsig-visible"]
PLAIN = ["early_wait", "wrong_phase", "repeated_call", "refused_start", "refused_add", "beside"]
SETTERS = ["set_flag", "set_stamp", "retire", "delete", "give_again", "odd_key", "early_wait"]
BACKWARDS = ["moment_back", "moment_greatest", "wait_before_report", "early_wait"]
# What a script may do between two calls of its rolls, and how often.
HABITS = [
    ([], 0.0),
    (PLAIN, 0.3),
    (PLAIN, 0.7),
    (PLAIN + SETTERS, 0.3),
    (SETTERS, 0.5),
    (["odd_key", "refused_start", "early_wait"], 0.6),
    (["flip_flag", "flip_flag", "beside", "early_wait"], 0.9),
    (PLAIN + SETTERS + BACKWARDS, 0.6),
]


class ScriptDraft:
    """A script that is being made, and the key set after its lines."""

    def __init__(self, seed, number, early_ends=False):
        self.early_ends = early_ends
        self.random = random.Random(f"{seed} {number}")
        self.lines = ["zone " + self.random.choice(ZONES)]
        self.keyset = KeySet()
        self.now = self.random.choice([0, 1, 1000, 1700000000])
        self.habits, self.rate = HABITS[number // 6 % len(HABITS)]
        self.longest = self.random.choice([40, 70])
        self.causes = set()
        types = list(ROLLS)
        self.wanted = [types[number % 6]]
        self.first_roll(self.wanted[0])
        neighbours = [*filter(ROLLS[self.wanted[0]].tolerates, types)] or types
        self.wanted += self.random.choice([[], [self.random.choice(types)], neighbours[-1:]])
        self.run()

    def call(self, *fields):
        """Writes a line and gives its answer."""
        self.lines.append(" ".join(str(field) for field in fields))
        return self.keyset.call(self.lines[-1])

    def chance(self, rate):
        return self.random.random() < rate

    def some(self, names):
        """A few of the names, as a list in a script; seldom with one repeated."""
        names = self.random.sample(names, self.random.randint(min(1, len(names)), len(names)))
        return names + names[:1] if names and self.chance(0.05) else names

    def tick(self):
        return self.move(self.now + self.random.choice([0, 1, 7, 20]))

    def move(self, moment):
        """Goes to this moment, or as near to it as a script can say."""
        self.now = min(max(moment, 0), MOST)
        return self.now

    # Keys.

    def add(self, kind, algorithm=13, available=True):
        """Adds a key with a new reference and a new tag, and gives the reference."""
        tags = {key.tag for key in self.keyset.keys.values()}
        tag = next(tag for tag in range(65536) if tag not in tags)
        letter = self.random.choice([kind[0].upper(), kind[0], "K+" + kind])
        free = (f"{letter}{count}" for count in range(1000))
        name = next(name for name in free if name not in self.keyset.keys)
        self.add_as(kind, name, algorithm, tag, available)
        return name

    def add_as(self, kind, name, algorithm, tag, available):
        private = [] if kind == "public" else [self.random.choice(["-", name + ".private"])]
        yes_no = "yes" if available else "no"
        self.call("add-" + kind, name, *private, algorithm, tag, self.now, yes_no)

    def named(self, kinds, condition):
        """The references of the keys of these kinds that have a state which meets the condition."""
        return [
            name
            for name, key in self.keyset.keys.items()
            if key.kind in kinds and any(meets(state, condition) for state in key.states)
        ]

    def any_name(self):
        return self.random.choice(list(self.keyset.keys) + ["nobody"])

    # Rolls.

    def first_roll(self, after):
        """The algorithm roll without old keys that gives the zone its chain."""
        kinds = [["ksk", "zsk"], ["ksk", "zsk"], ["ksk", "csk", "zsk"]]
        if len(ROLLS[after].kinds) > 1:
            kinds += [["csk"], ["zsk", "csk"]]
        new = [self.add(kind) for kind in self.random.choice(kinds)]
        self.call("start", "algorithm-roll", "-", ",".join(new), self.tick())
        wanted, self.wanted = self.wanted, []
        self.run()
        self.wanted = wanted

    def run(self):
        """Goes on until all rolls are done, or the script is long."""
        while (self.wanted or self.keyset.phases) and len(self.lines) < self.longest:
            while self.habits and self.chance(self.rate / 2):
                getattr(self, self.random.choice(self.habits))()
            if self.early_ends and self.chance(0.2):
                self.end_early()
            rolls = sorted(self.keyset.phases)
            if self.wanted and self.may_start(self.wanted[0], rolls):
                if "refused_start" in self.habits:
                    self.refused_start()
                self.start(self.wanted.pop(0))
            elif rolls:
                self.go_on(self.random.choice(rolls))

    def may_start(self, roll, rolls):
        """Whether to start a roll now: if none is in progress, at times beside its neighbours."""
        return not rolls or self.chance(0.5) and self.tolerates(roll)

    def tolerates(self, roll):
        return all(map(ROLLS[roll].tolerates, self.keyset.phases))

    def start(self, roll):
        """Starts a roll from keys in use to new ones of the same algorithms."""
        kinds = [*ROLLS[roll].kinds]
        old = self.some(self.named(kinds, "!old present | !old signer"))
        if self.chance(0.1):
            old += self.named(kinds, "stale")[:1]
        fresh = self.random.choice([["csk"], ["ksk", "zsk"]]) if len(kinds) > 1 else kinds
        algorithms = {self.keyset.keys[name].algorithm for name in old}
        if not ROLLS[roll].same_algorithms:
            algorithms = {self.random.choice([8, 13, 15])}
        if self.chance(0.2):
            fresh = fresh + fresh[:1]
        new = [self.add(kind, algorithm) for algorithm in sorted(algorithms) for kind in fresh]
        self.call("start", roll, ",".join(old) or "-", ",".join(new) or "-", self.tick())

    def ripe(self, roll):
        """The moment at which the roll's wait is over, by its stamps."""
        word, ttl = self.keyset.phases[roll]
        stamps = [stamp for stamp in self.keyset.checked(word, roll) if stamp is not None]
        return max(stamps, default=self.now) + ttl

    def go_on(self, roll):
        """Makes the call that the roll waits for."""
        word, _ = self.keyset.phases[roll]
        if word.startswith("report"):
            self.call(word, roll, self.random.choice(TTLS), self.tick())
        elif word.startswith("wait"):
            late = self.random.choice([0, 0, 1, 5000])
            self.move(max(self.now, self.ripe(roll) + late))
            if self.call(word, roll, self.now).startswith("refused") and self.chance(0.7):
                self.longest = min(self.longest, len(self.lines) + 2)
        else:
            self.call(word, roll)
            for name in self.named(["ksk", "zsk", "csk"], "stale"):
                if self.chance(0.4):
                    self.call("delete", name)

    def end_early(self):
        """Ends a roll that waits for its first report, and starts it again at once or later. At
        times tries it though no roll waits so."""
        waiting = [roll for roll, (word, _) in self.keyset.phases.items() if word == "report1"]
        if not waiting or self.chance(0.1):
            if self.chance(0.2):
                self.call("abort", self.random.choice(list(ROLLS)))
            return
        roll = self.random.choice(sorted(waiting))
        self.call("abort", roll)
        if self.chance(0.4):
            start = next(line for line in reversed(self.lines) if line.startswith(f"start {roll} "))
            self.call(*start.split(" ")[:-1], self.tick())
        elif not self.wanted:
            self.wanted.append(roll)

    # What may come between two calls.

    def early_wait(self):
        for roll, (word, _) in sorted(self.keyset.phases.items()):
            if word.startswith("wait"):
                early = self.random.choice([1, 1, 30, 5000, 80000])
                self.call(word, roll, self.move(max(self.now, self.ripe(roll) - early)))

    def wait_before_report(self):
        for roll, (word, ttl) in sorted(self.keyset.phases.items()):
            if word.startswith("wait"):
                reported = self.ripe(roll) - ttl
                self.call(word, roll, self.move(reported - self.random.choice([1, 100])))

    def wrong_phase(self):
        word = self.random.choice(["report1", "wait1", "report2", "wait2", "done"])
        ttl = [self.random.choice(TTLS)] if word.startswith("report") else []
        moment = [] if word == "done" else [self.now]
        self.call(word, self.random.choice(list(ROLLS)), *ttl, *moment)

    def repeated_call(self):
        if len(self.lines) > 1:
            self.call(self.lines[-1])

    def refused_add(self):
        self.call("add-ksk", "A", "-", 13, self.random.choice([0, 9]), self.now, "yes")
        self.call("add-csk", self.any_name(), "-", 13, 500 + len(self.lines), self.now, "no")

    def beside(self):
        kind = self.random.choice(["ksk", "zsk", "csk", "public"])
        self.add(kind, self.random.choice([13, 13, 8]), self.chance(0.8))

    def refused_start(self):
        """A start with one fault, of a roll that could otherwise start."""
        cause = self.random.choice(
            "unknown kind repeated used both unavailable algorithm nothing nothing again".split()
        )
        rolls = self.keyset.phases if cause == "again" else filter(self.tolerates, ROLLS)
        roll = self.random.choice(sorted(rolls) or list(ROLLS))
        kinds = [*ROLLS[roll].kinds]
        old = self.named(kinds, "!old present")
        new = self.named(kinds, "!old !present !signer !at_parent")[:1]
        if not new:
            new = [self.add(kinds[0], 13, cause != "unavailable")]
        old, new = self.with_fault(cause, kinds, old, new)
        self.causes.add(cause)
        self.call("start", roll, ",".join(old) or "-", ",".join(new) or "-", self.now)

    def with_fault(self, cause, kinds, old, new):
        """The old and new keys of a start, with the fault of this name."""
        if cause == "unknown":
            self.random.choice([old, new]).append("nobody")
        elif cause == "kind":
            wrong = [kind for kind in ("ksk", "zsk", "csk", "public") if kind not in kinds]
            self.random.choice([old, new]).insert(0, self.add(self.random.choice(wrong)))
        elif cause == "repeated":
            new = new + new
        elif cause == "used":
            new = new + self.named(kinds, "present | old")[:1]
        elif cause == "both":
            old = old + new
        elif cause == "unavailable":
            new = [self.add(kinds[-1], 13, False)]
        elif cause == "algorithm":
            new = [self.add(kinds[0], 8)]
        elif cause == "nothing":
            old, new = self.random.choice([([], []), (old, new), (old, [])])
        return old, new

    def set_flag(self):
        word = self.random.choice(FLAGS)
        self.flag(word, self.any_name(), self.random.choice(["yes", "no"]))

    def flag(self, word, name, value):
        self.call("set-" + word, name, value, *([self.now] if word == "present" else []))

    def flip_flag(self):
        name, word = self.random.choice(list(self.keyset.keys)), self.random.choice(FLAGS)
        held = word.replace("-", "_") in self.keyset.keys[name].states[0]
        self.flag(word, name, "no" if held else "yes")

    def set_stamp(self):
        self.stamp(self.random.choice(STAMPS), self.any_name())

    def stamp(self, word, name):
        moment = min(max(0, self.now + self.random.randint(-60, 60)), MOST)
        self.call("set-" + word, name, moment)

    def odd_key(self):
        """A key with flags that no roll gave it, and in most cases with all stamps."""
        name = self.add(self.random.choice(["ksk", "zsk", "csk"]))
        if self.chance(0.5):
            self.call("set-stale", name)
        for word in self.random.sample(FLAGS, self.random.randint(1, 3)):
            self.flag(word, name, "yes")
        for word in STAMPS:
            if self.chance(0.9):
                self.stamp(word, name)

    def retire(self):
        if self.chance(0.2):
            self.call("set-decoupled", self.any_name(), self.random.choice(["yes", "no"]))
        else:
            self.call("set-stale", self.any_name())

    def delete(self):
        self.call("delete", self.any_name())

    def give_again(self):
        """Takes a key away and gives its reference and tag to another."""
        name = self.any_name()
        key = self.keyset.keys.get(name)
        self.call("set-stale", name)
        self.call("delete", name)
        if key:
            kind = self.random.choice(["ksk", "zsk", "csk", "public"])
            self.add_as(kind, name, 13, key.tag, True)

    def moment_back(self):
        self.move(self.now - self.random.choice([1, 100, 10000]))

    def moment_greatest(self):
        if self.chance(0.2):
            self.move(MOST - self.random.choice([0, 100]))


def read_scripts(text):
    """The named scripts of a text: '== ' and a name, then lines; '@NAME' stands for a script. The
    lines from one that begins with '-- ', as the answers of a sample, are left out."""
    scripts = {}
    for part in re.split("^== ", text, flags=re.MULTILINE)[1:]:
        name, *lines = part.split("\n-- ")[0].splitlines()
        scripts[name] = []
        for line in lines:
            if line.startswith("@"):
                scripts[name] += scripts[line[1:]]
            elif line and not line.startswith("#"):
                scripts[name].append(line)
    return scripts


def by_hand():
    return read_scripts(Path(__file__).with_name("by_hand.txt").read_text())


def generated(seed, count, early_ends=False):
    return {f"{seed}-{number}": ScriptDraft(seed, number, early_ends).lines
            for number in range(count)}


if __name__ == "__main__":
    asked = "--early-ends" in sys.argv
    seed, count = [word for word in sys.argv[1:] if word != "--early-ends"]
    for name, lines in generated(seed, int(count), asked).items():
        print("\n".join([f"== {name}", *lines, ""]))
